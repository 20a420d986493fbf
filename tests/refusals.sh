#!/bin/sh
# What the program pack says to packets of all kinds, to what it refuses and to malformed arguments, each on the stream where it belongs, and its
# status then. It needs crates/pack/out/pack. The frames are those of the second implementation (`peer answers`); one is asked of it here, and needs
# target/peer/release/peer.
cd "$(dirname "$0")/.."
streams=$(mktemp -d)
trap 'rm -rf "$streams"' EXIT
key=000102030405060708090A0B0C0D0E0F
ccm=01000000000000000000000000010000
gcm=00112233445566778899AABB00000001
data='usage: pack data CIPHER KEY IV VER PN NP ADDRESS DATA'
keys='usage: pack key CIPHER KEK IV KT KV KEY'
both="$data, or pack key CIPHER KEK IV KT KV KEY"
failed=0

# packs OUT ERR STATUS WORDS..: all that pack writes on standard output and on standard error, and its status
packs() {
    out=$1 err=$2 status=$3
    shift 3
    crates/pack/out/pack "$@" > "$streams/out" 2> "$streams/err"
    code=$?
    if [ "$(cat "$streams/out")" != "$out" ] || [ "$(cat "$streams/err")" != "$err" ] || [ $code != "$status" ]; then
        echo "tests/refusals.sh: pack $*"
        echo "  wanted ($status): $out"
        echo "  on standard error: $err"
        echo "  got ($code): $(cat "$streams/out")"
        echo "  on standard error: $(cat "$streams/err")"
        failed=1
    fi
}

# expect TEXT STATUS WORDS..: the text on standard output alone, or on standard error alone where an argument is malformed
expect() {
    text=$1 status=$2
    shift 2
    case $text in
        malformed:*) packs '' "$text" "$status" "$@" ;;
        *) packs "$text" '' "$status" "$@" ;;
    esac
}

long=$(printf '%0514d' 0)
expect 'refused: 5, layer call, place 0' 1 data ccm $key $ccm 1 1 1 0x4400 ''
expect 'refused: 5, layer call, place 0' 1 data gcm $key $gcm 1 1 1 0x4400 "$long"
expect 'refused: 5, layer call, place 0' 1 data gcm $key $ccm 1 1 1 0xFFFFFFFFFFF ''
expect 'refused: 7, layer call, place 0' 1 data ccm $key $gcm 1 1 1 0x1000000 00
expect 'refused: 7, layer call, place 0' 1 data ccm $key $ccm 1 1 1 0x100000000 00
expect 'refused: 11, layer cipher, place 0' 1 data ccm $key $gcm 1 1 1 0x4400 00
expect 'refused: 11, layer cipher, place 14' 1 data ccm $key 01000000000000000000000000010102 1 1 1 0x4400 00
expect 'refused: 11, layer cipher, place 15' 1 key ccm $key 01000000000000000000000000010007 0 1 $key
expect 'refused: 11, layer cipher, place 13' 1 key gcm $key 00112233445566778899AABB00010001 0 1 $key
expect 'refused: 11, layer cipher, place 15' 1 key gcm $key 00112233445566778899AABB00000000 0 1 $key

expect "malformed: the first argument is data or key; $both" 1
expect "malformed: the first argument is data or key; $both" 1 seal
expect "malformed: there are too few arguments or too many; $data" 1 data ccm $key $ccm 1 1 1 0x4400
expect "malformed: there are too few arguments or too many; $keys" 1 key ccm $key $ccm 0 1 $key 00
expect "malformed: CIPHER is ccm or gcm; $data" 1 data CCM $key $ccm 1 1 1 0x4400 00
expect "malformed: KEY has 32 hexadecimal digits; $data" 1 data ccm ${key}0 $ccm 1 1 1 0x4400 00
expect "malformed: IV has 32 hexadecimal digits; $data" 1 data ccm $key 0100000000000000000000000001000g 1 1 1 0x4400 00
expect "malformed: VER is a decimal number, 0 to 255; $data" 1 data ccm $key $ccm 256 1 1 0x4400 00
expect "malformed: PN is a decimal number, 0 to 65535; $data" 1 data ccm $key $ccm 1 -1 1 0x4400 00
expect "malformed: NP is a decimal number, 0 to 65535; $data" 1 data ccm $key $ccm 1 1 65536 0x4400 00
expect "malformed: ADDRESS is 0x and hexadecimal digits; $data" 1 data ccm $key $ccm 1 1 1 4400 00
expect "malformed: DATA has hexadecimal digits, two to a byte; $data" 1 data ccm $key $ccm 1 1 1 0x4400 000
expect "malformed: KEK has 32 hexadecimal digits; $keys" 1 key ccm 00 $ccm 0 1 $key
expect "malformed: KT is a decimal number, 0 to 255; $keys" 1 key ccm $key $ccm '' 1 $key
expect "malformed: KV is a decimal number, 0 to 255; $keys" 1 key ccm $key $ccm 0 1x $key
expect "malformed: KEY has 32 hexadecimal digits; $keys" 1 key gcm $key $gcm 0 1 00

new=F0F1F2F3F4F5F6F7F8F9FAFBFCFDFEFF
expect 'Packed a key packet: key-encryption key of version 1, sealed with AES-128 GCM, in a frame of 56 bytes:
80 33 00 31 00 11 22 33 44 55 66 77 88 99 AA BB
00 00 00 01 EF D2 BB 9B 65 13 5A F3 0F 9D FE 7E
FE 37 B0 AC 7D 4D B7 D9 DF 19 26 7C 73 49 7E 20
2C C3 8A A4 F0 29 1D 82
The frame opened again to the same contents.' 0 key gcm $key $gcm 2 1 $new
expect 'Packed a key packet: data key of version 9, sealed with AES-128 CCM, in a frame of 56 bytes:
80 33 00 31 01 00 00 00 00 00 00 00 00 00 00 00
00 01 00 00 BD 6E 9F B1 DD 84 A5 A5 7D 19 8E 86
9B FA D7 5B 53 66 CA E7 F6 E3 CC C1 96 3C 6F B2
F0 F3 C2 99 2B D1 DF 90
The frame opened again to the same contents.' 0 key ccm $key $ccm 0 9 $new

# data packets: with GCM; in the upper area; of version 10; of number 300 of 311
expect 'Packed data packet 1 of 1 of version 7: 8 bytes for 0x04400, sealed with AES-128 GCM, in a frame of 56 bytes:
80 33 00 30 00 11 22 33 44 55 66 77 88 99 AA BB
00 00 00 01 EA D2 4B 6B 97 E0 AE 06 BD 6A 74 E8
65 BF 38 71 B4 B2 16 E0 E7 DF 93 4D 31 E8 05 77
EF 93 00 41 1C AB F3 49
The frame opened again to the same contents.' 0 data gcm $key $gcm 7 1 1 0x4400 726F617374203700
expect 'Packed data packet 1 of 1 of version 7: 8 bytes for 0x10000, sealed with AES-128 CCM, in a frame of 56 bytes:
80 33 00 30 01 00 00 00 00 00 00 00 00 00 00 00
00 01 00 00 BA 66 6F 41 2F 77 51 50 8B EF 04 10
00 72 5F 86 9A 99 F5 2D 3C A7 C9 93 9D 26 1F EE
D0 6A E4 C3 71 E1 82 24
The frame opened again to the same contents.' 0 data ccm $key $ccm 7 1 1 0x10000 726F617374203700
expect 'Packed data packet 1 of 1 of version 7: 8 bytes for 0x13FF8, sealed with AES-128 GCM, in a frame of 56 bytes:
80 33 00 30 00 11 22 33 44 55 66 77 88 99 AA BB
00 00 00 01 EA D2 4B 6B 97 E0 AE FE C6 6B 74 E8
65 BF 38 71 B4 B2 F4 C8 A4 10 C7 02 E6 6F 7A 92
AC 5F A9 54 8D 68 EF 6A
The frame opened again to the same contents.' 0 data gcm $key $gcm 7 1 1 0x13FF8 726f617374203700
expect 'Packed data packet 1 of 1 of version 10: 8 bytes for 0x04400, sealed with AES-128 CCM, in a frame of 56 bytes:
80 33 00 30 01 00 00 00 00 00 00 00 00 00 00 00
00 01 00 00 B7 66 6F 41 2F 77 51 50 CF EE 04 10
00 72 5F 86 9A 99 E7 F0 2F 6C E9 30 DF EB 16 ED
33 1A 5D D0 6A A7 4D 20
The frame opened again to the same contents.' 0 data ccm $key $ccm 10 1 1 0x4400 726F617374203700
expect 'Packed data packet 300 of 311 of version 7: 8 bytes for 0x04400, sealed with AES-128 CCM, in a frame of 56 bytes:
80 33 00 30 01 00 00 00 00 00 00 00 00 00 00 00
00 01 00 00 BA 4B 6E 77 2E 77 51 50 CF EE 04 10
00 72 5F 86 9A 99 E4 0A 7D 32 FB 67 D8 52 E2 15
04 59 85 39 7E 1F 38 DC
The frame opened again to the same contents.' 0 data ccm $key $ccm 7 300 311 0x4400 726F617374203700
expect 'Packed data packet 1 of 1 of version 7: 8 bytes for 0x04400, sealed with AES-128 CCM, in a frame of 56 bytes:
80 33 00 30 01 00 00 00 00 00 00 00 00 00 00 00
00 01 00 00 BA 66 6F 41 2F 77 51 50 CF EE 04 10
00 72 5F 86 9A 99 73 02 89 0F 45 95 AA 6A F2 CF
5A D8 9E 64 21 8A D1 71
The frame opened again to the same contents.' 0 data ccm $key $ccm 7 1 1 0x4400 726F617374203700

# one of 256 bytes, each of another value, as the second implementation packs it
most=$(i=0; while [ $i -lt 256 ]; do printf '%02X' $i; i=$((i + 1)); done)
frame=$(echo "data gcm $key $gcm 255 65535 65535 81920 304 $most" | target/peer/release/peer answers | sed 's/../& /g' | fold -w 48 | sed 's/ $//')
expect "Packed data packet 65535 of 65535 of version 255: 256 bytes for 0x14000, sealed with AES-128 GCM, in a frame of 304 bytes:
$frame
The frame opened again to the same contents." 0 data gcm $key $gcm 255 65535 65535 0x14000 "$most"

[ $failed = 0 ] && echo 'tests/refusals.sh: all as expected'
exit $failed
