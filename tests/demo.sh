#!/bin/sh
# Carries the programs' main jobs out: one data packet and one key packet, sealed, framed, printed and opened again; then a refusal; then
# the story of an update that is cut by a power failure, whose frames are written to target/update.frames.
set -e
cd "$(dirname "$0")/.."
pack=crates/pack/out/pack
key=000102030405060708090A0B0C0D0E0F
kek=F0E0D0C0B0A090807060504030201000

echo "# A data packet with CCM: 'roast 7' and a zero for the start of the lower area, packet 1 of 1 of version 7."
"$pack" data ccm $key 01000000000000000000000000010000 7 1 1 0x4400 726F617374203700
echo
echo "# A key packet with GCM: a new data key of version 1, sealed under the key-encryption key."
"$pack" key gcm $kek 00112233445566778899AABB00000001 0 1 $key
echo
echo "# An IV that is not well formed for CCM is refused, with the place of its first wrong byte."
"$pack" data ccm $key 01000000000000000000000000010007 7 1 1 0x4400 00 || echo "(status $?)"
echo
mkdir -p target
crates/demo/out/demo target/update.frames
