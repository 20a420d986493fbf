#!/bin/sh
# run.sh: measures opening a full packet beside mbedTLS and OpenSSL, and the board's byte call and mass erase, and prints the tables of
# docs/SPEED.md. It needs a C compiler, and Debian's libmbedtls-dev and libssl-dev, which it installs where they are missing.
set -e
cd "$(dirname "$0")/.."
work=$(mktemp -d)
trap 'rm -rf "$work"' EXIT

if ! printf '#include <mbedtls/ccm.h>\n#include <openssl/evp.h>\n' | cc -E - > /dev/null 2>&1; then
    apt-get update
    apt-get install -y gcc libc6-dev libmbedtls-dev libssl-dev
fi
cc -O2 -Wall -o "$work/opens" speed/opens.c -lmbedcrypto -lcrypto
cc -O2 -Wall -shared -fPIC -o "$work/noaes.so" speed/noaes.c
sh tests/build.sh speed

# take WHO COMMAND..: runs a program that prints lines NAME NANOSECONDS, and notes each behind WHO
take() {
    who=$1
    shift
    "$@" > "$work/lines"
    sed "s/^/$who /" "$work/lines" >> "$work/figures"
}

# Three rounds by turns, so that what else the machine does meets all alike. Hardware AES is off for OpenSSL by two bits of what it takes
# the processor for (AES, carry-less product), for mbedTLS by the library that is loaded before it.
for round in 1 2 3; do
    echo "speed/run.sh: round $round of 3" >&2
    take ours crates/speed/out/speed measure
    take off env OPENSSL_ia32cap='~0x200000200000000' LD_PRELOAD="$work/noaes.so" "$work/opens"
    take on "$work/opens"
done

echo "$(sed -n 's/^model name[^:]*: //p' /proc/cpuinfo | head -1), $(nproc) processors, load $(cut -d ' ' -f 1 /proc/loadavg)"
echo
awk '
    { at = $1 " " $2 }
    !(at in least) || $3 < least[at] { least[at] = $3 }
    function row(mode, library, title, hardware,    ours, theirs) {
        ours = least["ours open-" mode]
        theirs = least[hardware " " library "-" mode]
        printf "| %s | %s, hardware AES %s | %d | %d | %.2f |\n", toupper(mode), title, hardware, ours, theirs, ours / theirs
    }
    function rows(mode) {
        row(mode, "mbedtls", "mbedTLS", "off")
        row(mode, "openssl", "OpenSSL", "off")
        row(mode, "mbedtls", "mbedTLS", "on")
        row(mode, "openssl", "OpenSSL", "on")
    }
    END {
        print "| opening a full packet | beside | ours, ns | theirs, ns | ratio |"
        print "|---|---|---|---|---|"
        rows("ccm")
        rows("gcm")
        print ""
        packet = least["ours packet"]
        erase = least["ours erase"]
        fill = least["ours fill"]
        print "| the board | ns | beside | ns | ratio |"
        print "|---|---|---|---|---|"
        printf "| a byte call, the mean of the 304 of a full data packet | %.1f | a byte on the wire | 95000 | %.2f %% |\n", packet / 304, packet / 304 / 950
        printf "| all 304 byte calls | %d | a byte on the wire | 95000 | %.1f %% |\n", packet, packet / 950
        printf "| a mass erase | %d | a plain fill of 61,056 bytes | %d | %.0f |\n", erase, fill, erase / fill
    }
' "$work/figures"
