#!/bin/sh
# No failed write ends in status 0: each program is run as it ends well, and then with a full device in place of a stream or a file. It needs what rt ci
# builds, crates/*/out.
cd "$(dirname "$0")/.."
key=000102030405060708090A0B0C0D0E0F
iv=01000000000000000000000000010000
failed=0

# full COMMAND: it ends in status 0 with the stream or file '@' on /dev/null, and in another on /dev/full
full() {
    null=$(echo "$1" | sed 's,@,/dev/null,')
    full=$(echo "$1" | sed 's,@,/dev/full,')
    if ! sh -c "$null" > /dev/null 2>&1; then
        echo "tests/full.sh: does not end well: $null"
        failed=1
    fi
    if sh -c "$full" 2> /dev/null; then
        echo "tests/full.sh: ends in status 0: $full"
        failed=1
    fi
}

full "crates/pack/out/pack data ccm $key $iv 7 1 1 0x4400 00 > @"
full "crates/pack/out/pack key ccm $key $iv 0 1 $key > @"
full "crates/demo/out/demo > @"
full "crates/demo/out/demo @ > /dev/null"
full "crates/bench/out/bench < crates/bench/stdin > @"
full "crates/vectors/out/vectors < crates/vectors/stdin > @"
full "crates/sweep/out/sweep 60479 > @"
full "crates/speed/out/speed > @"

# of one line, written at once at the end
full "printf 'B        128\n' | crates/bench/out/bench > @"

[ $failed = 0 ] && echo 'tests/full.sh: all as expected'
exit $failed
