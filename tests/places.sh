#!/bin/sh
# Layer and place of each refusal of the listing: `bench --places` prints what the second implementation prints; without the option both
# print crates/bench/stdout, and any other argument is told. It needs crates/bench/out/bench and target/peer/release/peer.
cd "$(dirname "$0")/.."
bench=crates/bench/out/bench
peer=target/peer/release/peer
work=$(mktemp -d)
trap 'rm -rf "$work"' EXIT
failed=0

# rows FILE PROGRAM WORDS..: what the program prints for the listing
rows() {
    file=$1
    shift
    if ! "$@" < crates/bench/stdin > "$file"; then
        echo "tests/places.sh: $* does not end well"
        failed=1
    fi
}

rows "$work/bench" $bench
rows "$work/peer" $peer bench
rows "$work/bench.places" $bench --places
rows "$work/peer.places" $peer bench --places
cmp crates/bench/stdout "$work/bench" || failed=1
cmp crates/bench/stdout "$work/peer" || failed=1
cmp "$work/peer.places" "$work/bench.places" || failed=1

# told WORDS..: bench prints nothing, tells its usage in one line and ends with status 1
told() {
    $bench "$@" < crates/bench/stdin > "$work/out" 2> "$work/err"
    if [ $? != 1 ] || [ -s "$work/out" ] || [ "$(wc -l < "$work/err")" != 1 ]; then
        echo "tests/places.sh: bench $* does not tell its usage"
        failed=1
    fi
}

told ''
told --place
told places
told --places --places
told --places ''

[ $failed = 0 ] && echo "tests/places.sh: $(wc -l < "$work/bench.places") rows, as the second implementation prints them"
exit $failed
