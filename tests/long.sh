#!/bin/sh
# Inputs of more than 100,000 lines, which bench and vectors must answer as the second implementation does, streams that fail, at which they must
# not end with status 0, and words that are not UTF-8. It needs the programs bench, demo and vectors in crates/*/out, and target/peer/release/peer.
cd "$(dirname "$0")/.."
bench=crates/bench/out/bench
vectors=crates/vectors/out/vectors
peer=target/peer/release/peer
work=$(mktemp -d)
trap 'rm -rf "$work"' EXIT
failed=0

# repeated FILE TIMES: the file so many times over
repeated() {
    for _ in $(seq "$2"); do
        cat "$1"
    done
}

# same INPUT PROGRAM WORD: the program prints of the input what the second implementation prints when it is given the word
same() {
    "$2" < "$1" > "$work/ours" && "$peer" "$3" < "$1" > "$work/theirs" && cmp "$work/ours" "$work/theirs" && return
    echo "tests/long.sh: $2 differs"
    failed=1
}

# fails INPUT OUTPUT PROGRAM: the program does not end with status 0
fails() {
    if "$3" < "$1" > "$2" 2> /dev/null; then
        echo "tests/long.sh: $3 < $1 > $2 ends well"
        failed=1
    fi
}

repeated crates/bench/stdin 2 > "$work/listing"
repeated crates/vectors/stdin 24 > "$work/cases"
same "$work/listing" "$bench" bench
same "$work/cases" "$vectors" answers

# a program's name and a word that are not UTF-8 are passed over
odd=$(printf '\377')
cp "$bench" "$work/$odd"
same crates/bench/stdin "$work/$odd" bench
"$bench" "$odd" < crates/bench/stdin | cmp - crates/bench/stdout || {
    echo "tests/long.sh: $bench does not pass over a word that is not UTF-8"
    failed=1
}
cp crates/demo/out/demo "$work/$odd"
for demo in "$work/$odd" "crates/demo/out/demo $odd"; do
    $demo | cmp - crates/demo/stdout || {
        echo "tests/long.sh: demo ends otherwise under a name, or with a word, that is not UTF-8"
        failed=1
    }
done

# a device that takes nothing, a folder, which cannot be read, and a line that is no text in the middle of others
{ cat crates/vectors/stdin; printf '\377\n'; cat crates/vectors/stdin; } > "$work/no_text"
fails "$work/listing" /dev/full "$bench"
fails "$work/cases" /dev/full "$vectors"
fails "$work" /dev/null "$bench"
fails "$work" /dev/null "$vectors"
fails "$work/no_text" /dev/null "$vectors"

[ $failed = 0 ] && echo "tests/long.sh: $(wc -l < "$work/listing") and $(wc -l < "$work/cases") lines, as the second implementation answers them"
exit $failed
