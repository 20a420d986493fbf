#!/bin/sh
# build.sh NAME WORDS..: proves and builds the program NAME, crates/NAME/out/NAME, and runs it once with the words.
cd "$(dirname "$0")/../crates/$1" || exit 1
name=$1
shift
log=$(mktemp)
trap 'rm -f "$log"' EXIT
if ! rt run -- "$@" > "$log" 2>&1; then
    cat "$log"
    echo "tests/build.sh: $name was not proved, or did not end well"
    exit 1
fi
