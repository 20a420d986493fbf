#!/bin/sh
# Tests the second implementation, and has it make the input and the expected output of the programs bench and vectors anew; they must be
# those of crates/bench and crates/vectors.
set -e
cd "$(dirname "$0")/.."
cargo test --quiet --release --offline --manifest-path peer/Cargo.toml --target-dir target/peer
cargo build --quiet --release --offline --manifest-path peer/Cargo.toml --target-dir target/peer
peer=target/peer/release/peer
made=$(mktemp -d)
trap 'rm -rf "$made"' EXIT
"$peer" listing > "$made/listing"
"$peer" bench < "$made/listing" > "$made/rows"
"$peer" cases > "$made/cases"
"$peer" answers < "$made/cases" > "$made/answers"
cmp "$made/listing" crates/bench/stdin
cmp "$made/rows" crates/bench/stdout
cmp "$made/cases" crates/vectors/stdin
cmp "$made/answers" crates/vectors/stdout
echo 'tests/expected.sh: as committed'
