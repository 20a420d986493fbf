#!/bin/sh
# Opens the update that the demonstration sends with the tools of docs/OPENING.md: the programs that stand there must print what stands there.
# Tools that are not on this machine are passed over. It needs crates/demo/out/demo.
cd "$(dirname "$0")/.."
work=$(mktemp -d)
trap 'rm -rf "$work"' EXIT
failed=0
tried=0
mkdir -p target
crates/demo/out/demo target/update.frames > /dev/null || exit 1

# block N: the text of the page between its fences number 2N - 1 and 2N
block() {
    awk -v n="$1" '/^```/ { fence++; next } fence == 2 * n - 1' docs/OPENING.md
}

# compare N: whether a program printed block N
compare() {
    tried=$((tried + 1))
    block "$1" > "$work/want"
    if ! cmp "$work/got" "$work/want"; then
        cat "$work/got"
        failed=1
    fi
}

if python3 -c 'import cryptography' 2> /dev/null; then
    block 1 > "$work/open.py"
    python3 "$work/open.py" > "$work/got" 2>&1
    compare 2
else
    echo 'tests/opening.sh: no Python with cryptography here'
fi

if printf '#include <openssl/evp.h>\n' | cc -E - > /dev/null 2>&1; then
    block 3 > "$work/open.c"
    cc -o "$work/open" "$work/open.c" -lcrypto && "$work/open" > "$work/got" 2>&1
    compare 4
else
    echo 'tests/opening.sh: no libcrypto to compile against here'
fi

[ $failed = 0 ] && [ $tried != 0 ] && echo "tests/opening.sh: $tried of 2 as in docs/OPENING.md"
exit $failed
