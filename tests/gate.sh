#!/bin/sh
# rt ci over all crates, and then what the programs that it built print and refuse. Fails where one of these fails, and where a must-fail edit
# is bad. Where all passes, its last line is rt ci's.
cd "$(dirname "$0")/.." || exit 1
log=$(mktemp)
trap 'rm -f "$log" "$log.status"' EXIT
# all but the last line, which is held back
{ rt ci 2>&1; echo $? > "$log.status"; } | tee "$log" | sed -u '$d'
failed=$(cat "$log.status")
if [ "$failed" = 0 ]; then
    for script in refusal_table refusals full opening places long; do
        sh tests/$script.sh || failed=1
    done
fi
if grep -q '^rt: ok.*, [1-9][0-9]* bad' "$log"; then
    echo 'tests/gate.sh: a must-fail edit is bad'
    failed=1
fi
if [ "$failed" != 0 ]; then
    tail -1 "$log"
    echo 'tests/gate.sh: failed'
    exit 1
fi
tail -1 "$log"
