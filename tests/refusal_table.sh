#!/bin/sh
# Whether the test in crates/published has one line for each refusal of the table of docs/RULES.md, with its number, its layer and a place of its
# form, and no other line. That the code does what the lines say is what that test finds out.
cd "$(dirname "$0")/.."
work=$(mktemp -d)
trap 'rm -rf "$work"' EXIT

# the table's rows, as: number name layer form
sed -n 's/^| \([0-9]*\) | `\([A-Za-z]*\)` | \([a-z]*\) | \([^|]*\) | .*|$/\1 \2 \3 \4/p' docs/RULES.md |
    while read -r number name layer place; do
        case $place in
        0) form=none ;;
        'the command byte' | 'its first wrong byte' | KT | KV | 'the byte') form=byte ;;
        PN | 'the length' | 'the checksum received') form=word ;;
        'the first such address') form=address ;;
        *) form="unknown ($place)" ;;
        esac
        echo "$number $name $layer $form"
    done | sort > "$work/table"

# the test's lines in the same form; a place must be the value that the refusal is made with
sed -n 's/^ *(\([A-Za-z]*\)(*\([0-9A-Fx]*\))*, "\([0-9]*\), layer \([a-z]*\), place \([0-9]*\)"),$/\3 \1 \4 \5 \2/p' crates/published/src/lib.rt |
    while read -r number name layer place value; do
        if [ -z "$value" ] && [ "$place" = 0 ]; then
            form=none
        elif [ -z "$value" ] || [ $((value)) != "$place" ] || [ "$place" = 0 ]; then
            form="wrong ($value is not $place)"
        elif [ "$place" -le 255 ]; then
            form=byte
        elif [ "$place" -le 65535 ]; then
            form=word
        else
            form=address
        fi
        echo "$number $name $layer $form"
    done | sort > "$work/test"

if [ ! -s "$work/table" ] || ! diff "$work/table" "$work/test"; then
    echo 'tests/refusal_table.sh: the lines of the test in crates/published (>) are not the rows of docs/RULES.md (<)'
    exit 1
fi
echo "tests/refusal_table.sh: $(wc -l < "$work/table") refusals, as in docs/RULES.md"
