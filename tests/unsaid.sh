#!/bin/sh
# What no contract can say, looked for in the text of the sources:
# - the fields of the structs that a board owns are those of the table in docs/DECISIONS.md; a field more would be memory that nothing speaks of;
# - in the board and in the scrambler a supply is passed on and nothing else: it is asked for nowhere and set in one place, and only what powers a
#   board up, and runs that do, are bound by the trait for it;
# - no Clone, comparison or Debug is written by hand, and no Drop but that of the guard over the work buffer: nothing says what they give.
cd "$(dirname "$0")/.."
work=$(mktemp -d)
trap 'rm -rf "$work"' EXIT
failed=0

# the fields of a struct in a file, but for the ghost ones
fields() {
    awk -v name="$1" '
        $0 ~ "struct " name "[ <{]" { inside = 1; next }
        inside && /^}/ { exit }
        inside && /^ *(pub(\([a-z]*\))? )?[a-z_][a-z_0-9]*: / { sub(/^ *(pub(\([a-z]*\))? )?/, ""); sub(/:.*/, ""); print name, $0 }
    ' "crates/$2"
}

{
    fields Board board/src/board.rt
    fields Device board/src/device.rt
    fields Receiver board/src/receiver.rt
    fields Buffer buffer/src/lib.rt
    fields LentImage memory/src/lent.rt
    fields Scrambler memory/src/scrambler.rt
    fields Held memory/src/held.rt
    fields KeyRecord memory/src/held.rt
} | sort > "$work/code"

# the table's rows, as: struct field
sed -n '/^## What a board holds/,/^That there is/s/^| `\([A-Za-z]*\)` | `\([a-z_]*\)` | .*|$/\1 \2/p' docs/DECISIONS.md | sort > "$work/table"

if [ ! -s "$work/code" ] || ! diff "$work/table" "$work/code"; then
    echo 'tests/unsaid.sh: the fields in the code (>) are not those of docs/DECISIONS.md (<)'
    failed=1
fi

# only FOLDER LINES: where the code of a folder names a supply, but for comments, contracts and use lines, is what is wanted, so that a supply is passed
# on and not looked at, and set no more than once
only() {
    found=$(cd "$1" && grep -rnE '[sS]upply|NoEnd|Steps\(|power_up|PowerUp|Powered' . | grep -vE ':[0-9]+: *(//|ghost |ensures|requires|use )' |
        sed 's/^\.\/\([^:]*\):[0-9]*: */\1: /' | sort)
    if [ "$found" != "$2" ]; then
        printf '%s\n' "tests/unsaid.sh: $1 names a supply in" "$found"
        failed=1
    fi
}

only crates/board/src 'calls.rt: impl<M: Powered, C: PacketCipher> Board<M, C> {
calls.rt: pub fn power_up(&mut self, supply: Supply)
calls.rt: self.device.power_up(supply);
device/power.rt: impl<M: Powered> Device<M> {
device/power.rt: pub(crate) fn power_up(&mut self, supply: Supply)
device/power.rt: self.memory.set_supply(supply);
fresh.rt: Board::new(LentImage::over(image, Held::fresh(key, kek), Supply::NoEnd))
run.rt: Event::PowerUp(supply) => {
run.rt: impl<M: Powered, C: PacketCipher> Board<M, C> {
run.rt: self.power_up(supply);'

# and in the scrambler's file alone
scrambler=$(grep -nE '[sS]upply|NoEnd|Steps\(' crates/memory/src/scrambler.rt | grep -vE '^[0-9]+: *(//|ghost |ensures|requires|use )' | sed 's/^[0-9]*: *//')
if [ "$scrambler" != 'fn supply(&mut self) -> Supply {
self.below.supply()
fn set_supply(&mut self, supply: Supply) {
self.below.set_supply(supply);' ]; then
    printf '%s\n' 'tests/unsaid.sh: the scrambler names a supply in' "$scrambler"
    failed=1
fi

if grep -rnE '^ *impl.*\b(Clone|Copy|PartialEq|Eq|PartialOrd|Ord|Hash|Debug)(<[^>]*>)? for ' crates/*/src; then
    echo 'tests/unsaid.sh: these are written by hand'
    failed=1
fi
if grep -rnE '\bDrop for ' crates/*/src | grep -v 'Drop for Guard<'; then
    echo 'tests/unsaid.sh: these are written by hand'
    failed=1
fi

[ $failed = 0 ] && echo "tests/unsaid.sh: $(wc -l < "$work/code") fields, as in docs/DECISIONS.md"
exit $failed
