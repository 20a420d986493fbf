#!/bin/sh
# Programs that must not build. A text of tests/refused becomes a module of a copy of crates/board, or the `Drop` of a struct in place of the
# derived one, and the compiler must refuse it at a place in it, by the error named here; and one line of crates/pack, turned. It compiles, and
# proves nothing.
cd "$(dirname "$0")/.."
copy=$(mktemp -d)
trap 'rm -rf "$copy"' EXIT
failed=0

# the crates as they are
restore() {
    rm -rf "$copy/crates"
    tar --exclude=out -cf - crates crates.txt | tar -C "$copy" -xf -
}

# compiles the board's tests, and what they stand on
build() {
    (cd "$copy/crates/boards" && rt try --test 2>&1)
}

# expect ERROR FILE: the compiler refused something in the file by that error
expect() {
    if ! echo "$got" | grep -q "$2:[0-9]*:[0-9]*: error\[$1\]"; then
        echo "tests/refused.sh: $2 is not refused by $1:"
        echo "$got" | tail -5
        failed=1
    fi
}

# modules NAME=ERROR..: each text as a module of crates/board, all in one build; the errors are of one phase of the compiler
modules() {
    restore
    for case in "$@"; do
        name=${case%=*}
        cp "tests/refused/$name.txt" "$copy/crates/board/src/$name.rt"
        echo "mod $name;" >> "$copy/crates/board/src/lib.rt"
    done
    got=$(build)
    for case in "$@"; do
        expect "${case#*=}" "src/${case%=*}.rt"
    done
}

# drops NAME=FILE..: each text as the `Drop` of the struct in that file, in place of the derived one; each is refused where the struct is taken
# apart, in the file named behind, by the error named last
drops() {
    for case in "$@"; do
        file=${case#*=}
        sed -i '/^#\[derive(Drop)\]$/d' "$copy/crates/$file"
        cat "tests/refused/${case%=*}.txt" >> "$copy/crates/$file"
    done
}

modules store_unopened=unknown-method store_unjudged=unknown-method store_forged=private-field store_key_unjudged=unknown-method \
    set_supply_while_obeying=unknown-method ask_supply_while_obeying=unknown-method \
    forge_core_command=private-field forge_opened=private-field forge_judged_key=private-field \
    reach_into_image=private-field change_fixed_byte=private-field
modules store_twice=borrow-e0382 store_key_twice=borrow-e0382 open_twice=borrow-e0382 open_again=borrow-e0382 copy_opened=borrow-e0382 copy_judged=borrow-e0382

restore
drops drop_lent_image=memory/src/lent.rt
got=$(build)
expect borrow-e0713 src/lent/lending.rt

restore
drops drop_scrambler=memory/src/scrambler.rt
got=$(build)
expect move-out-of-place src/scrambler.rt

restore
drops drop_device=board/src/device.rt drop_board=board/src/board.rt
got=$(build)
expect move-out-of-place src/device.rt
expect move-out-of-place src/board.rt

# pack: a frame that is given out for a sign made up, and not by the test that its packet opens again
restore
sed -i 's/= check_opens::<C>(.*/= crate::reopened::Opened { unit: () };/' "$copy/crates/pack/src/frames.rt"
got=$(cd "$copy/crates/pack" && rt try -- data 2>&1)
expect private-field src/frames.rt

# the crates build as they are, so that it is the texts that are refused
restore
if ! build > /dev/null; then
    echo 'tests/refused.sh: the copy does not build even without those texts'
    failed=1
fi

[ $failed = 0 ] && echo 'tests/refused.sh: all as expected'
exit $failed
