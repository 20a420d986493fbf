#!/bin/sh
# times.sh [NAME..]: proves crates from nothing by rt check, in the order of crates.txt, on a copy of the checkout, and prints the seconds of
# each and their sum. With names only these, in the order given: what else they stand on counts to the first that needs it.
cd "$(dirname "$0")/.." || exit 1
names=${*:-$(sed -n 's/^\([a-z0-9_]*\)[ a-z]*:.*/\1/p' crates.txt)}
copy=$(mktemp -d)
trap 'rm -rf "$copy"' EXIT
tar --exclude=out -cf - crates crates.txt | tar -C "$copy" -xf -
sum=0
for name in $names; do
    cd "$copy/crates/$name" || exit 1
    # rt check begins with what a check of the same text kept in any checkout on this machine, else with what stands in out/incremental: so
    # the text is made a new one, and nothing stands there.
    for root in src/lib.rt src/main.rt; do
        [ ! -f $root ] || echo "// $copy" >> $root
    done
    rm -rf out
    mkdir -p out/incremental
    start=$(date +%s)
    if ! rt check > "$copy/log" 2>&1; then
        tail -5 "$copy/log"
        echo "speed/times.sh: $name was not proved"
        exit 1
    fi
    seconds=$(($(date +%s) - start))
    sum=$((sum + seconds))
    printf '%-10s %6d s\n' "$name" $seconds
    # the library that the crates above stand on, so that its making is not in their times
    [ ! -f src/lib.rt ] || rt lib > /dev/null 2>&1
done
printf '%-10s %6d s\n' sum $sum
