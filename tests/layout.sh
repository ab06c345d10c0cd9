#!/usr/bin/env bash
# No library crate rests on an assumed contract, and each module of a definition is read at one sitting. (That each crate is proved, and
# that its sources are laid out as `rt fmt` lays them out, is `rt ci`'s to find.)
set -euo pipefail
cd "$(dirname "$0")/.."

fail() { echo "layout: $1" >&2; exit 1; }

# What is assumed is the contract of a function that C defines: a crate declares it in an `extern` block, or calls it in the kit's libraries.
# No crate here has such a block. The verdict on a crate names what it assumes, and that on the static library what all the code that it
# links reaches: neither must name anything. It is read of the static library, and of each library on which that does not stand.
below=" $(sed -n 's/^kahopiru staticlib: *//p' crates.txt) "
[ "$below" != '  ' ] || fail "crates.txt lists no static library kahopiru"
libraries=0
for each in crates/*/src/lib.rt; do
    name=$(basename "${each%/src/lib.rt}")
    blocks=$(grep -rnE '^[^/]*extern( *"[^"]*")? *\{' "crates/$name/src" || true)
    [ -z "$blocks" ] || fail "$name assumes what it declares: $blocks"
    libraries=$((libraries + 1))
    case $below in *" $name "*) continue ;; esac
    said=$(cd "crates/$name" && rt check 2>&1) || fail "$name is not proved: $(tail -n 3 <<<"$said")"
    verdict=$(grep '^logic=' <<<"$said" | tail -n 1 || true)
    case $verdict in
        logic=proved*foreign=* | logic=proved*axioms=*) fail "$name assumes something: $verdict" ;;
        logic=proved*) ;;
        *) fail "there is no verdict on $name: $(tail -n 3 <<<"$said")" ;;
    esac
    [ "$name" != kahopiru ] || grep -q '^axioms libc: none reached ' <<<"$said" ||
        fail "what kahopiru reaches of libc is not told: $(grep '^axioms' <<<"$said")"
done

while read -r file; do
    lines=$(wc -l <"$file")
    [ "$lines" -lt 150 ] || fail "$file has $lines lines; fewer than 150 are wanted"
done < <(find crates -path '*/specs/*.antt')
echo "layout: nothing assumed in $libraries library crates; every module of a definition has fewer than 150 lines"
