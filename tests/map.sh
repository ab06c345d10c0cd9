#!/usr/bin/env bash
# docs/MAP.md is a map of the crates as they are: its picture is what tools/map draws, every crate of crates.txt is in the picture, and every
# crate and path that the page names exists. tools/map is a program in Python: where there is no python3 the drawing is left out and a line
# says so; with the word `python` in KAHOPIRU_REQUIRE that is a failure.
set -euo pipefail
cd "$(dirname "$0")/.."
. tests/lib/left_out
page=docs/MAP.md
picture=docs/crates.svg

fail() { echo "map: $1" >&2; exit 1; }

if command -v python3 >/dev/null; then
    drawn=$(tools/map) || fail "tools/map draws no picture"
    [ "$drawn" = "$(cat "$picture")" ] || fail "$picture is not what tools/map draws; 'tools/map >$picture' draws it anew"
else
    left_out python "the drawing of $picture: python3 is not installed"
fi

crates=0
while read -r crate; do
    grep -qF ">$crate</text>" "$picture" || fail "$crate is not in $picture"
    crates=$((crates + 1))
done < <(sed -nE 's/^([a-z_]*)( staticlib)?:.*/\1/p' crates.txt)
grep -qF '](crates.svg)' "$page" || fail "$page does not show $picture"

# A path is every word with a slash, at the root or below crates/; a crate is the first word of `crate::name`.
named=0
while read -r word; do
    case $word in
        src/ | specs/ | proofs/ | must-fail/) continue ;; # folders that crates have
        *::) [ -d "crates/${word%::}" ] || fail "$page names the crate ${word%::}, which is not there" ;;
        *) [ -e "$word" ] || [ -e "crates/$word" ] || fail "$page names the path $word, which is not there" ;;
    esac
    named=$((named + 1))
done < <(grep -oE '[A-Za-z0-9_.-]+/[A-Za-z0-9_./-]*|[a-z_]+::' "$page" | sed 's/\.$//' | sort -u)
[ "$crates" -gt 0 ] && [ "$named" -gt 0 ] || fail "no crate was found in crates.txt, or none is named in $page"
echo "map: the $crates crates of crates.txt are in $picture, and the $named crates and paths that $page names are there"
