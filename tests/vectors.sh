#!/usr/bin/env bash
# tests/vectors/upstream.txt holds upstream's files for a list of sheets: on each line a name, the sheet and the file in hexadecimal,
# as `differential vectors` prints them from upstream's own writer, with the alpha depth put in where that is another, and 6, the
# offset of the TIFF header, where Exif begins with its marker. The program crate program_sheets replays them inside the proofs' run, with no
# Rust at hand: here it is seen that its sheets and what it must print are those of the list. With --store they are
# made anew from the list, behind what else program_sheets holds.
set -euo pipefail
cd "$(dirname "$0")/.."
list=tests/vectors/upstream.txt
runs=crates/program_sheets

fail() { echo "vectors: $1" >&2; exit 1; }
raw() { printf "$(sed 's/../\\x&/g' <<<"$1")"; }

room=$(mktemp -d)
trap 'rm -rf "$room"' EXIT
mkdir "$room/data"
while read -r name sheet file; do
    echo "upstream-$name" >>"$room/args"
    raw "$sheet" >"$room/data/upstream-$name"
    { raw "$file"; echo; } >>"$room/stdout"
done <"$list"

if [ "${1:-}" = --store ]; then
    rm -f "$runs"/data/upstream-*
    # What stands before the first of the list's names is kept, and what is printed for it.
    old=$(grep -c '^upstream-' "$runs/args" || true)
    [ "$old" = 0 ] || fail "$runs/args has names of the list already; take them out, and what is printed for them"
    cp "$room"/data/* "$runs/data/"
    cat "$room/args" >>"$runs/args"
    cat "$room/stdout" >>"$runs/stdout"
fi

cmp -s <(grep '^upstream-' "$runs/args") "$room/args" || fail "$runs/args does not name the list's sheets in their order"
[ "$(tail -n "$(wc -l <"$room/args")" "$runs/args" | sort)" = "$(sort "$room/args")" ] || fail "the list's sheets do not come last in $runs/args"
for each in "$room"/data/*; do
    cmp -s "$each" "$runs/data/$(basename "$each")" || fail "$runs/data/$(basename "$each") is not the list's sheet"
done
tail -c "$(stat -c %s "$room/stdout")" "$runs/stdout" | cmp -s - "$room/stdout" || fail "$runs/stdout does not end in the list's files"
echo "vectors: program_sheets replays the $(wc -l <"$list") files of upstream's list"
