#!/usr/bin/env bash
# docs/LENGTH.md works out the lengths of cards: of each the rows sum to the last row, and ./panel writes just so many bytes of the sheet
# that the table names. What it says that the wide form adds is held to the files that tests/readers/writer makes of sheets in both forms:
# of those from which upstream's files are made, and of the examples. And the definition of the extras cites nothing of the file, but the
# panel and the kit's library alone: what a panel is listed with is known without a file. (That the rows are those of the sheet's panel is
# for bindings/rust/tests/lengths.rs.)
set -euo pipefail
cd "$(dirname "$0")/.."
page=docs/LENGTH.md
extras=crates/heif_length/specs/Extras.antt

fail() { echo "length: $1" >&2; exit 1; }
room=$(mktemp -d)
trap 'rm -rf "$room"' EXIT

# A card is a table whose head is `SHEET has`; a row ends in its number, be it behind an `=`. Of each card, a line: the sheet, what the rows
# above the last sum to, and the last.
awk -F ' *[|] *' '
    $2 ~ /\.sheet has$/ { sheet = $2; sub(/ has$/, "", sheet); sum = last = 0; getline; next }
    sheet && !/^[|]/ { print sheet, sum, last; sheet = "" }
    sheet { sub(/.*= /, "", $3); gsub(/,/, "", $3); sum += last; last = $3 }
    END { if (sheet) print sheet, sum, last }' "$page" >"$room/cards"

while read -r sheet sum last; do
    [ "$sum" = "$last" ] || fail "in $page the rows of $sheet sum to $sum, and its last row says $last"
    ./panel "$sheet" "$room/file" </dev/null || fail "./panel makes no file of $sheet"
    length=$(stat -c %s "$room/file")
    [ "$length" = "$last" ] || fail "./panel writes $length bytes of $sheet, and $page says $last"
done <"$room/cards"
cards=$(cut -d ' ' -f 1 "$room/cards" | sort -u | wc -l)
[ "$cards" -ge 2 ] || fail "$page works out $cards cards, and two are wanted"

bindings/archive
(cd tests/readers/writer && cargo build --quiet --offline --release --locked)

# adds WHAT: how many bytes the wide form adds for what the page's list names so, a number or a formula over n
adds() {
    local sum
    sum=$(sed -n "s/^- for $1: //p" "$page")
    [[ $sum =~ ^[0-9n\ +×]+$ ]] || fail "$page does not say in one line what the wide form adds for $1"
    echo "${sum//×/*}"
}
tiles=$(adds 'n tiles in each picture, with which every panel comes')
exif=$(adds Exif)
gain=$(adds 'a gain map')
tone=$(adds 'a tone map')

sheets=0
for sheet in crates/program_sheets/data/upstream-* examples/*.sheet; do
    target/cargo/release/sheet-writer "$sheet" "$room/ordinary" --wide "$sheet" "$room/wide"
    read -r map cols rows < <(od -An -tu2 --endian=big -N6 "$sheet")
    n=$((cols * rows))
    # The map's bits 4, 5 and 6 say that there is Exif, a gain map and a tone map.
    more=$(((tiles) + (map >> 4 & 1) * (exif) + (map >> 5 & 1) * (gain) + (map >> 6 & 1) * (tone)))
    found=$(($(stat -c %s "$room/wide") - $(stat -c %s "$room/ordinary")))
    [ "$found" = "$more" ] || fail "of $sheet the wide form adds $found bytes, and $page says $more"
    sheets=$((sheets + 1))

    # What the page works out for this sheet begins with its ordinary length.
    if worked=$(sed -n "s|^- $sheet: ||p" "$page" | tr -d , | grep .); then
        sum=${worked% = *} last=${worked#* = }
        [ "${sum%% *}" = "$(stat -c %s "$room/ordinary")" ] || fail "$page has another ordinary length for $sheet than its file"
        [ "$((${sum//×/*}))" = "$last" ] || fail "in $page what is summed for $sheet in the wide form is not $last"
        [ "$(stat -c %s "$room/wide")" = "$last" ] || fail "the wide file of $sheet has another length than $page says"
    fi
done
[ "$sheets" -ge 40 ] || fail "$sheets sheets have files in both forms, and 40 are wanted"
[ "$(grep -cE '^- [^:]*\.sheet: ' "$page")" -ge 2 ] || fail "$page works out fewer than two cards in the wide form"

[ -f "$extras" ] || fail "$extras is not there"
cited=$(grep -E '\buse Rattle\.' "$extras" | grep -vE '^use Rattle\.(std|panel)\.' || true)
[ -z "$cited" ] || fail "$extras cites more than the library and the panel: $cited"
echo "length: the $cards cards in $page have as many bytes as their rows sum to, and ./panel writes just these; the wide form adds" \
    "what it says to the files of $sheets sheets; the extras are told of the panel alone"
