#!/usr/bin/env bash
# The refusals in words are the same wherever a user meets them: README.md's two tables, the header (`kahopiru_refusal_text`), the Rust
# crate (`Display`), and the program behind ./panel for each number that a sheet can be answered. The program's 6 says its room besides.
# README.md, docs/FORMAT.md, header and crate tell the same order of the checks.
set -euo pipefail
cd "$(dirname "$0")/.."

fail() { echo "words: $1" >&2; exit 1; }
room=$(mktemp -d)
trap 'rm -rf "$room"' EXIT

# README.md: rows of four cells whose first is a number; what stands in brackets at the end is a remark.
awk -F ' *[|] *' '$2 ~ /^[0-9]+$/ && NF == 5 { sub(/ \([^)]*\)$/, "", $4); print $2 "\t" $4 }' README.md | sort -n >"$room/readme"
[ "$(wc -l <"$room/readme")" -ge 14 ] || fail "README.md has $(wc -l <"$room/readme") refusals in its tables, and 14 are wanted"

gcc -Wall -Wextra -Werror -std=c99 -Ibindings/c -o "$room/c" tests/c/words.c
"$room/c" | grep -v "^0"$'\t' >"$room/header"
diff "$room/readme" "$room/header" >&2 || fail "the header (>) says a refusal in other words than README.md (<)"

# The order is that of README.md's first table, in which 7, the lookup's own, comes last. README.md itself says 2 to 6.
order=$(awk -F ' *[|] *' '$2 ~ /^[0-9]+$/ && NF == 5 { print $2 }' README.md | sed '/^7$/,$d' | xargs)
told() { grep -ohE "$2[0-9, to]+" "$1" | grep -oE '[0-9]+' | xargs; }
[ "$(told README.md 'in the order of this table, ')" = "${order/%2 3 4 5 6/2 6}" ] ||
    fail "README.md's table has the order $order, and the sentence above it another"
[ "$(told docs/FORMAT.md 'in this order: ')" = "$order" ] || fail "docs/FORMAT.md tells another order than $order"
[ "$(told bindings/c/kahopiru.h 'in the order ')" = "13 $order" ] || fail "the header tells another order than 13 and then $order"
[ "$(sed -n '/^ \* Refusals$/,/^ \* A sheet/s/^ \* *\([0-9]*\)   .*/\1/p' bindings/c/kahopiru.h | xargs)" = "$order 7 13" ] ||
    fail "the header lists the refusals of a panel in another order than $order, 7 and 13"
[ "$(told bindings/rust/src/refusal.rs 'in the order ')" = "$order" ] || fail "the Rust crate tells another order than $order"

bindings/archive
(cd bindings/rust && cargo run --quiet --offline --release --locked --example refusals) >"$room/rust"
diff "$room/readme" "$room/rust" >&2 || fail "the Rust crate (>) says a refusal in other words than README.md (<)"

# A sheet for each number that a sheet can be answered.
sheets=(1 no-columns 8 one-wider 6 file-of-32769 11 last-byte-missing 12 bit-9 13 depth-3 14 byte-left-over 15 sheet-of-12289)
said=0
for ((i = 0; i < ${#sheets[@]}; i += 2)); do
    number=${sheets[i]}
    words=$(./panel "crates/program_sheets/data/${sheets[i + 1]}" 2>&1 >/dev/null) && fail "${sheets[i + 1]} is accepted"
    [ "$number" != 6 ] || words=${words%; it is 32,768 bytes here*}
    [ "$words" = "panel: refused $number: $(sed -n "s/^$number\t//p" "$room/readme")" ] || fail "the program says of $number: $words"
    said=$((said + 1))
done
refusals=$(wc -l <"$room/readme")
echo "words: $refusals refusals have the same words in README.md, header and Rust crate, and the checks one order there and in" \
    "docs/FORMAT.md; $said are said by ./panel"
