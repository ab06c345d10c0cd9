#!/usr/bin/env bash
# An item id and a property position are not taken for each other, nor an id over u32 and one over u16: on a temporary copy, each given for
# the other is a type error of the compiler, and the unedited copy passes.
set -euo pipefail
cd "$(dirname "$0")/.."

fail() { echo "types: $1" >&2; exit 1; }

copy=$(mktemp -d)
trap 'rm -rf "$copy"' EXIT
tar --exclude='crates/*/out' -c crates crates.txt | tar -x -C "$copy"

# compiles CRATE: the compiler's part of a check, without the proofs of the crate itself
compiles() { (cd "$copy/crates/$1" && rt check --only '') >"$copy/out" 2>&1; }

# mistaken CRATE FILE OLD NEW ERROR: the edit is refused with this type error, and is taken back
mistaken() {
    grep -qF "$3" "$copy/crates/$1/src/$2" || fail "crates/$1/src/$2 no longer has '$3'"
    sed -i "s/$3/$4/" "$copy/crates/$1/src/$2"
    ! compiles "$1" || fail "crates/$1/src/$2 compiles with $4"
    grep -q "error\[mismatched-types\]: $5" "$copy/out" || fail "another error than '$5': $(tail -n 3 "$copy/out")"
    cp "crates/$1/src/$2" "$copy/crates/$1/src/$2"
}

for crate in plan_runs write_ids write_iloc write_ipma; do
    compiles "$crate" || fail "the unedited copy of $crate does not compile: $(tail -n 3 "$copy/out")"
done

# A position for an id: in the leaves of each form, and where the form has yet to be chosen.
position='panel::PropertyPosition(1)'
for_ordinary="expected \`ItemId\`, found \`PropertyPosition\`"
for_wide="expected \`WideItemId\`, found \`PropertyPosition\`"
mistaken write_ids lib.rt 'write_ordinary_id(out, ordinary_id(id))' "write_ordinary_id(out, $position)" "$for_ordinary"
mistaken write_ids lib.rt 'write_wide_id(out, id)' "write_wide_id(out, $position)" "$for_wide"
mistaken write_ids lib.rt 'write_id(out, form, WideItemId(id))' "write_id(out, form, $position)" "$for_wide"
mistaken write_ipma association.rt 'write_ordinary_association(out, ordinary_id(id)' "write_ordinary_association(out, $position" "$for_ordinary"
mistaken write_ipma association.rt 'write_wide_association(out, id, n' "write_wide_association(out, $position, n" "$for_wide"
mistaken write_ipma association.rt 'write_association(out, form, id' "write_association(out, form, $position" "$for_wide"
mistaken write_ipma association.rt 'write_association(out, form, WideItemId(id)' "write_association(out, form, $position" "$for_wide"
mistaken write_iloc location.rt 'write_ordinary_location(out, ordinary_id(l.id)' "write_ordinary_location(out, $position" "$for_ordinary"
mistaken write_iloc location.rt 'write_wide_location(out, l.id' "write_wide_location(out, $position" "$for_wide"
mistaken write_iloc location.rt 'WideItemId(id)' "$position" "$for_wide"

# An id over u32 for one over u16.
uncut="expected \`ItemId\`, found \`WideItemId\`"
mistaken write_ids lib.rt 'write_ordinary_id(out, ordinary_id(id))' 'write_ordinary_id(out, id)' "$uncut"
mistaken write_ipma association.rt 'write_ordinary_association(out, ordinary_id(id)' 'write_ordinary_association(out, id' "$uncut"
mistaken write_iloc location.rt 'write_ordinary_location(out, ordinary_id(l.id)' 'write_ordinary_location(out, l.id' "$uncut"

# An id over u16 for one over u32, which is what could have been cut.
cut="expected \`WideItemId\`, found \`ItemId\`"
mistaken write_ids lib.rt 'write_wide_id(out, id)' 'write_wide_id(out, ordinary_id(id))' "$cut"
mistaken write_ipma association.rt 'write_wide_association(out, id, n' 'write_wide_association(out, ordinary_id(id), n' "$cut"
mistaken write_iloc location.rt 'write_wide_location(out, l.id' 'write_wide_location(out, ordinary_id(l.id)' "$cut"

# An id for a position: where positions are counted, and in a run that goes to ipma's writers.
mistaken plan_runs lib.rt 'PropertyPosition(self.next.0 + count)' 'panel::ItemId(1)' "expected \`PropertyPosition\`, found \`ItemId\`"
mistaken plan_runs lib.rt 'PropertyPosition(self.next.0 + count)' 'panel::WideItemId(1)' "expected \`PropertyPosition\`, found \`WideItemId\`"
mistaken plan_runs lib.rt 'Run::new(self.next, count)' 'Run::new(panel::ItemId(1), count)' "expected \`PropertyPosition\`, found \`ItemId\`"
echo "types: a position is not taken for an id, nor an id for a position, nor an id over u32 for one over u16, nor that for one over u32"
