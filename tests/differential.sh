#!/usr/bin/env bash
# The writer is compared with upstream's, which is built from its own source; see tests/differential. The source is looked
# for in the folder that KAHOPIRU_UPSTREAM names, else in ../shared/docs/src beside the repository. Where it is not there the
# comparison is left out and a line says so; with the word `oracle` in KAHOPIRU_REQUIRE that is a failure. So it is with the sheets that
# go through target/bin/program_panel, where that cannot be built.
set -euo pipefail
upstream=$(realpath -m -- "${KAHOPIRU_UPSTREAM:-$(dirname "$0")/../../shared/docs/src}")
cd "$(dirname "$0")/.."
. tests/lib/left_out

if [ ! -d "$upstream/src" ]; then
    left_out oracle "the comparison with upstream: its source is not in $upstream (KAHOPIRU_UPSTREAM names another folder)"
    exit 0
fi
export KAHOPIRU_UPSTREAM=$upstream

bindings/archive
# Builds the program, too, where it is not there; it is asked nothing here.
./panel </dev/null >/dev/null || true
log=$(mktemp)
trap 'rm -f "$log"' EXIT
cd tests/differential
cargo build --quiet --offline --release --locked
program=../../target/cargo/release/differential
"$program" "$@" | tee "$log"
grep -qE '^program_panel: [1-9][0-9]* of them through the program$' "$log" ||
    left_out oracle "the comparison of the program: no sheet went through target/bin/program_panel"

# holds WORD FILE: what upstream writes, as `differential WORD` prints it, is what FILE has
holds() {
    "$program" "$1" | cmp - "../../$2" || {
        echo "differential: $2 is not what upstream writes; '$program $1' prints it" >&2
        exit 1
    }
    echo "differential: $2 holds what upstream writes"
}
holds vectors tests/vectors/upstream.txt
holds stored crates/program_files/stdout
