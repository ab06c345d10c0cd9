#!/usr/bin/env bash
# What README.md shows is tried as written: the commands with what they print, the program in C, and the program in Rust, and both again
# with the lines that it shows in the place of some of theirs. Where there is no python3, heif-convert or pkg-config, the commands that want
# it are left out and a line says so; with the word `python`, `readers` or `pkg-config` in KAHOPIRU_REQUIRE that is a failure.
set -euo pipefail
cd "$(dirname "$0")/.."
. tests/lib/left_out

fail() { echo "readme: $1" >&2; exit 1; }

# block LANGUAGE: the README's one block in this language
block() {
    local fence='```' count
    count=$(grep -cx "$fence$1" README.md || true)
    [ "$count" = 1 ] || fail "README.md has $count blocks of $1, and one is wanted"
    awk -v begin="$fence$1" -v end="$fence" '$0 == end { on = 0 } on { print } $0 == begin { on = 1 }' README.md
}

# prints COMMAND LINE: the command ends in this line, and README.md says so
prints() {
    local last
    last=$(bash -euo pipefail -c "$1" | tail -n 1)
    [ "$last" = "$2" ] || fail "what README.md shows prints '$last', not '$2'"
    grep -qF "\`$2\`" README.md || fail "README.md does not say that it prints '$2'"
}

home=$PWD
room=$(mktemp -d)
trap 'rm -rf "$room"' EXIT

# The commands are given at the root of the repository; here that root is a folder that leads to everything in it.
mkdir "$room/root"
for each in bindings crates crates.txt docs examples panel target tools; do ln -s "$home/$each" "$room/root/$each"; done

# Blocks of console: each line behind '$ ' is typed, and what stands below it is what it prints.
awk '/^```console$/ { on = 1; next } /^```$/ { on = 0 } on { print }' README.md >"$room/console"

# wanting COMMAND: the first thing that a program in it wants and that is not installed, behind its word for KAHOPIRU_REQUIRE
wanting() {
    local words word
    read -ra words <<<"$1"
    for word in "${words[@]}"; do
        if [ -f "$word" ] && head -n 1 "$word" | grep -qa '^#!.*python3$' && ! command -v python3 >/dev/null; then
            echo "python python3"
        elif [ "$word" = examples/picture ] && ! command -v heif-convert >/dev/null; then
            echo "readers heif-convert"
        elif [ "$word" = pkg-config ] && ! command -v pkg-config >/dev/null; then
            echo "pkg-config pkg-config"
        fi
    done | head -n 1
}

# The commands that want what is not there are taken out of the blocks, each with what it prints.
stays=yes words=() sentences=()
while IFS= read -r line; do
    if [[ $line == '$ '* ]]; then
        stays=yes
        if read -r word program < <(wanting "${line#??}"); then
            stays=no words+=("$word") sentences+=("${line#??}: $program is not installed")
        fi
    fi
    [ "$stays" = no ] || printf '%s\n' "$line"
done <"$room/console" >"$room/stays"
mv "$room/stays" "$room/console"
for each in "${!words[@]}"; do left_out "${words[each]}" "${sentences[each]}"; done

status=0
./panel </dev/null >"$room/log" 2>&1 || status=$?
[ "$status" = 1 ] || { cat "$room/log" >&2; fail "the program is not built"; }
sed -n 's/^\$ //p' "$room/console" | while read -r command; do
    printf '$ %s\n' "$command"
    (cd "$room/root" && PYTHONDONTWRITEBYTECODE=1 bash -c "$command" </dev/null 2>&1) || echo "ended with $?"
done >"$room/printed"
diff "$room/console" "$room/printed" >&2 || fail "the commands print something else than README.md shows"
block c >"$room/root/hello.c"
commands="cd '$room/root'; $(block sh)"
commands=${commands//bindings\/archive/true}
bindings/archive
prints "$commands" 'accepted, 556 bytes'

mkdir -p "$room/rust/src"
block rust >"$room/rust/src/main.rs"
grep -qF 'kahopiru = { path = "bindings/rust" }' README.md || fail "README.md does not say how to depend on the crate"
cat >"$room/rust/Cargo.toml" <<END
[package]
name = "hello"
version = "0.1.0"
edition = "2021"
[dependencies]
kahopiru = { path = "$home/bindings/rust" }
END
run="CARGO_TARGET_DIR='$home/target/cargo' cargo run --quiet --offline --manifest-path '$room/rust/Cargo.toml'"
prints "$run" '556 bytes'

# The other lines that it shows: one behind - is in one of the programs, and the one behind + takes its place.
block diff >"$room/diff"
programs=("$room/root/hello.c" "$room/rust/src/main.rs")
sed -n 's/^-//p' "$room/diff" | while IFS= read -r line; do
    found=$(cat "${programs[@]}" | grep -cxFe "$line" || true)
    [ "$found" = 1 ] || fail "README.md has another line for '$line', which is in its programs $found times"
done
for program in "${programs[@]}"; do
    awk 'NR == FNR { if (/^-/) old = substr($0, 2); else new[old] = substr($0, 2); next }
        { print $0 in new ? new[$0] : $0 }' "$room/diff" "$program" >"$room/changed"
    cp "$room/changed" "$program"
done
prints "$commands" 'accepted, 598 bytes'
prints "$run" '598 bytes'
echo "readme: what it shows prints what it says: $(grep -c "^\$ " "$room/console") commands, a program in C and one in Rust, and" \
    "$(grep -c '^+' "$room/diff") other lines in them"
