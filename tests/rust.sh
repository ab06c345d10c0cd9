#!/usr/bin/env bash
# The Rust binding passes its own tests over the archive, its documentation has no broken link, and its build script ends with a
# sentence for every target that the archive is not for. None of this needs anything of upstream.
set -euo pipefail
cd "$(dirname "$0")/.."

fail() { echo "rust: $1" >&2; exit 1; }

bindings/archive
room=$(mktemp -d)
trap 'rm -rf "$room"' EXIT
# Within the folder, so that cargo finds the repository's settings wherever this is run from.
if ! (cd bindings/rust && cargo test --offline --release --locked) >"$room/log" 2>&1; then
    cat "$room/log" >&2
    exit 1
fi
export RUSTDOCFLAGS='-D rustdoc::broken-intra-doc-links'
if ! (cd bindings/rust && cargo doc --offline --release --locked --no-deps) >"$room/doc" 2>&1; then
    cat "$room/doc" >&2
    fail "the documentation has a broken link"
fi

# builds SYSTEM PROCESSOR WIDTH LIB_DIR: what the build script does for this target, with the archive in this folder
rustc --edition 2021 -o "$room/build" bindings/rust/build.rs
builds() {
    env -i CARGO_CFG_TARGET_OS="$1" CARGO_CFG_TARGET_ARCH="$2" CARGO_CFG_TARGET_POINTER_WIDTH="$3" KAHOPIRU_LIB_DIR="$4" \
        "$room/build" >"$room/out" 2>"$room/said"
}

# refused WORDS SYSTEM PROCESSOR WIDTH [LIB_DIR]: it ends with one line that has these words, and names nothing to link
touch "$room/libkahopiru.a"
refusals=0
refused() {
    local words=$1
    shift
    ! builds "$1" "$2" "$3" "${4:-$room}" || fail "the build script takes $*"
    [ "$(wc -l <"$room/said")" = 1 ] || fail "$* gets not one line: $(cat "$room/said")"
    grep -q '^kahopiru: ' "$room/said" || fail "$* is not told who speaks: $(cat "$room/said")"
    grep -qF "$words" "$room/said" || fail "$* is not told '$words': $(cat "$room/said")"
    ! grep -q rustc-link "$room/out" || fail "$* is refused, and linked all the same"
    refusals=$((refusals + 1))
}

for system in linux freebsd netbsd openbsd dragonfly; do
    builds "$system" x86_64 64 "$room" || fail "the build script refuses $system: $(cat "$room/said")"
    grep -qx 'cargo:rustc-link-lib=static=kahopiru' "$room/out" || fail "nothing is linked for $system"
    grep -qx "cargo:rustc-link-search=native=$(realpath "$room")" "$room/out" || fail "the archive's folder is not named for $system"
done
refused 'macOS takes Mach-O code alone. Build and run on Linux' macos x86_64 64
refused 'macOS takes Mach-O code alone. Build and run on Linux' macos aarch64 64
refused 'in the Windows Subsystem for Linux' windows x86_64 64
refused 'not for the system `ios`' ios aarch64 64
refused 'not for the system ``' '' x86_64 64
refused 'not for the processor `aarch64`' linux aarch64 64
refused 'pointers of 64 bits, and not 32' linux x86_64 32
refused 'Build it with the script `bindings/archive`' linux x86_64 64 "$room/none"
refused 'must be an absolute path' linux x86_64 64 target/staticlib

tests=$(grep -c '^test .* ok$' "$room/log")
echo "rust: $tests tests of the binding pass; its build refuses $refusals targets and folders that it cannot link"
