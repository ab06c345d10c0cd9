#!/usr/bin/env bash
# Real panels, coded by x265 and written with the binding, are read by libheif, its programs, exiftool and ImageMagick; see
# tests/readers. Where one of them is not installed the test is left out and a line says so; with the word `readers` in
# KAHOPIRU_REQUIRE that is a failure. tests/readers/install installs them on Debian.
set -euo pipefail
cd "$(dirname "$0")/.."
. tests/lib/left_out

missing=()
for tool in python3 x265 heif-info heif-convert exiftool; do
    command -v "$tool" >/dev/null || missing+=("$tool")
done
# Version 7 has a command of its own; that of Debian's version 6 is asked for by its full name, as others are called convert, too.
command -v magick >/dev/null || command -v convert-im6.q16 >/dev/null || missing+=(imagemagick)
command -v python3 >/dev/null && { python3 -c 'import ctypes; ctypes.CDLL("libheif.so.1")' 2>/dev/null || missing+=(libheif.so.1); }
if [ ${#missing[@]} -gt 0 ]; then
    left_out readers "the reading by real readers: not installed: ${missing[*]} (tests/readers/install installs what is wanted on Debian)"
    exit 0
fi

bindings/archive
(cd tests/readers/writer && cargo build --quiet --offline --release --locked)
export PYTHONDONTWRITEBYTECODE=1
exec python3 tests/readers/check.py target/cargo/release/sheet-writer target/readers
