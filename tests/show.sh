#!/usr/bin/env bash
# tools/show, held to the offsets that the specification gives for panel P's file, to small files made by the test and to files that are
# cut short or damaged. It is a program in Python: where there is no python3 the test is left out and a line says so; with the word
# `python` in KAHOPIRU_REQUIRE that is a failure.
set -euo pipefail
cd "$(dirname "$0")/.."
. tests/lib/left_out

command -v python3 >/dev/null || { left_out python "the trial of tools/show: python3 is not installed"; exit 0; }
export PYTHONDONTWRITEBYTECODE=1
exec python3 tests/show/check.py
