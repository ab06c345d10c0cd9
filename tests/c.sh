#!/usr/bin/env bash
# The header is tried as a caller in C or C++ uses it, with every warning an error: it stands alone, the example finds what it checks, the
# calls over parts hand on what they are given, and the program in tests/c names every constant of the header, every field and every
# parameter, writes every file of upstream's list, and files with a visible size and in the wide form that are made by hand, and meets every
# refusal. Where there is no g++, the trial from C++ is left out and a line says so; with the word `c++` in KAHOPIRU_REQUIRE that is a
# failure.
set -euo pipefail
cd "$(dirname "$0")/.."
. tests/lib/left_out
header=bindings/c/kahopiru.h

fail() { echo "c: $1" >&2; exit 1; }

bindings/archive
lib=${KAHOPIRU_LIB_DIR:-target/staticlib}
mkdir -p target/c
warnings=(-Wall -Wextra -Wpedantic -Wconversion -Werror)
compile=(gcc "${warnings[@]}" -std=c11 -O2 -Ibindings/c -Itarget/c)

# The header needs nothing before it, and of other headers only those that every compiler brings along.
echo '#include "kahopiru.h"' >target/c/alone.c
for standard in c99 c11 c17; do gcc "${warnings[@]}" "-std=$standard" -Ibindings/c -fsyntax-only target/c/alone.c; done
own=(-ffreestanding -nostdinc -isystem "$(gcc -print-file-name=include)")
gcc "${warnings[@]}" -std=c99 "${own[@]}" -Ibindings/c -fsyntax-only target/c/alone.c

# From C++, panel P's file comes out as upstream's list has it.
if command -v g++ >/dev/null; then
    for standard in c++11 c++20; do
        g++ "${warnings[@]}" "-std=$standard" -Ibindings/c -o target/c/hello tests/c/hello.cpp "$lib/libkahopiru.a"
        [ "$(target/c/hello)" = "$(sed -n 's/^p [^ ]* //p' tests/vectors/upstream.txt)" ] || fail "as $standard, P's file is another"
    done
else
    left_out c++ "the header in C++: g++ is not installed"
fi

"${compile[@]}" -o target/c/example bindings/c/example.c "$lib/libkahopiru.a"
target/c/example

# C passes arguments by their place alone. by_name.h, made from the header, lets the program pass them by the names that the header gives.
tests/c/by_name "$header" >target/c/by_name.h
"${compile[@]}" -o target/c/handed tests/c/handed.c
target/c/handed
trial=(tests/c/{main,calls,reader,vectors,refusals,named,visible,forms}.c)
"${compile[@]}" -o target/c/trial "${trial[@]}" "$lib/libkahopiru.a"
target/c/trial tests/vectors/upstream.txt

# Nothing of the header is left out: a constant is named somewhere; a field or a parameter in a literal of its struct,
# `(STRUCT){.NAME = ..}`.
tests/c/declared "$header" >target/c/declared
# The program as it is written, without its comments; and its literals, with what its macros stand for.
program=$(cat "${trial[@]}" | gcc -fpreprocessed -E -P -xc - | tr '\n' ' ')
literals=$(for each in "${trial[@]}"; do gcc -E -P -Ibindings/c -Itarget/c "$each"; done | tr '\n' ' ' | grep -oE '\([a-z_]+\)\{[^}]*\}')
names_field() { grep -qE "^\($2\)\{.*\.$1 =" <<<"$literals"; }
while read -r kind name of _; do
    case $kind in
        constant) grep -qw "$name" <<<"$program" ;;
        field) names_field "$name" "$of" ;;
        parameter) names_field "$name" "${of}_arguments" ;;
    esac || fail "tests/c does not name the $kind $name${of:+ of $of}"
done <target/c/declared

# Pointers that a call does not read could change their names unseen: each is named as the length behind it, which the call does read. To
# the length calls colour and alpha are alike: they take what the writing calls take, but for the room; and those of a form take the form,
# and then what the others take.
awk '$1 == "parameter" && pointer != "" && $2 != pointer "_len" {
        print "c: behind " pointer " of " $3 " comes " $2 > "/dev/stderr"; exit 1 }
    { pointer = /^parameter .* uint(8|32)_t \*$/ ? $2 : "" }' target/c/declared
parameters() { grep "^parameter .* $1 " target/c/declared | sed "s/ $1 / /"; }
diff <(parameters kahopiru_file_length) <(parameters kahopiru_write | grep -v '^parameter out') >&2 ||
    fail "the length call takes something else than the writing call"
for each in file_length/form_length write/form_write; do
    diff <(echo 'parameter form uint8_t '; parameters "kahopiru_${each%/*}") <(parameters "kahopiru_${each#*/}") >&2 ||
        fail "kahopiru_${each#*/} takes something else than a form and what kahopiru_${each%/*} takes"
done

# Each number of the enum of refusals has words, and no other number has.
"${compile[@]}" -o target/c/words tests/c/words.c
diff <(sed -n '/^\/\* The numbers of refusals/,/^};/s/.* = \([0-9]*\),\{0,1\}$/\1/p' "$header") <(target/c/words | cut -f1) >&2 ||
    fail "kahopiru_refusal_text has words for other numbers than there are refusals"

# Header and crate have one version.
version=$(sed -n 's/^#define KAHOPIRU_VERSION "\(.*\)"$/\1/p' "$header")
crate=$(sed -n 's/^version = "\(.*\)"$/\1/p' bindings/rust/Cargo.toml)
[ "$version" = "$crate" ] || fail "the header has version '$version', and bindings/rust/Cargo.toml '$crate'"

# The archive wants of the C library what the header says, no more and no less.
sentence=$(tr -s ' *\n' ' ' <"$header" | grep -oE 'It wants [^.]* of the C library and nothing else\.' || true)
said=$(grep -oE '\bmem[a-z]+' <<<"$sentence" | sort | xargs || true)
wanted=$(nm --undefined-only "$lib/libkahopiru.a" | sed -n 's/^ *U //p' | sort | xargs)
[ "$wanted" = "$said" ] || fail "the archive wants '$wanted', and the header says '$said'"

count() { grep -c "^$1" target/c/declared; }
named="$(count constant) constants, $(count field) fields and $(count parameter) parameters"
echo "c: the example passes; $named are named; the archive wants $wanted alone"
