#!/usr/bin/env bash
# What the documents cite is there: every path and every name of README.md and of those documents in docs/ that are listed below, and in all
# documents what a link leads to, the file and the heading in it. The dumps of panel P in docs/FORMAT.md and docs/SHEET.md are P's bytes.
#
# A path is every word with a slash, or that ends as a file's name does, in backticks or not. Those in docs/ leave out `crates/`, and an
# edit's ending; a file's name without a folder is some crate's file. A name is what stands in backticks, or each word of it where it is a
# formula, and is defined in the crates, the bindings or the tests: a function, type, variant, law or record, what a struct requires of its
# fields, or a crate. Where the name is given its crate (`crate::name`) or its place in a folder (`name` (folder/file)), it is defined there.
# Bytes (`00 AA`) are no names. Blocks of code are not looked at, but for the dumps and the shell lines that make a sheet; readme.sh tries
# those of README.md.
set -euo pipefail
cd "$(dirname "$0")/.."

file_name='\.(antt|rt|rs|sh|md|h|c|py|png|svg|sheet|txt|edit)$'
room=$(mktemp -d)
trap 'rm -rf "$room"' EXIT

# What is cited and is not of this repository, or not one thing of it.
not_ours=(
    awxkee/hpvca ISO/IEC             # upstream, and those who publish the standards
    ../shared/docs/src               # where upstream's source lies
    isobmff/gain_map.rs ImageMeta    # a file of upstream's, and a type
    src/ specs/ proofs/ must-fail/   # folders that crates have, and upstream
    crates/NAME target/              # any crate's folder, and that of what is built
    hello.c p.sheet                  # the reader's own files
    card.heic card.png film.png whole.png
    application/rdf                  # the content type of XMP, up to its +
    requires ensures pub mod mut     # words of Rattle
    Option None TryFrom io::Write    # types of Rust's, and traits
    impl Model                       # a type's model, of the kit
    .antt abbrev unfoldable          # an ending, and words of antt
    .old .new panel.now result       # of a contract: what was lent, before, after or throughout, and the answer
    rt must-fail selftest bin staticlib  # the kit's command, its folder, and a word of crates.txt
    git status flock setsid          # commands, with options of theirs
    pkg-config --libs --modversion cargo doc --open
    libkahopiru.a                    # what is built
    std                              # the kit's library
)
ours() { [[ " ${not_ours[*]} " != *" $1 "* ]]; }

# defined: a line `NAME FILE` for each definition
defined() {
    find crates -name '*.antt' -exec awk '
        /^(use|returns|unfolding|mod|--) / { next }
        /^[^ ]/ || /^ *((abbrev|unfoldable) )?pub / {
            sub(/^ */, "")
            while (/^(abbrev|unfoldable|pub|record|data|module) /) sub(/^[a-z]+ /, "")
            if ($2 ~ /^[:({]/) print $1, FILENAME
        }' {} +
    find crates bindings tests \( -name '*.rt' -o -name '*.rs' \) -exec awk '
        /^ *\/\// { next }
        match($0, /(fn|struct|enum|trait|const|type) +[A-Za-z_0-9]+/) { split(substr($0, RSTART, RLENGTH), word, / +/); print word[2], FILENAME }
        /^ *ghost [a-z_]+: / { sub(/:$/, "", $2); print $2, FILENAME }
        /^ *(pub )?enum .*\{$/ { variants = 1; next }
        /^ *\}/ { variants = 0 }
        variants && match($0, /^ *[A-Z][A-Za-z0-9]*/) { name = substr($0, 1, RLENGTH); gsub(/ /, "", name); print name, FILENAME }' {} +
    tests/c/declared bindings/c/kahopiru.h | awk '{ print $2, "bindings/c/kahopiru.h" }'
    for crate in crates/*/; do echo "$(basename "$crate") $crate"; done
}
declare -A files_of # of each name, the files that define it
while read -r name file; do files_of[$name]+=" $file"; done < <(defined)

faults=0 paths=0 names=0 placed=0 links=0
fault() { echo "cited: $1" >&2; faults=$((faults + 1)); }

# find_path WORD: sets `place` to where a path that the document cites lies, or to nothing
find_path() {
    local each places=("$1")
    [ "$document" = README.md ] || places+=("crates/$1" "crates/$1.edit" "docs/$1")
    for each in "${places[@]}"; do
        if [ -e "$each" ]; then place=$each; return; fi
    done
    place=
    [[ $1 == */* ]] || place=$(find crates -name "$1" -print -quit)
}

# look NAME WHERE DOCUMENT: whether the name is defined somewhere below WHERE
look() {
    if [[ $1 == KAHOPIRU_* || $1 == --* ]]; then
        # a variable or an option that a script or a program asks for
        grep -rqwe "$1" --include='*.sh' --include='*.rs' tests bindings || fault "$3 cites $1, which nothing asks for"
    else
        local file
        for file in ${files_of[$1]-}; do
            if [[ $file == "$2"* ]]; then return; fi
        done
        fault "$3 cites $1, which is not defined${2:+ in $2}"
    fi
}

# text_of DOCUMENT: its text, without blocks of code
text_of() { awk '/^```/ { on = !on; next } !on' "$1"; }

for document in README.md docs/CLAIMS.md docs/DECISIONS.md docs/FORMAT.md docs/LENGTH.md docs/MAP.md docs/SHEET.md; do
    text_of "$document" >"$room/text"

    while read -r word; do
        ours "$word" || continue
        paths=$((paths + 1))
        find_path "$word"
        [ -n "$place" ] || fault "$document cites the path $word, which is not there"
    done < <(LC_ALL=C tr -c 'A-Za-z0-9_./-' '\n' <"$room/text" | sed -E 's/\.+$//' |
        grep -E "/|$file_name" | sort -u)

    while read -r span; do
        # Paths are looked at above. Several words with a digit or a sign of the shell among them are a command, or what one prints.
        if [[ $span == */* || $span =~ $file_name || $span =~ ^[0-9A-F]{2}(\ [0-9A-F]{2})*$ ]]; then continue; fi
        if [[ $span == *\ *[0-9=,\"]* || $span == *[0-9]*\ * || $span == 'refused N' ]]; then
            echo "cited: in $document a command, or what one prints: $span"
            continue
        fi
        # Of a formula, words of one letter are its variables.
        span=${span//≡/ }
        for name in ${span//[()&]/ }; do
            if [ ${#name} = 1 ] || ! ours "$name"; then continue; fi
            names=$((names + 1))
            case $name in
                *::*) look "${name##*::}" "crates/${name%%::*}/" "$document" ;;
                *) look "$name" "" "$document" ;;
            esac
        done
    done < <(grep -oE '`[^`]+`' "$room/text" | tr -d '`' | sort -u)

    while IFS='(' read -r list word; do
        find_path "$word"
        [ -n "$place" ] || continue
        list=${list//, / }
        for name in ${list// and / }; do
            placed=$((placed + 1))
            look "${name//\`/}" "$place" "$document"
        done
    done < <(grep -oE '(`[^` ]+`(, | and )?)+ \([a-z_]+/[A-Za-z0-9_./-]+' "$room/text")
done

# anchors DOCUMENT: what leads to each of its headings: its words in small letters, joined by -
anchors() { text_of "$1" | sed -nE 's/^#+ +//p' | LC_ALL=C tr 'A-Z ' 'a-z-' | LC_ALL=C sed 's/[^a-z0-9_-]//g'; }

# Links that lead elsewhere, and those of rustdoc's, which tests/rust.sh tries, are not looked at.
shopt -s nullglob
for document in *.md docs/*.md examples/*.md bench/*.md bindings/*/*.md; do
    while read -r target; do
        links=$((links + 1))
        case $target in
            \#*) file=$document ;;
            *) file=$(dirname "$document")/${target%%#*} ;;
        esac
        if [ ! -e "$file" ]; then
            fault "$document links to $target, which is not there"
        elif [[ $target == *#* ]] && ! grep -qxF -- "${target#*#}" <(anchors "$file"); then
            fault "$document links to $target, and $file has no such heading"
        fi
    done < <(text_of "$document" | grep -oE '\]\([^) ]+\)' | sed -E 's/^..(.*).$/\1/' | grep -vE '^([a-z]+:|fn@)' || true)
done

# dump DOCUMENT: the bytes of its one dump, in hex; each line has the offset of its first byte, the bytes, and two spaces before the words
dump() {
    awk '/^```/ { on = !on; next }
        on && /^ *[0-9]+  [0-9A-F][0-9A-F]( |$)/ {
            sub(/^ */, ""); at = $1; sub(/^[0-9]+  /, ""); sub(/  .*/, ""); gsub(/ /, "")
            if (at != n) { print "the line " at " should be " n; exit }
            n += length($0) / 2
            printf "%s", tolower($0)
        }' "$1"
}
hex() { od -An -v -tx1 "$1" | tr -d ' \n'; }
file_of_p=$(awk '$1 == "p" { print $3 }' tests/vectors/upstream.txt)
[ "$(dump docs/FORMAT.md)" = "$file_of_p" ] || fault "the dump in docs/FORMAT.md is not P's file"
[ "$(dump docs/SHEET.md)" = "$(hex examples/p.sheet)" ] || fault "the dump in docs/SHEET.md is not P's sheet"
awk '/^```sh$/ { on = 1; next } /^```$/ { on = 0 } on' docs/SHEET.md >"$room/make"
(cd "$room" && sh make) && cmp -s "$room/p.sheet" examples/p.sheet || fault "the lines in docs/SHEET.md do not make P's sheet"

found="$paths paths, $names names, $placed of them with a place, and $links links"
[ "$faults" = 0 ] || { echo "cited: $faults faults in $found" >&2; exit 1; }
echo "cited: $found lead to what is there, and the dumps of P are its bytes"
