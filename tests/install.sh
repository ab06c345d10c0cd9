#!/usr/bin/env bash
# bindings/install puts everything where pkg-config leads a C program to it, says in a sentence why it cannot, and leaves nothing behind
# then. The licence files are NOTICE's own texts. Where there is no pkg-config, what it leads to is left out and a line says so; with the
# word `pkg-config` in KAHOPIRU_REQUIRE that is a failure.
set -euo pipefail
cd "$(dirname "$0")/.."
. tests/lib/left_out

fail() { echo "install: $1" >&2; exit 1; }

# section TITLE: the licence text that NOTICE has below this title
section() {
    awk -v title="$1" '/^=+$/ { on = last == title; last = ""; next } on { text = text $0 "\n" } { last = $0 }
        END { gsub(/^\n+|\n+$/, "", text); print text }' NOTICE
}
section 'LICENSE.md (BSD-3-Clause)' | cmp - LICENSE-BSD >&2 || fail "LICENSE-BSD is not the text that NOTICE has"
section 'LICENSE-APACHE.md (Apache-2.0)' | cmp - LICENSE-APACHE >&2 || fail "LICENSE-APACHE is not the text that NOTICE has"

bindings/archive
lib=${KAHOPIRU_LIB_DIR:-target/staticlib}
room=$(mktemp -d)
trap 'rm -rf "$room"' EXIT
home=$PWD
cp bindings/c/example.c "$room/example.c"
version=$(sed -n 's/^#define KAHOPIRU_VERSION "\(.*\)"$/\1/p' bindings/c/kahopiru.h)
places=(include/kahopiru.h lib/libkahopiru.a lib/pkgconfig/kahopiru.pc share/doc/kahopiru/{LICENSE-APACHE,LICENSE-BSD,NOTICE})

# installed FOLDER PREFIX: everything is in this folder, as it should be, and nothing else; kahopiru.pc says this prefix
installed() {
    diff <(printf '%s\n' "${places[@]}" | sort) <(cd "$1" && find . -type f | sed 's|^\./||' | sort) >&2 || fail "in $1 are other files"
    cmp "$1/include/kahopiru.h" bindings/c/kahopiru.h >&2 || fail "another header is installed"
    cmp "$1/lib/libkahopiru.a" "$lib/libkahopiru.a" >&2 || fail "another archive is installed"
    for each in LICENSE-APACHE LICENSE-BSD NOTICE; do
        cmp "$1/share/doc/kahopiru/$each" "$each" >&2 || fail "another $each is installed"
    done
    grep -qxF "prefix=$2" "$1/lib/pkgconfig/kahopiru.pc" || fail "kahopiru.pc does not say prefix=$2"
    [ -z "$(find "$1" -type f ! -perm 644)" ] || fail "a file in $1 cannot be read by everybody"
}

# leads PREFIX: by what pkg-config says alone, a program is compiled, linked and run
leads() {
    local flags found
    command -v pkg-config >/dev/null || return 0
    found=$(PKG_CONFIG_PATH="$1/lib/pkgconfig" pkg-config --modversion kahopiru)
    [ "$found" = "$version" ] || fail "pkg-config says version '$found', the header '$version'"
    flags=$(PKG_CONFIG_PATH="$1/lib/pkgconfig" pkg-config --cflags --libs kahopiru)
    # pkg-config quotes for a shell, which matters where the prefix has a space.
    (cd "$room" && eval "gcc -std=c11 -o example example.c $flags")
    "$room/example" | grep -q '^a file of 556 bytes' || fail "the program that pkg-config leads to does not write 556 bytes"
}
leading="and a program finds them by pkg-config"
if ! command -v pkg-config >/dev/null; then
    left_out pkg-config "what kahopiru.pc leads to: pkg-config is not installed"
    leading="no program is led to them"
fi

bindings/install "$room/plain" >"$room/said"
installed "$room/plain" "$room/plain"
leads "$room/plain"
diff <(printf "installed $room/plain/%s\n" "${places[@]}" | sort) <(sort "$room/said") >&2 || fail "it says something else than it installs"

# Again over what is there; with a space; from another folder with a relative prefix; through a link; below DESTDIR.
echo old >"$room/plain/include/kahopiru.h"
bindings/install "$room/plain/" >/dev/null
installed "$room/plain" "$room/plain"
bindings/install "$room/with a space" >/dev/null
installed "$room/with a space" "$room/with a space"
leads "$room/with a space"
ln -s "$home/bindings/install" "$room/link"
(cd "$room" && ./link relative/one) >/dev/null
installed "$room/relative/one" "$room/relative/one"
DESTDIR="$room/stage" bindings/install /usr >/dev/null
installed "$room/stage/usr" /usr

# refused SENTENCE COMMAND..: it ends with 2, says this one sentence and leaves nothing of its own in the room
refused() {
    local before status=0
    before=$(find "$room" | sort)
    "${@:2}" >"$room/said" 2>&1 || status=$?
    [ "$status" = 2 ] || fail "'${*:2}' ended with $status, not 2"
    [ "$(cat "$room/said")" = "$1" ] || fail "'${*:2}' says '$(cat "$room/said")', not '$1'"
    [ "$(find "$room" | sort)" = "$before" ] || fail "'${*:2}' left something behind"
}
usage=$(bindings/install --help)
[[ $usage == 'usage: bindings/install PREFIX'* ]] || fail "--help does not say how it is used"
refused "$usage" bindings/install
refused "$usage" bindings/install --prefix=/usr
refused "$usage" bindings/install one two
refused 'install: PREFIX has a quotation mark, \, $, #, ` or a line feed, which kahopiru.pc cannot say' bindings/install "$room/a#b"

mkdir -p "$room/half/lib" "$room/folder/lib/libkahopiru.a"
touch "$room/half/lib/pkgconfig"
refused "install: the folder $room/half/lib/pkgconfig cannot be made: File exists" bindings/install "$room/half"
refused "install: $room/folder/lib/libkahopiru.a is a folder" bindings/install "$room/folder"
# Without an archive, what bindings/archive says of it is all that is said.
sentence=$(KAHOPIRU_LIB_DIR="$room" bindings/archive 2>&1 || true)
refused "$sentence" env KAHOPIRU_LIB_DIR="$room" bindings/install "$room/new/one"

# A folder that may not be written to. For root there is none, so root tries as another user, who is given what the script reads.
mkdir -p "$room/shut" "$room/copy/bindings/c"
chmod 755 "$room"
cp bindings/install "$room/copy/bindings"
cp bindings/c/kahopiru.h "$room/copy/bindings/c"
chmod -R a+rX "$room/copy"
chmod 555 "$room/shut"
as=()
[ "$(id -u)" != 0 ] || as=(setpriv --reuid=65534 --regid=65534 --clear-groups)
refused "install: the folder $room/shut/include cannot be made: Permission denied" "${as[@]}" "$room/copy/bindings/install" "$room/shut"

echo "install: ${#places[@]} files come to their places, $leading; what cannot be installed is refused in a sentence"
