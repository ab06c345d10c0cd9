# Read by ./panel, bindings/archive and tools/build, each of which has set `me`, the name that its messages begin with, and `home`, the
# root of the repository. For any POSIX shell, since ./panel is meant to start quickly.

# A message that nobody can be told changes nothing of the status.
tell() { printf '%s\n' "$me: $1" >&2 2>/dev/null || :; }
fail() { tell "$1"; exit 2; }

# is_current FILE: whether FILE, which is built below the root, is there and no source of it is newer. The sources are those that
# tools/build has listed in FILE.sources, which sets them; a folder among them ends in /. and is newer than FILE where a file was added or
# taken away. Where anything is in doubt the answer is no, and tools/build finds out. It is asked at every use, so it starts no process.
is_current() {
    file=$home/$1
    [ -s "$file" ] && [ -r "$file.sources" ] && [ ! "$file" -nt "$file.sources" ] || return 1
    . "$file.sources"
    for each; do
        [ ! "$home/$each" -nt "$file" ] || return 1
        case $each in */.) [ -e "$home/$each" ] || return 1 ;; esac
    done
}
