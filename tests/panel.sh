#!/usr/bin/env bash
# ./panel and bindings/archive as their users meet them: what stands on standard output and standard error, what the exit status is, what
# becomes of the file that is named, and how the first use goes. For the first use a copy of the scripts stands over six crates and a kit
# that only pretends to prove, so that it takes no minutes. Every case is tried, and each that does not hold is named.
set -uo pipefail
cd "$(dirname "$0")/.."
. tests/lib/left_out

home=$PWD
room=$(mktemp -d)
trap 'rm -rf "$room"' EXIT
chmod 755 "$room"
cases=0 faults=0
fail() { echo "panel: $1" >&2; exit 1; }

# holds WHAT TEST..: a case is what a test says
holds() {
    cases=$((cases + 1))
    if ! "${@:2}"; then echo "panel: it does not hold that $1" >&2; faults=$((faults + 1)); fi
}

# run COMMAND..: its standard output and standard error go to files, its status to a variable
run() {
    status=0
    "$@" >"$room/out" 2>"$room/err" || status=$?
}
# piped COMMAND ARGUMENT..: runs a line of the shell, in which the arguments are $0, $1, ..
piped() { run bash -c "$@"; }
ended() { [ "$status" = "$1" ]; }
silent() { [ ! -s "$room/err" ]; }
one_line() { [ "$(wc -l <"$room/err")" = 1 ]; }
says() { grep -qF -- "$1" "$room/err"; }
says_not() { ! grep -qE -- "$1" "$room/err"; }
printed() { [ "$(cat "$room/out")" = "$1" ]; }
same() { cmp -s "$1" "$2"; }
content() { [ "$(cat "$1" 2>/dev/null)" = "$2" ]; }
mode() { [ "$(stat -c %a "$1" 2>/dev/null)" = "$2" ]; }
only() { [ "$(ls -A "$1" | tr '\n' ' ')" = "$2" ]; }
# all TEST , TEST..: each of several tests
all() {
    local words=() word
    for word in "$@" ,; do
        if [ "$word" = , ]; then "${words[@]}" || return; words=(); else words+=("$word"); fi
    done
}
failed_with() { all ended 2 , one_line , says "$1"; }
# wait_until TEST..: waits until a test holds, at most ten seconds
wait_until() {
    local _
    for _ in $(seq 200); do if "$@"; then return; fi; sleep 0.05; done
    return 1
}
# The signals that end a script. Under nohup a HUP is ignored, by all that is started here, too: then there is no end to wait for.
signals=(TERM)
if [ -z "$(trap -p HUP)" ]; then signals+=(HUP); else left_out hangup "what a HUP ends: it is ignored here, as under nohup"; fi
tried() { [[ " ${signals[*]} " = *" $1 "* ]]; }
# is_gone PROCESS: whether it has ended, be it that nobody has asked for its status yet
is_gone() {
    case $(ps -o stat= -p "$1") in
        '' | Z*) ;;
        *) return 1 ;;
    esac
}

# Root may read and write everything, so what it may not is tried as nobody.
as_user=()
if [ "$(id -u)" = 0 ]; then as_user=(setpriv --reuid=65534 --regid=65534 --clear-groups); fi
tries_as_user=yes
if [ ${#as_user[@]} -gt 0 ] && ! command -v setpriv >/dev/null; then
    tries_as_user=
    left_out setpriv "what a user may not read or write: this is root, and setpriv is not installed"
fi
tries_terminal=yes
if ! command -v script >/dev/null; then
    tries_terminal=
    left_out script "the trials at a terminal: script is not installed"
fi

# The sheets that the cases are about, and what P's file is.
p=$home/examples/p.sheet
head -c -1 "$p" >"$room/short.sheet"
awk '$1 == "p" { print $3 }' tests/vectors/upstream.txt | tr -d '\n' | sed 's/../\\x&/g' >"$room/p.escaped"
printf "$(cat "$room/p.escaped")" >"$room/p.heic"

# ---- what it writes, and how it ends

run ./panel <"$p"
holds "an accepted sheet gives its file, nothing else, and status 0" all ended 0 , silent , same "$room/out" "$room/p.heic"
run ./panel <"$room/short.sheet"
holds "a refused sheet gives 'refused 11' on standard output" printed 'refused 11'
holds "a refused sheet ends in status 1" ended 1
holds "a refused sheet is refused in words on standard error" all one_line , says 'refused 11: the sheet ends before its fields do'
piped './panel <"$0" >/dev/full' "$p"
holds "a write that fails ends in status 2 and a line" failed_with 'not all of it could be written'
piped './panel <"$0" >/dev/full' "$room/short.sheet"
holds "a refusal that can't be written ends in status 2 and a line" failed_with 'not all of it could be written'
piped './panel <"$0" >&-' "$p"
holds "a closed standard output ends in status 2 and a line" failed_with 'standard output is closed'
piped './panel <&-'
holds "a closed standard input ends in status 2 and a line" failed_with 'standard input is closed'
piped 'exec 5> >(:); wait $!; ./panel <"$0" >&5' "$p"
holds "a pipe that nobody reads ends in status 2 and a line" failed_with 'not all of it could be written'
run ./panel <"$home/examples"
holds "a sheet that can't be read is no empty sheet" failed_with 'the sheet cannot be read to its end'
for each in './panel no.sheet 2>/dev/full' './panel "$0" >/dev/full 2>&-' './panel <&- 2>&-' './panel "$1" 2>/dev/full >/dev/full'; do
    piped "$each" "$p" "$room/short.sheet"
    holds "what fails ends in status 2 though nobody can be told: $each" ended 2
done
piped './panel "$0" 2>&-' "$room/short.sheet"
holds "a refusal ends in status 1 though nobody can be told why" all ended 1 , printed 'refused 11'
run ./panel --help
holds "--help prints how to call it" all ended 0 , silent , grep -q '^usage: ./panel SHEET FILE' "$room/out"
piped './panel --help >/dev/full'
holds "a help that can't be written ends in status 2 and a line" failed_with "the help can't be written"
run ./panel --no-such-word <"$p"
holds "an option that there is not is named" failed_with 'there is no option --no-such-word'
run ./panel "$p" "$room/card.heic" more
holds "a third name is too many" failed_with 'more is named than a sheet and a file'
run ./panel '' <"$p"
holds "an empty name is no sheet" failed_with 'a name is empty'
if [ -n "$tries_terminal" ]; then
    run timeout 10 script -qec ./panel /dev/null </dev/null
    holds "a terminal as standard input gets the help" all ended 2 , grep -q '^usage: ./panel SHEET FILE' "$room/out"
fi

# ---- ./panel SHEET FILE

folder=$room/folder
mkdir "$folder"
run ./panel "$p" "$folder/card.heic"
holds "SHEET FILE writes the file, and nothing to standard output" \
    all ended 0 , silent , printed '' , same "$folder/card.heic" "$room/p.heic"
holds "the file's mode is that of any new file" mode "$folder/card.heic" "$(touch "$room/new" && stat -c %a "$room/new")"
holds "nothing else stands beside it" only "$folder" 'card.heic '
run ./panel "$p"
holds "SHEET alone prints the file" all ended 0 , same "$room/out" "$room/p.heic"
run ./panel "$p" -
holds "the file - is standard output" all ended 0 , same "$room/out" "$room/p.heic"
run ./panel - "$folder/card.heic" <"$p"
holds "the sheet - is standard input, and a file that is there is replaced" all ended 0 , same "$folder/card.heic" "$room/p.heic"
piped './panel "$0" "$1" >&-' "$p" "$folder/card.heic"
holds "SHEET FILE needs no standard output" all ended 0 , silent
chmod 640 "$folder/card.heic"
run ./panel "$p" "$folder/card.heic"
holds "a file that is there keeps its mode" all ended 0 , mode "$folder/card.heic" 640
echo kept >"$folder/card.heic"
run ./panel "$room/short.sheet" "$folder/card.heic"
holds "a refused sheet leaves a file that is there as it was" \
    all ended 1 , one_line , says 'refused 11: ' , content "$folder/card.heic" kept , only "$folder" 'card.heic '
run ./panel "$room/short.sheet" "$folder/none.heic"
holds "a refused sheet makes no file" all ended 1 , only "$folder" 'card.heic '
piped 'ulimit -f 1; exec ./panel "$0" "$1"' "$home/examples/card.sheet" "$folder/card.heic"
holds "a file that can't be written whole leaves the one that is there" \
    all ended 2 , one_line , content "$folder/card.heic" kept , only "$folder" 'card.heic '
mkfifo "$folder/pipe"
run timeout 10 ./panel "$p" "$folder/pipe"
holds "what is no regular file is not replaced" all failed_with 'no regular file' , [ -p "$folder/pipe" ]
ln -s card.heic "$folder/link"
run ./panel "$p" "$folder/link"
holds "a link stays one, and the file that it leads to is written" \
    all ended 0 , [ -L "$folder/link" ] , same "$folder/card.heic" "$room/p.heic"
ln -s "$room/no/such/file" "$folder/lost"
run ./panel "$p" "$folder/lost"
holds "a link that leads nowhere is named" failed_with "$folder/lost is a link that leads nowhere"
cp "$p" "$folder/p.sheet"
run ./panel "$folder/p.sheet" "$folder/p.sheet"
holds "a sheet is not written over by its file" all failed_with 'are one' , same "$folder/p.sheet" "$p"
run ./panel - "$folder/p.sheet" <"$folder/p.sheet"
holds "nor is one that comes in on standard input" all failed_with 'are one' , same "$folder/p.sheet" "$p"
named="$folder/a name with spaces and
a line feed"
run ./panel "$p" "$named"
holds "a name may have spaces and a line feed" all ended 0 , same "$named" "$room/p.heic"
long="$folder/$(printf '%0250d' 0).heic"
run ./panel "$p" "$long"
holds "a name may be as long as the system lets it be" all ended 0 , same "$long" "$room/p.heic"
run ./panel "$p" "$room/no/such/folder/card.heic"
holds "a folder that is not there is named" failed_with "$room/no/such/folder/card.heic"
run ./panel "$room/no.sheet" "$folder/none.heic"
holds "a sheet that is not there is named" failed_with "the sheet $room/no.sheet is not there"
run ./panel "$home/examples" "$folder/none.heic"
holds "a folder is no sheet" failed_with "the sheet $home/examples can't be read"
if [ -n "$tries_as_user" ]; then
    chmod 777 "$folder"
    for mask in 022 222; do
        rm -f "$folder/ro.heic"
        piped 'umask $2; exec "${@:3}" ./panel "$0" "$1"' "$p" "$folder/ro.heic" $mask "${as_user[@]}"
        holds "SHEET FILE writes under umask $mask" all ended 0 , same "$folder/ro.heic" "$room/p.heic"
    done
    run "${as_user[@]}" ./panel "$p" "$folder/ro.heic"
    holds "a file that may only be read is replaced, where its folder takes new files" all ended 0 , mode "$folder/ro.heic" 444
fi
ln -s "$home/panel" "$room/linked"
piped 'cd / && "$0" <"$1"' "$room/linked" "$p"
holds "it can be called through a link from anywhere" all ended 0 , same "$room/out" "$room/p.heic"

# A sheet that does not end: a signal ends the program too, takes the temporary file away and is what the script ends by. (Of TERM the
# shell does not say that something ended by it; of HUP it does.)
rm -rf "$folder" && mkdir "$folder"
mkfifo "$room/slow"
exec 6<>"$room/slow"
has_program() { pgrep -P "$(cat "$room/script" 2>/dev/null || echo 0)" >"$room/program"; }
for signal in "${signals[@]}"; do
    rm -f "$room/script"
    (./panel - "$folder/card.heic" <"$room/slow" >/dev/null 2>&1 & echo $! >"$room/script"; wait $!) 2>"$room/err" &
    shell=$!
    holds "a sheet that does not end is waited for" wait_until has_program
    kill -s $signal "$(cat "$room/script")"
    wait "$shell" 2>/dev/null
    holds "a $signal ends the program that waits" wait_until is_gone "$(cat "$room/program")"
    holds "a $signal takes the temporary file away" only "$folder" ''
done
! tried HUP || holds "a HUP is what the script ends by" says Hangup
exec 6>&-

# ---- the first use: `root` is the repository's root, and `rt` pretends. Both scripts are tried at once, each in a room of its own.

mkdir "$room/kit"
cat >"$room/kit/rt" <<'KIT'
#!/bin/sh
# A kit that says what rt says and takes no time. Where WATCHED names a file, it goes on to the next crate when the last one is shown there,
# or after some seconds. SLOW has it sleep, with the sleep's number in ROOM/sleep. EDITED names a source that somebody edits meanwhile. It
# fails as FAULTY says, without a word if that is `all`. As rt does, it works in a crate's folder, and leaves what it makes in out/ there.
echo "$*" >>"$ROOM/runs"
[ "$FAULTY" != all ] || exit 1
count=0
for crate in one two three; do
    echo "fn $crate::f: proved" >&2
    if [ "$FAULTY" = "$crate" ]; then
        {
            echo "./proofs/f/Answers.antt:7:1: error: the first error"
            echo "  and what belongs to it"
            echo "./proofs/f/Answers.antt:9:1: error: a later error"
            echo "fn $crate::f: not proved"
            for i in 1 2 3 4 5 6 7 8 9 10 11 12 13 14 15 16 17 18 19 20 21 22 23 24 25; do
                echo "fn $crate::more$i: no proof: it calls \`$crate::f\`, which is not proved"
            done
            echo "logic=not-proved"
        } >&2
        exit 1
    fi
    echo "crate $crate: modules loaded=0 checked=1" >&2
    echo "logic=proved functions=1" >&2
    count=$((count + 1))
    tries=0
    while [ -n "$WATCHED" ] && [ $tries -lt 60 ] && ! grep -aqs "crate $count of" "$WATCHED"; do sleep 0.05; tries=$((tries + 1)); done
    if [ -n "$SLOW" ]; then
        sleep "$SLOW" &
        echo $! >"$ROOM/sleep"
        wait
    fi
done
[ -z "$EDITED" ] || touch "../../$EDITED"
mkdir -p out
case $1 in
    run) cp "$PROGRAM" out/program_panel ;;
    lib) echo archive >out/libkahopiru.a ;;
esac
KIT
chmod 755 "$room/kit" "$room/kit/rt"
kit=$room/kit
export PROGRAM=$home/target/bin/program_panel WATCHED='' SLOW='' EDITED='' FAULTY=''

# new_root: a repository in which nothing is built
new_root() {
    chmod -R u+rwX "$root" 2>/dev/null
    rm -rf "$root" "$room/runs" "$room/sleep"
    mkdir -p "$root/bindings" "$root/tools"
    cp panel "$root"
    cp bindings/archive "$root/bindings"
    cp tools/build tools/current.sh "$root/tools" 2>/dev/null
    for crate in one two three kahopiru program_panel other; do
        mkdir -p "$root/crates/$crate/src" "$root/crates/$crate/specs" "$root/crates/$crate/proofs"
        touch "$root/crates/$crate/src/lib.rt" "$root/crates/$crate/specs/Lib.antt"
    done
    printf '%s\n' 'one:' '' 'two: one' 'three: one # a remark' '' 'kahopiru staticlib: one two three' '' 'program_panel: one two three io' \
        'other: one' >"$root/crates.txt"
}
# used SCRIPT: a use of a script in that repository, with the kit that pretends
used() { PATH=$kit:$PATH "$root/$1" <"$p"; }
count_runs() { wc -l <"$room/runs" 2>/dev/null || echo 0; }
runs() { [ "$(count_runs)" = "$1" ]; }
more_runs() { [ "$(count_runs)" -gt "$1" ]; }
built() { [ -s "$root/target/bin/program_panel" ] || [ -s "$root/target/staticlib/libkahopiru.a" ]; }
is_asleep() { [ -s "$room/sleep" ]; }

# Commands without a kit: those that the scripts use before they ask for it.
bare=$room/bare
mkdir "$bare"
for command in bash env dirname readlink; do ln -s "$(command -v "$command")" "$bare/$command"; done

# first_uses SCRIPT: the cases of one script
first_uses() {
    local script=$1
    new_root
    WATCHED=$room/err run used $script
    holds "$script shows crate k of n and the time while it proves" \
        all ended 0 , built , grep -qE 'crate 1 of 4.*[0-9] s' "$room/err" , grep -qE 'crate 3 of 4.*[0-9] s' "$room/err"
    holds "$script shows it in plain lines where there is no terminal" all says 'crate 1 of 4' , says_not $'\r|\033'
    holds "$script writes no progress to standard output" all [ -z "$(grep -a 'crate 1' "$room/out")" ] , [ -s "$room/err" ]
    before=$(count_runs)
    run used $script
    holds "$script proves once, and is then silent" all ended 0 , silent , runs "$before"
    sleep 0.1
    touch "$root/crates/other/src/lib.rt" "$root/crates/two/proofs"
    run used $script
    holds "$script does not prove again for a crate that it does not stand on, nor for a proof" all ended 0 , silent , runs "$before"
    for each in crates/two/src/lib.rt crates/one/specs/Lib.antt crates.txt; do
        before=$(count_runs)
        sleep 0.05
        touch "$root/$each"
        run used $script
        holds "$script proves again when $each is newer" all ended 0 , more_runs "$before"
    done
    sleep 0.05
    touch "$root/crates/two/specs/More.antt"
    run used $script
    before=$(count_runs)
    sleep 0.05
    touch "$root/crates/two/specs/More.antt"
    run used $script
    holds "$script proves again when a source that was added is newer" all ended 0 , more_runs "$before"
    touch "$root/crates/three/specs/More.antt"
    sleep 0.05
    for each in "$root/target/bin/program_panel" "$root/target/staticlib/libkahopiru.a"; do [ ! -e "$each" ] || touch "$each"; done
    before=$(count_runs)
    run used $script
    holds "$script takes what was built without it" all ended 0 , silent , runs "$before"
    sleep 0.05
    touch "$root/crates/three/specs/More.antt"
    run used $script
    holds "$script knows the sources of what was built without it" all ended 0 , more_runs "$before"
    sleep 0.05
    touch "$root/crates/one/src/lib.rt"
    EDITED=crates/two/specs/Lib.antt run used $script
    before=$(count_runs)
    run used $script
    holds "$script proves again when a source was edited while it proved" all ended 0 , more_runs "$before"
    before=$(count_runs)
    sleep 0.05
    rm "$root/crates/two/src/lib.rt"
    run used $script
    holds "$script proves again when a source is gone" all ended 0 , more_runs "$before"
    before=$(count_runs)
    for each in "$root/target/bin/program_panel" "$root/target/staticlib/libkahopiru.a"; do [ ! -e "$each" ] || : >"$each"; done
    run used $script
    holds "$script proves again when what was built is empty" all ended 0 , more_runs "$before" , built

    if [ -n "$tries_terminal" ]; then
        new_root
        WATCHED=$room/out run script -qec "PATH=$kit:\$PATH '$root/$script' <'$p' 2>&1 >/dev/null" /dev/null </dev/null
        holds "$script rewrites one line of progress at a terminal" \
            all ended 0 , grep -qE $'\r.*crate 1 of 4.*\r.*crate 3 of 4' <(tr '\n' ' ' <"$room/out")
    fi

    new_root
    FAULTY=two run used $script
    holds "$script ends in status 2 if the proofs fail" all ended 2 , [ ! -s "$room/out" ]
    holds "$script shows the first error with what belongs to it" \
        all says 'Answers.antt:7:1: error: the first error' , says 'and what belongs to it'
    holds "$script shows neither later errors nor what follows from the first" says_not 'a later error|more25'
    FAULTY=all run used $script
    holds "$script says so if the kit fails without a word" all ended 2 , says 'rt did not say why'

    new_root
    run used $script
    once=$(count_runs)
    new_root
    SLOW=0.2 piped 'PATH=$0:$PATH; "$1" <"$2" >/dev/null 2>"$3" & "$1" <"$2" >/dev/null; first=$?; wait $! && exit $first' \
        "$kit" "$root/$script" "$p" "$room/other"
    holds "two first uses of $script at once prove once" all ended 0 , built , runs "$once"
    holds "the second of two uses of $script says that it waits" grep -q 'another command is proving here' "$room/err" "$room/other"

    for signal in "${signals[@]}"; do
        new_root
        (SLOW=600 PATH=$kit:$PATH "$root/$script" <"$p" >/dev/null 2>&1 & echo $! >"$room/script"; wait $!) 2>"$room/err" &
        shell=$!
        holds "$script has begun to prove" wait_until is_asleep
        kill -s $signal "$(cat "$room/script")"
        wait "$shell" 2>/dev/null
        holds "a $signal of $script ends what it started" wait_until is_gone "$(cat "$room/sleep")"
        kill "$(cat "$room/sleep")" 2>/dev/null
    done
    ! tried HUP || holds "a HUP is what $script ends by" says Hangup

    new_root
    run env PATH="$bare" "$root/$script" <"$p"
    holds "$script without the kit ends in status 2 and says so in a line" failed_with 'the Rattle kit is missing'
    ln -s "$root/$script" "$root/linked"
    run used linked
    holds "$script builds when called through a link" all ended 0 , built

    [ -n "$tries_as_user" ] || return
    new_root
    chmod -R go+rX,a-w "$root"
    run env PATH="$kit:$PATH" "${as_user[@]}" "$root/$script" <"$p"
    holds "$script in a read-only checkout ends in status 2 and says so in a line" failed_with "$root/target can't be written"
    new_root
    run used $script
    rm -f "$root"/target/*/*.sources
    chmod -R go+rX,a-w "$root"
    run env PATH="$kit:$PATH" "${as_user[@]}" "$root/$script" <"$p"
    holds "$script in a read-only checkout in which it is built goes on" all ended 0 , silent
    new_root
    run used $script
    chmod -R go+rX "$root"
    chmod 700 "$root/crates/two/src"
    [ ${#as_user[@]} -gt 0 ] || chmod 000 "$root/crates/two/src"
    run env PATH="$kit:$PATH" "${as_user[@]}" "$root/$script" <"$p"
    holds "$script with a folder that can't be read ends in status 2 and says so in a line" failed_with "$root/crates/two/src can't be read"
    chmod 755 "$root/crates/two/src"
}

for script in panel bindings/archive; do
    (
        room=$room/${script##*/}
        root=$room/root cases=0 faults=0
        mkdir "$room"
        export ROOM=$room
        first_uses $script
        echo $cases $faults >"$room/count"
    ) &
done
wait
for script in panel archive; do
    read -r more wrong <"$room/$script/count" || fail "the cases of $script were not tried to their end"
    cases=$((cases + more)) faults=$((faults + wrong))
done

[ "$faults" = 0 ] || { echo "panel: $faults of $cases cases do not hold" >&2; exit 1; }
echo "panel: $cases cases hold of ./panel and bindings/archive: their output, status, file and first use"
