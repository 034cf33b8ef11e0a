#!/usr/bin/env bash
# Tests of the launcher `relayplum` and of tools/build: when the program is built, what is printed meanwhile, and what is handed
# on. Nothing is proved here (common/launching.sh).
NAME=launcher
. "$(dirname "${BASH_SOURCE[0]}")/../common/launching.sh"
. "$here/tests/common/unprivileged.sh"

start books x
check 'the first call builds each crate below the program in its order' "$built" "$calls"
check 'the first call then runs the program' 'run with books x' "$out"
has 'it prints what there is to do' '^relayplum: building the program first: 3 of 3 crates have to be proved, which takes minutes to an hour$' "$err"
has 'it prints what it waits for' '^relayplum: proving low, 1 of 3$' "$err"
has 'it prints what is proved' '^relayplum: high proved, 2 of 3, [0-9]* s$' "$err"
has 'it prints that of the program too' '^relayplum: cdc_app proved, 3 of 3, [0-9]* s$' "$err"
has 'it prints what was proved here' '^relayplum: proved here: low high cdc_app$' "$err"

start books x
check 'the second call builds nothing' '' "$calls"
check 'the second call prints nothing else' '' "$err"
check 'the second call runs the program' 'run with books x' "$out"
start signals
has 'the signal of the limit on sizes (25) is ignored' '^SigIgn:.*[13579bdf]......$' "$out"
check 'the second call starts no Python' '' "$(cat "$CALLS.python" 2>/dev/null)"

touch "$low"
start books x
check 'a touched source builds nothing' '' "$calls"
check 'a touched source: the program runs' 'run with books x' "$out"
mv "$low" "$room/kept"
cp "$room/kept" "$low"
start books x
check 'a source away and back builds nothing' '' "$calls"
echo '// more' >>"$room/top/crates/aside/src/lib.rt"
start books x
check 'a source of a crate that the program does not stand on builds nothing' '' "$calls"

start books x
check 'what was compared is noted' '' "$(cat "$CALLS.python" 2>/dev/null)"

# An edit right after a build, that leaves the size, the inode and the time of the last write as they were.
start books x
touch -r "$low" "$room/as-it-was"
tr a-z A-Z <"$low" >"$room/kept"
cat "$room/kept" >"$low"
touch -r "$room/as-it-was" "$low"
start books x
check 'an edit right after a build builds' "$built" "$calls"

# A `find` that does more: $DO/find has that, as shell code, and $found what it has found. Times are noted only if they are past,
# and the sums are taken after that.
real_find=$(command -v find)
printf '#!/bin/sh\nfound=$(%s "$@")\nif [ -f "$DO/find" ]; then . "$DO/find"; fi\necho "$found"\n' "$real_find" >"$room/bin/find"
chmod +x "$room/bin/find"
later() { # later SECONDS: each time of a change is later than it is
    echo "found=\$(echo \"\$found\" | awk '{ split(\$NF, time, \".\"); \$NF = time[1] + $1 \".\" time[2]; print }')" >"$DO/find"
}
rm "$program.stamps"
echo "rm \"\$DO/find\"; tr A-Z a-z <'$room/kept' >'$low'" >"$DO/find"
start books x
check 'an edit after the times were read is in the sums' "$built" "$calls"
later 1
rm "$program.stamps"
start books x
last=$(tail -n +2 "$program.stamps" | cut -d' ' -f3 | LC_ALL=C sort -n | tail -n 1)
noted=$("$real_find" "$program.stamps" -printf '%C@')
check 'times are noted when they are past' "$noted" "$(printf '%s\n' "$last" "$noted" | LC_ALL=C sort -n | tail -n 1)"
check 'and the program runs' 'run with books x' "$out"
start books x
check 'then no Python is started' '' "$(cat "$CALLS.python" 2>/dev/null)"
later 3600
start books x
check 'times that are far ahead: the program runs' 'run with books x' "$out"
check 'times that are far ahead: nothing is built' '' "$calls"
rm "$program.stamps"
start books x
check 'times that are far ahead are not noted' '' "$(cat "$program.stamps" 2>/dev/null)"
echo "found=" >"$DO/find"
start books x
check 'a find that prints nothing: the program runs' 'run with books x' "$out"
check 'a find that prints nothing: nothing is noted' '' "$(cat "$program.stamps" 2>/dev/null)"
check 'a find that prints nothing: nothing else is printed' '' "$err"
rm "$DO/find" "$room/bin/find"
start books x

# The version: what was noted is taken, and a change shows.
start --version
has '--version: it is built' '^built from proofs made here' "$out"
echo '// forged' >>"$low"
"$room/top/relayplum" --stamps >"$program.stamps"
start --version
has '--version takes what was noted' '^built from proofs made here' "$out"
touch "$low"
start --version
has '--version: a change shows' '^not built: the first command builds it$' "$out"

echo '// elder' >"$room/elder"
touch -d '2 days ago' "$room/elder"
cp -p "$room/elder" "$low"
touch "$program"
start books x
check 'an older source is built, also under a program that was touched since' "$built" "$calls"
start books x
echo '// more' >>"$low"
start books x
check 'a changed source builds' "$built" "$calls"
start books x
check 'and builds once' '' "$calls"
echo '-- nothing names it' >"$room/top/crates/low/specs/Alone.antt"
start books x
check 'a file that was added alone is not looked for' '' "$(cat "$CALLS.python" 2>/dev/null)"
rm "$room/top/crates/low/specs/Alone.antt"
rm "$room/top/crates/low/specs/Low.antt"
start books x
check 'a removed file builds' "$built" "$calls"
start books x
printf '#!/bin/sh\necho another\n' >"$program"
start books x
check 'a program that is another than the one that was built is not run' 'run with books x' "$out"
check 'and nothing is proved again for it' '' "$calls"
rm "$program.built"
start books x
check 'nor is one of which nothing is noted' 'run with books x' "$out"

# The toolchain: its compiler and its logic decide, not its name.
echo 'kit-2 logic l1' >"$room/kit/KIT-ID"
start books x
check 'a kit of another name builds nothing' '' "$calls"
echo 'kit-2 logic l2' >"$room/kit/KIT-ID"
start books x
check 'another logic builds' "$built" "$calls"
start books x
echo '# another compiler' >>"$room/kit/bin/rattle"
start books x
check 'another compiler builds' "$built" "$calls"
PATH_WITHOUT=$room/few
mkdir "$PATH_WITHOUT"
for it in sh bash python3 readlink find cmp cat env grep dirname basename rm; do ln -s "$(command -v $it)" "$PATH_WITHOUT/$it"; done
PATH=$PATH_WITHOUT start books x
check 'without a toolchain the program runs, since it fits the sources' 'run with books x' "$out"

# A crate that isn't proved: one line of what the checker printed is shown, the first of a goal in the source.
cd "$room/top" || exit 1
checker() { # checker LINE..: what the checker of `high` prints before it refuses
    printf '%s\n' "$@" >"$DO/printed"
    echo 'cat "$DO/printed"; exit 1' >"$DO/high"
}
refusal() { # refusal NAME WANTED
    start books x
    check "$1: what is printed" "$(printf '%s\n' "relayplum: high isn't proved: $2" \
        'relayplum: crates/cdc_app/out/start/high.log has all that the checker printed')" "$(tail -n 2 <<<"$err")"
    check "$1: the file has the rest" "$(cat "$DO/printed")" "$(cat crates/cdc_app/out/start/high.log)"
}
checker 'so far: note: src/lib.rt:1:1: it is not proved that so far' './proofs/lib/f/Answers.antt:1:1: error: a tactic fails' \
    'fn high::f: not proved' 'note: src/lib.rt:2:5: it is not proved that the answer holds (`answer`)' \
    'note: src/lib.rt:3:5: it is not proved that another holds' 'fn high::g: not proved'
echo '// wrong' >>crates/high/src/lib.rt
refusal 'a goal' 'src/lib.rt:2:5: it is not proved that the answer holds (`answer`)'
check 'a crate that is refused ends the script' 1 "$status"
check 'what it stands on is not proved again' 'high: proved, jobs 1' "$calls"
check 'no program runs then' '' "$out"
check 'nothing else is printed of it' 1 "$(grep -c 'it is not proved' <<<"$err")"
checker 'fn high::f: proved' './proofs/lib/f/Answers.antt:1:1: error: a tactic fails' 'fn high::f: not proved' 'the last line'
refusal 'a goal in a proof' './proofs/lib/f/Answers.antt:1:1: error: a tactic fails'
checker 'fn high::f: proved' 'fn high::g: not proved' 'the last line'
refusal 'a function' 'fn high::g: not proved'
checker 'so far: nothing' 'no proof: a goal is open' ''
refusal 'anything else' 'no proof: a goal is open'
echo ': >"$DO/printed"; exit 1' >"$DO/high"
refusal 'a checker that prints nothing' 'the checker printed nothing'
start books x
check 'and again, until it is mended' 1 "$status"
rm "$DO/high" "$DO/printed"
start books x
check 'a mended crate builds, and what stands on it' "$upwards" "$calls"

# What is built is what stood there when the build began: a compiler that edits a source meanwhile.
echo '// as committed' >"$low"
echo "echo '// edited meanwhile' >>'$low'; seen=\$(cat src/lib.rt); rm \"\$DO/low\"" >"$DO/low"
start books x
check 'an edit during the build: it fails' 1 "$status"
has 'an edit during the build: it is said' '^relayplum: crates/low/src/lib.rt changed while the program was built: start it again$' "$err"
check 'an edit during the build: no program runs' '' "$out"
check 'an edit during the build: the library is of what stood there' '// as committed' "$(cat "$room/top/crates/cdc_app/out/start/low.rlib/lib")"
echo 'grep -q edited src/lib.rt && { echo "no proof: a goal is open"; exit 1; }' >"$DO/low"
start books x
check 'the edited source is what is built next, and is refused' 1 "$status"
check 'the program of the source before does not run' '' "$out"
rm "$DO/low"
echo '// as committed' >"$low"
start books x
check 'the source as it was: the program runs' 'run with books x' "$out"
echo "echo '// edited later' >>'$low'; rm \"\$DO/high\"" >"$DO/high"
echo '// more' >>"$room/top/crates/high/src/lib.rt"
start books x
check 'an edit of a crate that is made already fails too' 1 "$status"
has 'an edit of a crate that is made already: it is said' '^relayplum: crates/low/src/lib.rt changed while' "$err"
start books x
check 'and then all is built of it' "$built" "$calls"
check 'and the library is of it' "$(cat "$low")" "$(cat "$room/top/crates/cdc_app/out/start/low.rlib/lib")"
echo "printf 'x' >>'$room/top/crates/low/src/new.rt'; rm \"\$DO/cdc_app\"" >"$DO/cdc_app"
echo '// more' >>"$room/top/crates/cdc_app/src/main.rt"
start books x
has 'a file that comes during the build' '^relayplum: crates/low/src/new.rt changed while' "$err"
rm "$room/top/crates/low/src/new.rt"

# A check that is ended by the system.
echo 'kill -9 $$' >"$DO/low"
echo '// killed' >>"$low"
start books x
check 'a check that is killed ends the script' 1 "$status"
has 'a check that is killed: it is said' '^relayplum: the system ended the check of low, most likely since memory ran out: RT_JOBS=1' "$err"
lacks 'a check that is killed is no refusal' 'isn.t proved' "$err"
rm "$DO/low"
start books x
check 'a check that was killed: the next call builds' "$built" "$calls"

# Side by side: `side` stands on nothing, so it starts beside `low`, and `high` only after both. Lines come in any order.
mkdir -p "$room/top/crates/side/src"
echo '// side' >"$room/top/crates/side/src/lib.rt"
echo '// beside' >>"$low"
printf 'cdc_app : low, high side clap\nhigh may_abort=0: low  side # both\n\nlow:\nside:\n' >"$room/top/crates.txt"
waits_for() { # waits_for CRATE OTHER: the check of a crate goes on once that of another has begun
    echo "until grep -q '^$2: ' \"\$CALLS\"; do sleep 0.05; done; echo '$1: done' >>\"\$CALLS\"" >"$DO/$1"
}
waits_for low side
waits_for side low
RT_JOBS=2 start books x
check 'side by side: the program runs' 'run with books x' "$out"
check 'side by side: each has begun before the other ends' "$(printf '%s\n' 'low: proved, jobs 1' 'side: proved, jobs 1')" \
    "$(head -n 2 <<<"$calls" | LC_ALL=C sort)"
check 'side by side: what stands on both comes after them' "$(printf '%s\n' 'high: proved, jobs 2' \
    'cdc_app: proved, jobs 2, by rattle')" "$(tail -n 2 <<<"$calls")"
rm "$DO"/*
echo '// again' >>"$room/top/crates/side/src/lib.rt"
start books x
check 'a change proves what stands on it, and nothing else' "$(printf '%s\n' 'side: proved, jobs 1' 'high: proved, jobs 1' \
    'cdc_app: proved, jobs 1, by rattle')" "$calls"
for crate in low side; do echo '// four' >>"$room/top/crates/$crate/src/lib.rt"; done
waits_for low side
waits_for side low
RT_JOBS=4 start books x
check 'four jobs: two for each of two' "$(printf '%s\n' 'low: proved, jobs 2' 'side: proved, jobs 2')" \
    "$(head -n 2 <<<"$calls" | LC_ALL=C sort)"
check 'four jobs: all for what everything left stands on' 'high: proved, jobs 4' "$(grep '^high: proved' <<<"$calls")"

# One that is refused ends the other that is being proved, which would never end by itself.
for crate in low side; do echo '// wrong' >>"$room/top/crates/$crate/src/lib.rt"; done
echo 'until [ -s "$DO/side.id" ]; do sleep 0.05; done; echo "no proof: a goal is open"; exit 1' >"$DO/low"
echo 'echo $$ >"$DO/side.id"; exec sleep 100000' >"$DO/side"
RT_JOBS=2 start books x
check 'side by side: one that is refused ends the script' 1 "$status"
has 'side by side: it names the crate' '^relayplum: low isn.t proved: ' "$err"
has 'side by side: it shows why' 'a goal is open' "$err"
gone() { ! kill -0 "$1" 2>/dev/null || [ "$(cut -d' ' -f3 "/proc/$1/stat" 2>/dev/null)" = Z ]; }
check 'side by side: the other is ended too' gone "$(gone "$(cat "$DO/side.id")" && echo gone)"
rm "$DO"/*
printf 'low: side\nside: low\nhigh:\ncdc_app: high low\n' >"$room/top/crates.txt"
start books x
check 'crates that wait for one another: the script ends' 1 "$status"
has 'crates that wait for one another: it is said' '^relayplum: crates.txt: these wait for one another: low side$' "$err"
lines
start books x
check 'and then the program runs again' 'run with books x' "$out"

# Ended from the keyboard while it builds, it ends what it has started, and prints no more.
echo '// more' >>"$low"
echo 'echo $$ >"$DO/low.id.new"; mv "$DO/low.id.new" "$DO/low.id"; exec sleep 100000' >"$DO/low"
rm -f "$DO/low.id"
: >"$CALLS"
python3 -c 'import os, signal, sys; signal.signal(signal.SIGINT, signal.default_int_handler); os.execv(sys.argv[1], sys.argv[1:])' \
    "$room/top/relayplum" books x 2>"$room/err" &
started=$!
until_there "$DO/low.id"
kill -INT "$started"
wait "$started"
check 'an interrupt: its status' 130 $?
check 'an interrupt: what it printed' 'relayplum: proving low, 1 of 3' "$(tail -n +2 "$room/err")"
check 'an interrupt: what it started is ended' gone "$(gone "$(cat "$DO/low.id")" && echo gone)"
rm "$DO"/*
start books x
check 'an interrupt: the next call builds' "$built" "$calls"

# --prove goes on where it was interrupted, and takes nothing that was not proved here.
start --prove books x
check '--prove: what is proved here is not proved again' '' "$calls"
echo '// prove' >>"$low"
echo 'exit 1' >"$DO/cdc_app"
start --prove books x
check '--prove: refused' 1 "$status"
rm "$DO"/*
start --prove books x
check '--prove goes on where it was' 'cdc_app: proved, jobs 1, by rattle' "$calls"
check '--prove: the program runs' 'run with books x' "$out"
start --optimised books x
check '--optimised has LLVM make the program, and nothing else' 'cdc_app: proved, jobs 1, by llvm' "$calls"
start books x
check 'a program that LLVM made serves as well' '' "$calls"
start --version
check '--version: built by proofs' 'relayplum
built from proofs made here, with kit-2, by LLVM' "$out"

ln -s "$room/top/relayplum" "$room/elsewhere/link"
cd "$room/elsewhere" || exit 1
call ./link books 'two words'
check 'a symbolic link runs the program' 'run with books two words' "$out"
check 'a symbolic link builds nothing' '' "$calls"
call ./link fail
check 'the status is the program'"'"'s' 1 "$status"
cd "$room/top" || exit 1
call ./relayplum books x
check 'from its own folder' 'run with books x' "$out"
cd "$room/elsewhere" || exit 1
mv "$room/top" "$room/a folder"
call "$room/a folder/relayplum" books x
check 'a folder with a space, moved: nothing is built' '' "$calls"
check 'a folder with a space, moved: the program runs' 'run with books x' "$out"
mv "$room/a folder" "$room/top"

echo 'a script' >"$room/elsewhere/a script"
call ./link --unproved books 'a script' --window 2
check 'unproved: no crate is built' "cdc_app: try --data 1-a script=$room/elsewhere/a script -- books 1-a script --window 2" "$calls"
has 'unproved: a file is handed on' '^a script$' "$out"
has 'unproved: it prints that nothing is proved' '^relayplum: nothing is proved' "$err"
has 'unproved: the program'"'"'s own lines on standard error' '^the program.s own line$' "$err"
check 'unproved: nothing else there' 2 "$(wc -l <<<"$err")"
touch books 7 ./-
call ./link --unproved books - --window 7
check 'unproved: files with the name of another argument' 'cdc_app: try -- books - --window 7' "$calls"
call ./link --unproved simulate books -
check 'unproved: files with such names where files are meant' \
    "cdc_app: try --data 1-books=$room/elsewhere/books --data 2--=$room/elsewhere/- -- simulate 1-books 2--" "$calls"
rm books 7 ./-
touch 7 1:2
call ./link --unproved run - --prefetch 7 --close 1:2 --progress 7
check 'unproved: numbers are no files, and progress is saved where it is to be' \
    "cdc_app: try -- run - --prefetch 7 --close 1:2 --progress $room/elsewhere/7" "$calls"
rm 7 1:2
touch 'a = b'
call ./link --unproved books 'a = b'
check 'unproved: a name with an equals sign' "cdc_app: try --data 1-a - b=$room/elsewhere/a = b -- books 1-a - b" "$calls"
call ./link --unproved simulate 'a script' 'a script' --diagram=out.mmd
check 'unproved: a diagram goes where it is to be' "--diagram=$room/elsewhere/out.mmd" "$(grep -o -- '--diagram=.*' <<<"$calls")"
PATH=$PATH_WITHOUT call ./link --unproved books 'a script'
check 'unproved, without a toolchain' '1 relayplum: there is no `rt` on the path: Rattle'"'"'s toolchain is needed' "$status $err"
call ./link --unproved --prove books x
check 'unproved and proved: a usage error' 2 "$status"
call ./link --prove --from-records books x
check 'two ways: a usage error' 2 "$status"
call ./link --install
check '--install without a folder: a usage error' 2 "$status"

# Arguments that need no program, before there is one.
mkdir -p "$room/top/docs/help"
printf 'Usage: relayplum <COMMAND>\n\nCommands:\n  books  Print\n  run    Run\n  help   Print this\n\nOptions:\n  -h, --help     Print help\n\nMore\n' \
    >"$room/top/docs/help/relayplum.txt"
printf 'Usage: relayplum books [OPTIONS] <FILE>\n\nOptions:\n      --window <N>  How many\n      --check       Check\n  -h, --help        Print help\n' \
    >"$room/top/docs/help/books.txt"
echo 'relayplum 7' >"$room/top/docs/help/version.txt"
from_scratch
call ./link --help
check 'at once: help' "$(cat "$room/top/docs/help/relayplum.txt")" "$out"
call ./link books --help
check 'at once: the help of a command' "$(cat "$room/top/docs/help/books.txt")" "$out"
call ./link help books
check 'at once: the same, by the command help' "$(cat "$room/top/docs/help/books.txt")" "$out"
for flag in --prove --from-records --optimised; do
    call ./link $flag --help
    check "at once: $flag --help" "$(cat "$room/top/docs/help/relayplum.txt")" "$out"
done
call ./link --version
check 'at once: the version' 'relayplum 7
not built: the first command builds it' "$out"
call ./link boks x
check 'at once: an unknown command' 2 "$status"
has 'at once: the commands are listed' '^relayplum: there is no command boks: the commands are books, run, help$' "$err"
call ./link books --wndow 3 x
check 'at once: an unknown flag' 2 "$status"
has 'at once: the flag is named' '^relayplum: books has no flag --wndow$' "$err"
check 'at once: nothing is built for any of them' '' "$(find "$room/top/crates/cdc_app/out" 2>/dev/null)"

# Standard output that can't be written to, and folders: a sentence each, and no traceback.
sentence() { # sentence NAME STATUS SENTENCE
    check "$1" "$2 $3" "$status $err"
}
call sh -c './link --help >&-'
sentence 'help, standard output closed' 1 'relayplum: standard output: Bad file descriptor'
call sh -c './link --help >/dev/full'
sentence 'help, a full disk' 1 'relayplum: standard output: No space left on device'
mkfifo "$room/pipe"
call bash -c 'exec 3<>"$0/pipe" 4>"$0/pipe" 3<&-; trap "" PIPE; ./link --help >&4' "$room"
check 'help, a reader that has gone: no traceback' '1 ' "$status $err"
call sh -c './link --help 0<&- 2>&-'
check 'help, nothing else open' 0 "$status"
mkdir -p "$room/top/crates/cdc_app"
touch "$room/top/crates/cdc_app/out"
call ./link books x
has 'where nothing can be made' "^relayplum: $room/top/crates/cdc_app/out/start: Not a directory$" "$err"
lacks 'where nothing can be made: no traceback' Traceback "$err"
rm "$room/top/crates/cdc_app/out"
KIT=$room/elsewhere call ./link books x
sentence 'a toolchain without its id' 1 "relayplum: \`rt doc\` names the folder $room/elsewhere, which has no KIT-ID: it is no toolchain's folder"
PATH=$PATH_WITHOUT call ./link books x
sentence 'no toolchain' 1 'relayplum: there is no `rt` on the path: Rattle'"'"'s toolchain is needed'
if modes_count launcher 'a folder that is read-only'; then
    chmod -R a-w "$room/top"
    call unprivileged ./link books x
    has 'a folder that is read-only, unbuilt' "^relayplum: $room/top/crates/cdc_app/out[^ ]*: Permission denied$" "$err"
    lacks 'a folder that is read-only: no traceback' Traceback "$err"
    chmod -R u+w "$room/top"
    call ./link books x
    chmod -R a-w "$room/top"
    call unprivileged ./link books x
    check 'a folder that is read-only, built: the program runs' '0 run with books x' "$status $out"
    chmod -R u+w "$room/top"
fi
call ./link books x
call sh -c './link books x >&-'
lacks 'a program, standard output closed: no traceback' Traceback "$err"
rm -f "$program.stamps"
call sh -c './link books x >&-'
lacks 'a program that is compared, standard output closed: no traceback' Traceback "$err"

# --install puts the program, the man page, the completions, the units and try-consumer in their places.
mkdir -p "$room/top/completions" "$room/top/examples"
for file in docs/relayplum.1 completions/relayplum.bash completions/_relayplum completions/relayplum.fish \
    examples/boundaries.script; do
    echo "$file" >"$room/top/$file"
done
cp -r "$here/tools/try-consumer" "$here/tools/trying" "$room/top/tools/"
cp -r "$here/contrib" "$room/top/"
call ./link --install "$room/usr/local"
check '--install: status' 0 "$status"
check '--install: the program' 'run with books x' "$("$room/usr/local/bin/relayplum" books x)"
check '--install: each file' "$(printf '%s\n' bin/relayplum bin/try-consumer $(cd "$here/contrib/systemd" && printf 'lib/systemd/system/%s\n' *) \
    share/bash-completion/completions/relayplum \
    share/fish/vendor_completions.d/relayplum.fish share/man/man1/relayplum.1 share/relayplum/boundaries.script \
    $(cd "$here/tools" && ls trying/*.py | sed 's,^,share/relayplum/,') share/zsh/site-functions/_relayplum)" \
    "$(cd "$room/usr/local" && find . -type f | sed 's/..//' | LC_ALL=C sort)"
other='is another version: it did'"n't"' print deliveries'
call "$room/usr/local/bin/try-consumer" --seeds 1 -- cat
check 'try-consumer runs the program in its folder' "2 try-consumer: $room/usr/local/bin/relayplum $other" "$status $err"
call "$room/top/tools/try-consumer" --seeds 1 -- cat
check 'try-consumer runs the program of its clone' "2 try-consumer: $program $other" "$status $err"
check 'try-consumer: it is built, so nothing is built' '' "$calls"
echo '// more' >>"$low"
call "$room/top/tools/try-consumer" --seeds 1 -- cat
check 'try-consumer builds the program if a source has changed' "$built" "$calls"
has 'try-consumer: then it runs it' "^try-consumer: $program $other" "$err"
call ./link "--install=$room/full" books x
check '--install=DIR' 'run with books x' "$("$room/full/bin/relayplum" books x)"

ended
