#!/usr/bin/env bash
# What the tests of the launcher and of tools/ share: a small repository with copies of both, and an `rt` of these tests in the
# toolchain's place. $NAME is the name of the test.
set -uo pipefail
here=$(cd "$(dirname "${BASH_SOURCE[0]}")/../.." && pwd)
room=$(mktemp -d)
trap 'rm -rf "$room"' EXIT
passed=0
failed=0

check() { # check NAME WANTED FOUND
    if [ "$2" = "$3" ]; then
        passed=$((passed + 1))
    else
        failed=$((failed + 1))
        printf '%s: %s: wanted\n%s\nfound\n%s\n' "$NAME" "$1" "$2" "$3"
    fi
}

has() { # has NAME PATTERN TEXT
    if grep -q -- "$2" <<<"$3"; then
        passed=$((passed + 1))
    else
        failed=$((failed + 1))
        printf '%s: %s: no line with %s in\n%s\n' "$NAME" "$1" "$2" "$3"
    fi
}

lacks() { # lacks NAME PATTERN TEXT
    if grep -q -- "$2" <<<"$3"; then
        failed=$((failed + 1))
        printf '%s: %s: a line with %s in\n%s\n' "$NAME" "$1" "$2" "$3"
    else
        passed=$((passed + 1))
    fi
}

until_there() { # until_there FILE: waits for a file; the limit is a guard against waiting for ever
    for _ in $(seq 2400); do
        [ -e "$1" ] && return
        sleep 0.05
    done
    echo "$NAME: waited for $1 in vain"
}

# A repository of two crates, a program that stands on them and one more crate, and a toolchain of these tests, which writes
# down how it is called.
mkdir -p "$room/bin" "$room/kit/bin" "$room/kit/rlibs" "$room/top/crates"/{low,high,cdc_app,aside}/src "$room/top/crates/low/specs" \
    "$room/elsewhere" "$room/top/tools"
cp "$here/relayplum" "$room/top/relayplum"
cp -r "$here/tools/build" "$here/tools/start.py" "$here/tools/records" "$room/top/tools/"
for crate in low aside high; do echo "// $crate" >"$room/top/crates/$crate/src/lib.rt"; done
echo '// cdc_app' >"$room/top/crates/cdc_app/src/main.rt"
echo '-- a definition' >"$room/top/crates/low/specs/Low.antt"
lines() { printf '# lowest first\nlow:\naside: low\nhigh: low\ncdc_app: low high clap\n' >"$room/top/crates.txt"; }
lines
echo 'kit-1 logic l1' >"$room/kit/KIT-ID"
cat >"$room/kit/bin/rt" <<'RT'
#!/usr/bin/env bash
case "$1" in
doc) echo "${KIT:-$(dirname "$(dirname "$(readlink -f "$0")")")}/START-HERE.md" ;;
try)
    echo "$(basename "$PWD"): $*" >>"$CALLS"
    echo "tried: $*"
    for word in "$@"; do case "$word" in *=*) cat "${word#*=}" 2>/dev/null ;; esac; done
    echo "interpreter: no-answer: a call of a function of an \`extern\` block" >&2
    echo "the program's own line" >&2
    echo "checked: ended status=0" >&2
    echo "run=ended status=0 proved=no" >&2
    ;;
esac
RT
# What a check does at a crate stands in the file $DO/CRATE, and what linking does in $DO/link, as words of the shell.
cat >"$room/kit/bin/rattle" <<'RATTLE'
#!/usr/bin/env bash
name='' to='' jobs='' record='' all=" $* " by='' what=$1
while [ $# -gt 0 ]; do
    case "$1" in
    --crate-name) name=$2 ;;
    -o) to=$2 ;;
    --jobs) jobs=$2 ;;
    --crate-checked) record=$2 ;;
    --backend) by=", by $2" ;;
    esac
    shift
done
# each library that it stands on has to be there
for word in $all; do
    case "$word" in
    *=*/start/*.rlib) [ -e "${word#*=}/lib" ] || { echo "error: $word is missing"; exit 2; } ;;
    esac
done
if [ -n "$record" ]; then
    echo "$name: record$by" >>"$CALLS"
    grep -q proved "$record/verdict" || { echo 'error: a record is not as it was written'; exit 1; }
    while read -r _ file sum; do
        file=${file#'"'} file=${file%'"'}
        [ "$(sha256sum <"$file" | cut -d' ' -f1)" = "$sum" ] || { echo "error: $file is not what was checked"; exit 1; }
    done <"$record/inputs"
    if [ -e "$record/toolchain/checked.a" ]; then echo "$name: has $(tr '\n' ' ' <"$record/toolchain/checked.a")" >>"$CALLS"; fi
else
    echo "$name: proved, jobs $jobs$by" >>"$CALLS"
fi
seen=$(cat src/*.rt)
if [ -f "$DO/$name" ]; then . "$DO/$name"; fi
# (a check from scratch writes the record that the test has for it)
if [ "$what" = check ]; then exec cp -r "$DO/records/$name" "$to"; fi
case "$to" in
*.rlib)
    rm -rf "$to" && mkdir -p "$to/below/index" && echo "$seen" >"$to/lib"
    # (what a library has of the toolchain's, and of its record, which a proof makes too)
    big=$(dirname "$(dirname "$0")")/rlibs/index.rlib/big
    if [ -f "$big" ]; then cp "$big" "$to/below/index/"; fi
    [ -d "$record/toolchain" ] || record=$DO/records/$name
    if [ -d "$record/toolchain" ]; then cp -r "$record/toolchain" "$to/"; fi
    ;;
*) echo "$name" >"$to" ;;
esac
RATTLE
cat >"$room/kit/bin/rattle-link" <<'LINK'
#!/usr/bin/env bash
if [ -f "$DO/link" ]; then . "$DO/link"; fi
while [ "$1" != -o ]; do shift; done
printf '#!/bin/sh\n# of %s\necho "run with $*"\n[ "$1" != signals ] || grep SigIgn /proc/self/status\n[ "$1" != fail ]\n' "$(cat "$3")" >"$2"
chmod +x "$2"
LINK
# Python as the launcher finds it, which writes down that it was asked.
printf '#!/bin/sh\necho python >>"$CALLS.python"\nexec %s "$@"\n' "$(python3 -c 'import sys; print(sys.executable)')" >"$room/bin/python3"
chmod +x "$room/bin"/* "$room/kit/bin"/*
ln -s "$room/kit/bin/rt" "$room/bin/rt"
export PATH=$room/bin:$PATH CALLS=$room/calls DO=$room/do
mkdir "$DO"

call() { # runs a command; $out, $err, $status and $calls say what came of it
    : >"$CALLS"
    rm -f "$CALLS.python"
    status=0
    out=$("$@" 2>"$room/err") || status=$?
    err=$(cat "$room/err")
    calls=$(cat "$CALLS")
}
start() { call "$room/top/relayplum" "$@"; }

built='low: proved, jobs 1
high: proved, jobs 1
cdc_app: proved, jobs 1, by rattle'
upwards='high: proved, jobs 1
cdc_app: proved, jobs 1, by rattle'
low=$room/top/crates/low/src/lib.rt
program=$room/top/crates/cdc_app/out/cdc_app
from_scratch() { rm -rf "$room/top/crates/cdc_app/out"; }
# one job at a time, where nothing else is said
export RT_JOBS=1

ended() { # prints the count
    echo "$NAME: $passed passed, $failed failed"
    [ "$failed" = 0 ]
}
