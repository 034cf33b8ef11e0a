#!/usr/bin/env bash
# The program as a process: its arguments, its files, its exit statuses, and its diagnostics on standard error.
# Takes the program's path, crates/cdc_app/out/cdc_app where none is given. Prints each check that fails.
set -uo pipefail
top=$(cd "$(dirname "${BASH_SOURCE[0]}")/../.." && pwd)
. "$top/tests/common/help.sh"
. "$top/tests/common/unprivileged.sh"
program=$(realpath "${1:-$top/crates/cdc_app/out/cdc_app}")
folder=$(mktemp -d)
trap 'rm -rf "$folder"' EXIT
cd "$folder" || exit 1
failed=0
checks=0

# Prints that a check failed, and what was wanted and found.
wrong() {
    failed=$((failed + 1))
    printf 'failed: %s\n  wanted: %q\n  found:  %q\n' "$1" "$2" "$3"
}

# Compares two texts.
same() {
    checks=$((checks + 1))
    [ "$2" == "$3" ] || wrong "$1" "$2" "$3"
}

# Whether a text has another one in it.
has() {
    checks=$((checks + 1))
    case "$3" in *"$2"*) ;; *) wrong "$1" "..$2.." "$3" ;; esac
}

# Runs the program with these arguments, by the function $by if there is one; standard input is the file `input`.
run() {
    ${by-} "$program" "$@" <input >output 2>errors
    status=$?
    out=$(cat output; printf x)
    out=${out%x}
    err=$(cat errors; printf x)
    err=${err%x}
}

# Returns whether there is a disk that is full; if not, prints what isn't written to one.
has_full_disk() {
    [ -w /dev/full ] || {
        echo "arguments: not tried: $1 to a full disk: there is no /dev/full"
        false
    }
}

# A run that ends well, with nothing on standard error.
ends_well() {
    same "$1: status" 0 "$status"
    same "$1: standard error" '' "$err"
}

# A run that ends well in which so many items weren't accepted and so many batches were refused, as standard error reports.
counts() {
    same "$1: status" 0 "$status"
    same "$1: standard error" "relayplum: requests not accepted: $2, batches refused: $3; --explain prints why
" "$err"
}

one_transfer='subscriber all
accounts 1000
account id=1 ledger=700 code=10
account id=2 ledger=700 code=10
transfers 2000
transfer id=1 debit_account_id=1 credit_account_id=2 amount=100 ledger=700 code=1
'
its_book='batch 1: 0 0
batch 2: 0
subscriber 1 applied 1 last 2000 ended yes closed no
account 1 0 100 0 0
account 2 0 0 0 100
'
its_headers='event_type=single_phase ledger=700 transfer_code=1 debit_account_code=10 credit_account_code=10 timestamp=0
'
printf '%s' "$one_transfer" >one.script
printf '%s' "$one_transfer" >input

# Where the script comes from.
for arguments in '' 'run -' 'run one.script' 'books -' 'books one.script' 'books ./one.script' "books $folder/one.script"; do
    run $arguments
    same "arguments '$arguments'" "$its_book" "$out"
    ends_well "arguments '$arguments'"
done
for arguments in 'messages -' 'messages one.script'; do
    run $arguments
    same "arguments '$arguments': lines" 2 "$(wc -l <output)"
    same "arguments '$arguments': headers" "$its_headers" "$(head -n 1 output)
"
    ends_well "arguments '$arguments'"
done
cp one.script ./-dashed
run books -- -dashed
same 'a file whose name begins with a dash' "$its_book" "$out"
cp one.script 'two words'
run books 'two words'
same 'a file whose name has a space' "$its_book" "$out"

# Help and the version stand on standard output.
for arguments in '--help' '-h' 'help' 'books --help' 'messages --help' 'simulate --help' 'run --help' 'help books' 'help messages' \
    'help simulate' 'help run'; do
    run $arguments
    ends_well "arguments '$arguments'"
    has "arguments '$arguments': usage" 'Usage: ' "$out"
    has "arguments '$arguments': FILE" 'FILE is a script, and - is standard input' "$out"
    command=${arguments/--help/}
    command=${command/help/}
    case $command in *[a-z][a-z]*) has "arguments '$arguments': example" "  relayplum ${command// /} examples/" "$out" ;; esac
    has "arguments '$arguments': statuses" 'Exit status' "$out"
done
for arguments in '--help' 'help'; do
    run $arguments
    has "arguments '$arguments': books" '  books ' "$out"
    has "arguments '$arguments': messages" '  messages ' "$out"
    has "arguments '$arguments': simulate" '  simulate ' "$out"
    has "arguments '$arguments': run" '  run ' "$out"
done
for arguments in 'books --help' 'messages --help' 'run --help'; do
    run $arguments
    same "arguments '$arguments': only its own arguments" 0 "$(grep -c STEPS output)"
done
for arguments in 'books --help' 'messages --help' 'simulate --help'; do
    run $arguments
    has "arguments '$arguments': --check" '--check ' "$out"
    [ "$arguments" == 'messages --help' ] || has "arguments '$arguments': --explain" '--explain ' "$out"
done
has 'help of simulate: --trace' '--trace ' "$out"
has 'help of simulate: --diagram' '--diagram' "$out"
for arguments in '--version' '-V'; do
    run $arguments
    ends_well "arguments '$arguments'"
    has "arguments '$arguments'" 'relayplum ' "$out"
done

# Usage errors: standard error names the argument, or what was wanted; nothing stands on standard output.
usage_error() {
    local wanted=$1
    shift
    run "$@"
    same "usage error '$*': status" 2 "$status"
    same "usage error '$*': standard output" '' "$out"
    has "usage error '$*'" "$wanted" "$err"
    has "usage error '$*': where to read on" '--help' "$err"
}
usage_error "'ledger'" ledger one.script
usage_error "'--fast'" --fast
usage_error '<FILE>' books
usage_error '<FILE>' messages
usage_error "'other.script'" books one.script other.script
usage_error "'--window'" books one.script --window
usage_error '<FILE>' simulate
usage_error '<STEPS>' simulate one.script
usage_error "'--fast'" simulate one.script three.steps --fast
usage_error "'other.steps'" simulate one.script three.steps other.steps
usage_error "'--window" simulate one.script three.steps --window
usage_error "'--window" simulate one.script three.steps --window 1 --window 1
usage_error "'--window'" books one.script --window 1
usage_error "'--explain'" messages one.script --explain
usage_error "'--random" simulate one.script three.steps --random 1
usage_error "'--random" simulate one.script --check --random 1
usage_error "'--random" books one.script --random 1
usage_error "'--steps" simulate one.script three.steps --steps 5
usage_error "'--faults" simulate one.script three.steps --faults 5
usage_error "'--to-end" simulate one.script three.steps --to-end
usage_error "'--to-end" simulate one.script --random 1 --to-end --to-end
usage_error "'--to-end" books one.script --to-end
usage_error "relayplum simulate one.script --random 1" simulate one.script
for seed in x 18446744073709551616 ''; do
    usage_error "--random $seed: a seed, a number from 0 to 18446744073709551615" simulate one.script "--random=$seed"
done
for count in 20001 -1 x; do
    usage_error "--steps $count: a number from 0 to 20000" simulate one.script --random 1 "--steps=$count"
    usage_error "--faults $count: a number from 0 to 20000" simulate one.script --random 1 "--faults=$count"
done
usage_error "'--trace'" books one.script --trace
usage_error "'--diagram" messages one.script --diagram=out
usage_error "'--check" simulate one.script three.steps --check=yes
for number in 0 9 1x '' -1; do
    usage_error "--deliveries $number: the number of a subscriber, from 1 to 8" simulate one.script three.steps "--deliveries=$number"
    usage_error "--deliveries $number: the number of a subscriber, from 1 to 8" run one.script "--deliveries=$number"
done
usage_error "'--deliveries" simulate one.script three.steps --deliveries
usage_error "'--deliveries" simulate one.script three.steps --check --deliveries 1
usage_error "--deliveries" simulate one.script three.steps --expect
usage_error "'--deliveries" run one.script --deliveries
usage_error "--deliveries" run one.script --expect
usage_error "'--check'" run one.script --check
usage_error "'--progress" run one.script --progress
usage_error "'--progress" run one.script --progress a --progress b
usage_error "'--prefetch" run one.script --prefetch 1 --prefetch 1
usage_error "'--lose-confirm'" books one.script --lose-confirm 1
for prefetch in 0 65 18446744073709551617 x 8: -1 ''; do
    usage_error "--prefetch $prefetch: a number from 1 to 64" run one.script --prefetch="$prefetch"
done
usage_error "'--start-after" run one.script --start-after
usage_error "'--start-after" run one.script --start-after 1 --start-after 1
usage_error "'--start-after'" simulate one.script three.steps --start-after 1
for start in 9223372036854775808 18446744073709551616 x 1:1 +1 -1 ''; do
    usage_error "--start-after $start: a timestamp in nanoseconds, from 0 to 9223372036854775807" run one.script --start-after="$start"
done
for option in --lose-confirm --lose-publish --restart-after; do
    usage_error "'$option" run one.script "$option"
    for count in 0 00 18446744073709551616 x 1:1 +1 -1 ''; do
        usage_error "$option $count: a number from 1 to 18446744073709551615" run one.script "$option" 1 "$option=$count"
    done
done
for option in --repeat --close; do
    usage_error "'$option" run one.script "$option"
    for pair in 0:1 1:0 1 1: :1 : 1:1:1 1-1 x:1 1:x 18446744073709551616:1 1:18446744073709551616 ''; do
        usage_error "$option $pair: a " run one.script "$option=1:1" "$option=$pair"
    done
done
for window in 0 65 1000 x 1.5 ''; do
    usage_error "--window $window: a number from 1 to 64" run one.script --window "$window"
    usage_error "--window $window: a number from 1 to 64" simulate one.script three.steps --window "$window"
    usage_error "--window $window: a number from 1 to 64" simulate one.script three.steps --check --window "$window"
done
run books $'\xff'
same 'an argument that is no text: status' 2 "$status"
same 'an argument that is no text: standard output' '' "$out"
has 'an argument that is no text' 'UTF-8' "$err"
run books ''
same 'an empty name: status' 1 "$status"
same 'an empty name: standard output' 'fault: read_fault
' "$out"

# A run: what it saves, what it goes on from, and what it has no place for.
for arguments in 'run one.script --progress=saved' 'run --progress saved - --prefetch 064' 'run --window=01 one.script --progress ./saved'; do
    rm -f saved
    run $arguments
    same "arguments '$arguments'" "$its_book" "$out"
    ends_well "arguments '$arguments'"
    same "arguments '$arguments': saved" 'tb-cdc 2 1 2000 0' "$(cat saved)"
done
run run one.script --progress saved --start-after 1999
same 'a start where progress is saved: status' 1 "$status"
same 'a start where progress is saved: standard output' 'fault: start_not_allowed
' "$out"
same 'a start where progress is saved: standard error' \
    'relayplum: start_not_allowed: progress is saved already, and it fixes where the run goes on
' "$err"
same 'a start where progress is saved: saved' 'tb-cdc 2 1 2000 0' "$(cat saved)"
run run one.script --progress saved
same 'a run that goes on: standard output' 'batch 1: 0 0
batch 2: 0
subscriber 1 applied 0 last 0 ended yes closed no
' "$out"
ends_well 'a run that goes on'
same 'a run that goes on: saved' 'tb-cdc 2 2 2000 0' "$(cat saved)"
for start in 0 1999 01999; do
    rm -f saved
    run run one.script --start-after $start --progress saved
    same "a start after $start: standard output" "$its_book" "$out"
    ends_well "a start after $start"
    same "a start after $start: saved" "tb-cdc 2 1 2000 $((10#$start))" "$(cat saved)"
done
for start in 2000 9223372036854775807; do
    rm -f saved
    run run one.script --start-after=$start --progress saved
    same "a start after $start: standard output" 'batch 1: 0 0
batch 2: 0
subscriber 1 applied 0 last 0 ended yes closed no
' "$out"
    same "a start after $start: saved" "tb-cdc 2 1 $start $start" "$(cat saved)"
done
run run one.script --progress saved
same 'a run that goes on keeps its start' 'tb-cdc 2 2 9223372036854775807 9223372036854775807' "$(cat saved)"
printf 'tb-cdc 1 3 2000\n' >saved
run run one.script --progress saved
same 'a record of version 1 is read, and written in version 2' 'tb-cdc 2 4 2000 0' "$(cat saved)"
run run no-such.script
same 'a run of no file: status' 1 "$status"
same 'a run of no file: standard output' 'fault: read_fault
' "$out"
has 'a run of no file: standard error' 'no-such.script: read_fault: No such file' "$err"
printf '%stransfer id=1\n' "$one_transfer" >refused.script
run run refused.script
same 'a run that refuses: standard error' 'relayplum: requests not accepted: 1, batches refused: 0; --explain prints why
refused.script:7: note: a transfer with no amount, or 0, moves 0 (1 in this script)
' "$err"
run run --explain refused.script
same 'a run that refuses, explained' 'refused.script:7: batch 2 transfer 2 (id 1): 9 ledger_must_not_be_zero: a transfer'\''s ledger is never 0
refused.script:7: note: a transfer with no amount, or 0, moves 0 (1 in this script)
' "$err"
same 'a run that refuses, explained: status' 0 "$status"
run run --explain one.script
same 'a run with nothing to explain' "$its_book" "$out"
ends_well 'a run with nothing to explain'
printf 'subscriber all\nclient 5\n' >fifth.script
run run fifth.script
same 'a run of a fifth client: standard output' 'fault: script line 2: bad_client
' "$out"
same 'a run of a fifth client: standard error' "fifth.script:2:8: bad_client: \`5\` is no client's number, which is 1 to 4
" "$err"

# Faults that never came, and what came to each subscriber. There are 7 events, 2 of which are the second subscriber's
# and 1 the third's, and an end mark. A queue that rewinds at its first position, while it may have two on their way, has
# that one twice at once; if it may have one, the acknowledgement comes before it is delivered again, and it isn't.
missed() {
    run run "$top/examples/two-phase.script" "${@:2}"
    same "a fault that never came, '${*:2}': status" 0 "$status"
    same "a fault that never came, '${*:2}'" "relayplum: $1" "$(grep -v 'requests not accepted' errors)"
}
missed '--lose-publish 999: only 8 publishes reached the broker' --lose-publish 999
missed '--lose-confirm 9: only 8 publishes reached the broker' --lose-confirm 9
missed '--restart-after 9: only 8 publishes were sent' --restart-after 9
missed '--restart-after 999: only 9 publishes were sent' --lose-publish 1 --restart-after 999
missed '--repeat 2:9: queue 2 had only 3 deliveries' --repeat 2:9
missed '--repeat 4:1: there is no queue 4' --repeat 4:1 --repeat 1:1
missed '--close 2:9: subscriber 2 applied only 2 events' --close 2:9
missed '--close 3:9: subscriber 3 applied only 1 event' --close 3:9
missed '--close 4:1: there is no subscriber 4' --close 4:1
# Of one it is said in the singular: without an event the end mark is the only publish, and the only delivery.
printf 'subscriber all\naccounts 1000\naccount id=1 ledger=700 code=10\n' >none.script
run run none.script --lose-publish 2 --lose-confirm 2 --restart-after 2 --repeat 1:2 --trace
same 'one of each: status' 0 "$status"
same 'one of each' "subscriber 1: 1 delivery, 0 applied, each once; 0 redelivered, applied no second time; \
the other one is an end mark, or came after a close
relayplum: --lose-confirm 2: only 1 publish reached the broker
relayplum: --lose-publish 2: only 1 publish reached the broker
relayplum: --restart-after 2: only 1 publish was sent
relayplum: --repeat 1:2: queue 1 had only 1 delivery" "$(cat errors)"

# The trace of a run. With one event in the window the connector sends nothing before the last confirm has come,
# so one fault has one outcome. The first publish is of the first event: lost, it never comes to a queue, and is sent
# again by the next session; where its confirm is lost, or the connector restarts once it is sent, it stands in each
# queue twice. The second and the third subscriber don't want it. Their lines are the same each time.
traced_run() {
    run run --trace "$top/examples/two-phase.script" --window 1 "${@:3}"
    same "a traced run, '${*:3}': status" 0 "$status"
    same "a traced run, '${*:3}'" "$1${1:+
}subscriber 1: $2
subscriber 2: 3 deliveries, 2 applied, each once; 0 redelivered, applied no second time; $one_end
subscriber 3: 2 deliveries, 1 applied, each once; 0 redelivered, applied no second time; $one_end" \
        "$(grep -v 'requests not accepted' errors)"
}
one_end='the other one is an end mark, or came after a close'
first='event 2000, transfer 10 pending, 100 from 1 to 2'
once="8 deliveries, 7 applied, each once; 0 redelivered, applied no second time; $one_end"
twice="9 deliveries, 7 applied, each once; 1 redelivered, applied no second time; $one_end"
traced_run '' "$once"
traced_run "$first: sent by session 1, lost; sent again by session 2, taken" "$once" --lose-publish 1
traced_run "$first: sent by session 1, taken, its confirm lost; sent again by session 2, taken
again 1: position 2, $first" "$twice" --lose-confirm 1
traced_run "$first: sent by session 1, taken; sent again by session 2, taken
again 1: position 2, $first" "$twice" --restart-after 1
# The eighth publish is the end mark.
traced_run 'end mark: sent by session 1, lost; sent again by session 2, taken' "$once" --lose-publish 8
# The queue rewinds as it delivers its first position, before that can be acknowledged: if two may be on their
# way, it is delivered again at once; if one may, its acknowledgement comes first, and it isn't.
traced_run "again 1: position 1, $first" "$twice" --prefetch 2 --repeat 1:1
traced_run '' "$once" --prefetch 1 --repeat 1:1

# Without arguments, on a terminal, it prints what it waits for; a script that is typed there is run, up to its end.
python3 - "$program" one.script >terminal <<'END'
import os, pty, subprocess, sys
program, script = sys.argv[1:]
typed, terminal = pty.openpty()
with subprocess.Popen([program], stdin=terminal, stdout=subprocess.PIPE, stderr=subprocess.PIPE) as run:
    os.close(terminal)
    with open(script, 'rb') as lines:
        os.write(typed, lines.read() + b'\x04')
    out, err = run.communicate(timeout=300)
sys.stdout.buffer.write(b'status %d\n' % run.returncode + err + out)
END
run books one.script
same 'a script from a terminal' "status 0
relayplum: a script is read from standard input, up to its end; --help describes it
${out}x" "$(cat terminal; printf x)"

# Two clients at once: which of them comes first isn't fixed, but each one's own order is, and both books are given by the
# ledger's events. Ten times over.
{
    printf 'subscriber all\nsubscriber all ledger=800\n'
    cat "$top/tests/faults/two-clients.script"
} >clients.script
for _ in 1 2 3 4 5 6 7 8 9 10; do
    run run clients.script --restart-after 2
    ends_well 'two clients'
    same 'two clients: their batches' 'batch 1: 0 0
batch 2: 0
batch 3: 0 0
batch 4: 0' "$(head -n 4 output)"
    same 'two clients: their accounts' 'account 1 0 5 0 0
account 2 0 0 0 5
account 3 0 7 0 0
account 4 0 0 0 7' "$(sed -n '/^subscriber 1/,/^subscriber 2/p' output | grep '^account' | sort)"
    same 'two clients: the second book' 'account 3 0 7 0 0
account 4 0 0 0 7' "$(sed '1,/^subscriber 2/d' output)"
    last=$(sed -n 's/^subscriber 1 applied 2 last \([0-9]*\) ended yes closed no$/\1/p' output)
    eight=$(sed -n 's/^subscriber 2 applied 1 last \([0-9]*\) ended yes closed no$/\1/p' output)
    checks=$((checks + 1))
    case "$last $eight" in
    # the second transfer comes right behind the first, or behind the other client's accounts
    '2001 2001' | '2001 2000' | '2003 2003' | '2003 2000') ;;
    *) wrong 'two clients: the timestamps of the last events' '2001 or 2003, and 2000 or the same' "$last $eight" ;;
    esac
done

# Why an item of two clients wasn't accepted: explained in the order in which the ledger took the batches, whichever
# came first. The second client's transfer finds no account at all, or the one that it debits alone. Ten times over.
printf '%s\n' 'subscriber all' 'accounts 1000' 'account id=1 ledger=700 code=10' 'client 2' 'transfers 2000' \
    'transfer id=1 debit_account_id=1 credit_account_id=2 amount=5 ledger=700 code=1' >either.script
for _ in 1 2 3 4 5 6 7 8 9 10; do
    run run --explain either.script
    same 'either client first: status' 0 "$status"
    case "$out" in
    *'batch 2: 14'*) why='14 debit_account_not_found: there is no account 1 to debit' ;;
    *) why='15 credit_account_not_found: there is no account 2 to credit' ;;
    esac
    same 'either client first: why' "either.script: in the order in which the ledger took the clients' batches
either.script:6: batch 2 transfer 1 (id 1): $why
" "$err"
done

# A pending transfer of one client that another one's later batches may make expire before its pulse does, among enough
# batches that no search finds their order: each of a hundred runs is explained. An item that isn't accepted has a line, and
# so has each batch that is refused.
for _ in $(seq 100); do
    run run --explain "$top/tests/checks/arguments/two-clients-and-a-pulse.script"
    same 'two clients and a pulse: status' 0 "$status"
    same 'two clients and a pulse: how it is explained' \
        "$top/tests/checks/arguments/two-clients-and-a-pulse.script: in the order in which the ledger took the clients' batches" \
        "$(head -n 1 errors)"
    same 'two clients and a pulse: a line for each' \
        "$(awk '$1 == "batch" && $3 != "pulse" { n += $3 == "refused:"; for (i = 3; i <= NF && $3 != "refused:"; i++) n += $i != 0 }
            END { print n + 0 }' output)" "$(($(wc -l <errors) - 1))"
done

# Four clients at once, each with two accounts and one transfer on a ledger of its own; of eight subscribers four receive one
# ledger each, and four all. In which order the batches come isn't fixed, but what each book has in the end. Ten times over.
for client in 1 2 3 4; do
    echo "subscriber all ledger=70$client"
done >four.script
for _ in 5 6 7 8; do
    echo 'subscriber all'
done >>four.script
for client in 1 2 3 4; do
    debit=$((2 * client - 1)) credit=$((2 * client))
    printf 'client %s\naccounts 1000\n' "$client"
    printf 'account id=%s ledger=70%s code=10\n' "$debit" "$client" "$credit" "$client"
    printf 'transfers 2000\ntransfer id=%s debit_account_id=%s credit_account_id=%s' "$client" "$debit" "$credit"
    printf ' amount=%s ledger=70%s code=1\n' "$client" "$client"
done >>four.script
for _ in 1 2 3 4 5 6 7 8 9 10; do
    run run four.script --window 64 --restart-after 2
    ends_well 'four clients'
    same 'four clients: their batches' 'batch 1: 0 0
batch 2: 0
batch 3: 0 0
batch 4: 0
batch 5: 0 0
batch 6: 0
batch 7: 0 0
batch 8: 0' "$(head -n 8 output)"
    same 'four clients: the books of one ledger' 'subscriber 1 applied 1 last .. ended yes closed no
account 1 0 1 0 0
account 2 0 0 0 1
subscriber 2 applied 1 last .. ended yes closed no
account 3 0 2 0 0
account 4 0 0 0 2
subscriber 3 applied 1 last .. ended yes closed no
account 5 0 3 0 0
account 6 0 0 0 3
subscriber 4 applied 1 last .. ended yes closed no
account 7 0 4 0 0
account 8 0 0 0 4' "$(sed -n '9,20s/last [0-9]*/last ../; 9,20p' output)"
    last=$(sed -n 's/^subscriber 5 applied 4 last \([0-9]*\) ended yes closed no$/\1/p' output)
    for subscriber in 5 6 7 8; do
        begins=$((21 + 9 * (subscriber - 5)))
        same "four clients: how far subscriber $subscriber is" "subscriber $subscriber applied 4 last $last ended yes closed no" \
            "$(sed -n "${begins}p" output)"
        same "four clients: the book of subscriber $subscriber" 'account 1 0 1 0 0
account 2 0 0 0 1
account 3 0 2 0 0
account 4 0 0 0 2
account 5 0 3 0 0
account 6 0 0 0 3
account 7 0 4 0 0
account 8 0 0 0 4' "$(sed -n "$((begins + 1)),$((begins + 8))p" output | sort)"
    done
    same 'four clients: lines in all' 56 "$(wc -l <output)"
done

# A bad script: the fault's line on standard output, and one line for a person on standard error.
bad_script() {
    local name=$1 line=$2 fault=$3 script=$4 place
    printf '%b' "$script" >"$name"
    place=$name:$line:
    [ "$line" != 0 ] || place="$name: $fault: the file has "
    for command in books messages; do
        run "$command" "$name"
        same "$command, $fault: status" 2 "$status"
        same "$command, $fault: standard output" "fault: script line $line: $fault
" "$out"
        same "$command, $fault: lines of standard error" 1 "$(wc -l <errors)"
        has "$command, $fault: place" "$place" "$err"
        has "$command, $fault: name" ": $fault: " "$err"
    done
}
bad_script tab.script 2 bad_text 'subscriber all\naccounts\t5\n'
bad_script word.script 3 unknown_word 'subscriber all\n\naccount5\n'
bad_script count.script 2 wrong_count 'subscriber all\npulse 5 6\n'
bad_script number.script 2 bad_number 'subscriber all\naccounts x\n'
bad_script range.script 3 number_out_of_range 'subscriber all\naccounts 5\naccount code=65536\n'
bad_script key.script 3 unknown_key 'subscriber all\naccounts 5\naccount amount=1\n'
bad_script twice.script 3 key_twice 'subscriber all\naccounts 5\naccount id=1 id=2\n'
bad_script batch.script 2 no_open_batch 'subscriber all\naccount id=1\n'
bad_script binding.script 1 bad_binding 'subscriber some\n'
bad_script client.script 2 bad_client 'subscriber all\nclient 9\n'
bad_script none.script 0 no_subscriber ''

# The diagnostic for each mistake: tests/checks/arguments/faults.rows has a row for each, of the kind of the file, its text
# and what standard error has behind the file's name.
while IFS=$'\t' read -r kind text wanted; do
    printf '%b' "$text" >mistaken
    if [ "$kind" == script ]; then run books --check mistaken; else run simulate --check one.script mistaken; fi
    same "the mistake '$text': status" 2 "$status"
    same "the mistake '$text'" "mistaken:$wanted
" "$err"
done <"$top/tests/checks/arguments/faults.rows"

for _ in 1 2 3 4 5 6 7 8 9; do echo 'subscriber all'; done >many
"$program" books many >output 2>errors
has 'too many subscribers: standard output' 'too_many_subscribers' "$(cat output)"
has 'too many subscribers: standard error' 'too_many_subscribers: this is a line' "$(cat errors)"
head -c 1048577 /dev/zero | tr '\0' ' ' >long.script
run books long.script
same 'too long: status' 2 "$status"
same 'too long: standard output' 'fault: script line 0: too_long
' "$out"
has 'too long: standard error' 'long.script: too_long: the file has more bytes' "$err"
has 'too long: how long' '1048576' "$err"
head -c 1048576 /dev/zero | tr '\0' ' ' >long.script
run books long.script
same 'as long as a script may be: status' 2 "$status"
same 'as long as a script may be: standard output' 'fault: script line 0: no_subscriber
' "$out"
printf 'subscriber all\naccounts x\n' >input
run books -
has 'a bad script on standard input' 'standard input:2:10: bad_number: ' "$err"

# A file that can't be read, or a place that can't be written: which, and why.
bad_file() {
    for command in books messages; do
        run "$command" "$1"
        same "$command $1: status" 1 "$status"
        same "$command $1: standard output" 'fault: read_fault
' "$out"
        has "$command $1: which file" "$1: read_fault: " "$err"
        has "$command $1: why" "$2" "$err"
        same "$command $1: lines of standard error" 1 "$(wc -l <errors)"
    done
}
mkdir folder
bad_file no-such.script 'No such file'
bad_file folder 'directory'
bad_file one.script/inner 'ot a directory'
bad_file no-folder/one.script 'No such file'
if modes_count arguments 'a file that is locked by its mode'; then
    cp one.script locked.script
    chmod 0 locked.script
    by=unprivileged bad_file locked.script 'Permission denied'
fi
if has_full_disk 'a text'; then
    for command in books messages --help; do
        arguments=("$command")
        [ "$command" == --help ] || arguments+=(one.script)
        "$program" "${arguments[@]}" >/dev/full 2>errors
        same "$command to a full disk: status" 1 $?
        has "$command to a full disk: why" 'standard output: write_fault: No space left' "$(cat errors)"
    done
fi

# Steps over a script: what they lead to, and the step that is refused.
printf 'batch\nbatch\nstart\n' >three.steps
its_world='batch 1: 0 0
batch 2: 0
steps 3 of 3
progress 1 0
subscriber 1 applied 0 last 0 ended no closed no
'
printf '%s' "$one_transfer" >input
for arguments in 'one.script three.steps' '- three.steps' 'one.script three.steps --window 1' '--window=01 - ./three.steps' \
    'one.script --window 1 -- three.steps'; do
    run simulate $arguments
    same "arguments 'simulate $arguments'" "$its_world" "$out"
    ends_well "arguments 'simulate $arguments'"
done
cp three.steps input
run simulate one.script /dev/stdin
same 'steps on standard input' "$its_world" "$out"
ends_well 'steps on standard input'
# A dash names a file of that name: STEPS is a file.
for arguments in 'one.script -' '- -' 'one.script - --check'; do
    cp one.script input
    run simulate $arguments
    same "no file '-' in 'simulate $arguments': status" 1 "$status"
    same "no file '-' in 'simulate $arguments': standard output" 'fault: read_fault
' "$out"
    has "no file '-' in 'simulate $arguments': standard error" '-: read_fault: No such file' "$err"
done
cp three.steps ./-
for arguments in 'one.script ./-' 'one.script -' '- -'; do
    run simulate $arguments
    same "a step file whose name is a dash in 'simulate $arguments'" "$its_world" "$out"
    ends_well "a step file whose name is a dash in 'simulate $arguments'"
done
rm ./-
printf 'start\nstart\n' >twice.steps
run simulate one.script twice.steps
same 'a refused step: status' 1 "$status"
same 'a refused step: standard output' 'steps 1 of 2
refused 2 not_enabled
progress 1 0
subscriber 1 applied 0 last 0 ended no closed no
' "$out"
same 'a refused step: standard error' 'twice.steps:2: start: not enabled: session 1 runs already
' "$err"
cp twice.steps input
run simulate one.script /dev/stdin
has 'a refused step of standard input' '/dev/stdin:2: start: not enabled: session 1 runs already' "$err"
run simulate "$top/examples/two-phase.script" "$top/examples/two-phase.steps"
shown=$(sed -n '/^steps 22 of 22$/,/^```$/p' "$top/docs/REFERENCE.md")
same 'the example of steps' "batch 1: 0 0 0 0
batch 2: 0 0 0
${shown%\`\`\`}" "$out"
ends_well 'the example of steps'
run simulate "$top/examples/two-phase.script" "$top/examples/faults.steps"
shown=$(sed -n '/^steps 92 of 92$/,/^```$/p' "$top/docs/REFERENCE.md")
same 'the example of faults' "${shown%\`\`\`}" "$(sed -n '/^steps /,$p' output)
"
same 'the example of faults: status' 0 "$status"
same 'the example of faults: standard error' 'relayplum: subscriber 1 applied 7 of 12 deliveries
relayplum: requests not accepted: 2, batches refused: 0; --explain prints why
' "$err"
faulty=$(sed '/^steps /,$d' output)
run books "$top/examples/two-phase.script"
same 'the example of faults: its batches' "$(sed '/^subscriber /,$d' output)" "$faulty"

# Why a step isn't enabled: its line, its text and the reason.
not_enabled() {
    printf "$4" >why.steps
    run simulate one.script why.steps
    same "$2, not enabled: status" 1 "$status"
    same "$2, not enabled: $3" "why.steps:$1: $2: not enabled: $3
" "$err"
}
published='batch\nbatch\nstart\npublish\npoll\npublish\n'
not_enabled 3 batch "no batch is left of the script's 2" 'batch\nbatch\nbatch\n'
not_enabled 4 start 'session 1 runs already' '# A comment.\n  start  \n\nstart\n'
for step in crash poll publish save 'answer 1'; do
    not_enabled 1 "$step" 'no session runs' "$step\n"
done
not_enabled 2 'start at 5' 'session 1 runs already' 'start\nstart at 5\n'
not_enabled 5 poll 'the session has an event that it is to publish first' 'batch\nbatch\nstart\npoll\npoll\n'
not_enabled 7 poll 'the session waits for the confirm of tag 1' "${published}poll\n"
not_enabled 4 poll 'the session knows that no event follows' 'close_ledger\nstart\npoll\npoll\n'
not_enabled 3 publish 'the session has no event that is to be published' 'start\npublish\npublish\n'
not_enabled 8 publish 'the end mark waits for the confirm of tag 1' \
    'batch\nbatch\nclose_ledger\nstart\npublish\npoll\npublish\npublish\n'
not_enabled 6 publish 'the session has sent all, and the end mark' \
    'close_ledger\nstart\npublish\npoll\npublish\npublish\n'
not_enabled 1 'arrive 1' 'no packet was ever sent' 'arrive 1\n'
not_enabled 3 'arrive 2' 'only 1 packet was ever sent' 'start\npublish\narrive 2\n'
not_enabled 7 'arrive 3' 'only 2 packets were ever sent' "${published}arrive 3\n"
not_enabled 3 'arrive 0' 'numbers count from 1' 'start\npublish\narrive 0\n'
not_enabled 2 'answer 1' 'no confirm was ever sent' 'start\nanswer 1\n'
not_enabled 9 'answer 2' 'only 1 confirm was ever sent' "${published}arrive 1\narrive 2\nanswer 2\n"
not_enabled 9 'answer 0' 'numbers count from 1' "${published}arrive 1\narrive 2\nanswer 0\n"
for step in send rewind break take close; do
    for number in 0 2 18446744073709551615; do
        not_enabled 1 "$step $number" "there is no subscriber $number: the last one is number 1" "$step $number\n"
    done
done
not_enabled 1 'ack 2 1' 'there is no subscriber 2: the last one is number 1' 'ack 2 1\n'
not_enabled 1 'send 1' 'queue 1 is empty' 'send 1\n'
not_enabled 10 'send 1' 'queue 1 has nothing behind position 1' "${published}arrive 1\narrive 2\nsend 1\nsend 1\n"
not_enabled 1 'take 1' 'nothing is on its way to subscriber 1' 'take 1\n'
not_enabled 1 'ack 1 1' 'subscriber 1 has acknowledged nothing' 'ack 1 1\n'
not_enabled 11 'ack 1 2' 'subscriber 1 has sent acknowledgements up to number 1' \
    "${published}arrive 1\narrive 2\nsend 1\ntake 1\nack 1 2\n"
not_enabled 11 'ack 1 0' 'numbers count from 1' "${published}arrive 1\narrive 2\nsend 1\ntake 1\nack 1 0\n"
printf 'start at 1999\ncrash\nstart at 5\n' >why.steps
run simulate one.script why.steps
same 'a start that is not allowed: status' 1 "$status"
same 'a start that is not allowed: standard error' \
    'why.steps:3: start at 5: start_not_allowed: session 1 has saved progress up to 1999, and a timestamp is taken only if none is saved
' "$err"
printf 'batch\nclose_ledger\nbatch\n' >why.steps
run simulate one.script why.steps
same 'a refused batch: status' 1 "$status"
same 'a refused batch: standard error' \
    'why.steps:3: batch: refused: 1 ledger_closed: the ledger is closed, and takes no more batches
' "$err"

# A bad step file, and one that isn't there: the script is validated first.
bad_steps() {
    local line=$1 fault=$2 place
    printf '%b' "$3" >bad.steps
    place=bad.steps:$line:
    [ "$line" != 0 ] || place="bad.steps: $fault: the file has "
    run simulate one.script bad.steps
    same "steps, $fault: status" 2 "$status"
    same "steps, $fault: standard output" "fault: steps line $line: $fault
" "$out"
    same "steps, $fault: lines of standard error" 1 "$(wc -l <errors)"
    has "steps, $fault: place" "$place" "$err"
    has "steps, $fault: name" ": $fault: " "$err"
}
bad_steps 2 bad_text 'start\npoll\t\n'
bad_steps 1 unknown_word 'jump\n'
bad_steps 1 wrong_count 'arrive\n'
bad_steps 1 bad_number 'arrive x\n'
bad_steps 1 wrong_count 'start at\n'
bad_steps 1 number_out_of_range 'answer 18446744073709551616\n'
bad_steps 1 number_out_of_range 'start at 9223372036854775808\n'
bad_steps 0 too_long "$(head -c 1048577 /dev/zero | tr '\0' ' ')"
head -c 1048576 /dev/zero | tr '\0' ' ' >long.steps
printf 'subscriber all\n' >alone.script
run simulate alone.script long.steps
same 'as long as a step file may be' 'steps 0 of 0
progress none
subscriber 1 applied 0 last 0 ended no closed no
' "$out"
ends_well 'as long as a step file may be'
run simulate one.script no-such.steps
same 'no step file: status' 1 "$status"
same 'no step file: standard output' 'fault: read_fault
' "$out"
has 'no step file: standard error' 'no-such.steps: read_fault: No such file' "$err"
same 'no step file: the script is not named' '' "$(grep one.script errors)"
run simulate number.script no-such.steps
same 'a bad script without a step file: status' 2 "$status"
same 'a bad script without a step file: standard output' 'fault: script line 2: bad_number
' "$out"
has 'a bad script without a step file: standard error' 'number.script:2:10: bad_number: ' "$err"

# A file name of every length up to 200 bytes.
for ((length = 1; length <= 200; length++)); do
    name=$(printf '%*s' "$length" '' | tr ' ' 'n')
    cp one.script "$name"
    run books "$name"
    same "a file name of $length bytes" "$its_book" "$out"
    rm "$name"
    run books "$name"
    same "a missing file of $length bytes" 'fault: read_fault
' "$out"
done

# The example of two phases: an event of each kind that its ledger makes, and the book that the reference shows.
its_kinds='two_phase_pending ledger=700 0
two_phase_pending ledger=700 0
two_phase_pending ledger=700 0
two_phase_posted ledger=700 0
two_phase_voided ledger=700 0
single_phase ledger=800 0
two_phase_expired ledger=700 2'
run messages "$top/examples/two-phase.script"
found=$(sed -n 's/^event_type=\([a-z_]*\) \(ledger=[0-9]*\) transfer_code=1 .* timestamp=\([0-9]*\)$/\1 \2 \3/p' output)
same 'the example of two phases: its messages' "$its_kinds" "$found"
ends_well 'the example of two phases: its messages'
run books "$top/examples/two-phase.script"
shown=$(sed -n '/^batch 1: 0 0 0 0$/,/^```$/p' "$top/docs/REFERENCE.md")
same 'the example of two phases: its books' "$out" "${shown%\`\`\`}"
counts 'the example of two phases: its books' 2 0

# The example of a marketplace, worked out by hand: what each message is routed by, and the books, in which each euro that
# was posted to one account was posted from another.
its_headers='single_phase 1 9 1 0
single_phase 1 9 1 0
two_phase_pending 2 1 2 0
two_phase_pending 2 1 2 0
two_phase_pending 2 1 2 0
two_phase_posted 2 1 2 0
single_phase 3 2 3 0
two_phase_voided 2 1 2 0
single_phase 4 2 1 0
single_phase 4 3 2 0
two_phase_expired 2 1 2 3600'
run messages "$top/examples/marketplace.script"
found=$(sed -nE 's/^event_type=(.*) ledger=978 .*=(.*) .*=(.*) .*=(.*) timestamp=/\1 \2 \3 \4 /p' output)
same 'the example of a marketplace: its messages' "$its_headers" "$found"
ends_well 'the example of a marketplace: its messages'
run books "$top/examples/marketplace.script"
same 'the example of a marketplace: what was posted' '194 194' \
    "$(sed '/^subscriber 2/,$d' output | awk '/^account/ { debits += $4; credits += $6 } END { print debits, credits }')"
counts 'the example of a marketplace: its books' 2 0

# The example of refusals: a transfer that is there already, with other fields too, no such account, a limit.
its_refusals='batch 1: 0 0
batch 2: 0 13 12 15 36
subscriber 1 applied 1 last 2000 ended yes closed no
account 2 0 100 0 0
account 1 0 0 0 100
'
run books "$top/examples/refusals.script"
same 'the example of refusals' "$its_refusals" "$out"
counts 'the example of refusals' 4 0

# Why items weren't accepted that another one of the batch stands in the way of, or would have helped: a post before what
# it names, and two of one id, and two posts, in chains that left nothing.
cat >late.script <<'END'
subscriber all
accounts 1000
account id=1 ledger=700 code=10
account id=2 ledger=700 code=10
transfers 2000
transfer id=11 pending_id=10 amount=5 flags=4
transfer id=10 debit_account_id=1 credit_account_id=2 amount=5 ledger=700 code=1 flags=2
transfers 3000
transfer id=20 debit_account_id=1 credit_account_id=2 amount=5 ledger=700 code=1 flags=1
transfer id=20 debit_account_id=1 credit_account_id=2 amount=5 ledger=700 code=1
transfers 4000
transfer id=12 pending_id=10 amount=5 flags=5
transfer id=13 pending_id=10 amount=5 flags=4
END
its_reasons='late.script:6: batch 2 transfer 1 (id 11): 18 pending_transfer_not_found: there was no transfer 10 to post or void
late.script:9: batch 3 transfer 1 (id 20): 38 linked_event_failed: transfer 2, in its chain, wasn'"'"'t accepted: 12 exists_with_different_fields: transfer 20 came before it, with other fields
late.script:10: batch 3 transfer 2 (id 20): 12 exists_with_different_fields: transfer 20 came before it, with other fields
late.script:12: batch 4 transfer 1 (id 12): 38 linked_event_failed: transfer 2, in its chain, wasn'"'"'t accepted: 26 pending_transfer_already_posted: a post of transfer 10 came before it
late.script:13: batch 4 transfer 2 (id 13): 26 pending_transfer_already_posted: a post of transfer 10 came before it
'
run books --explain late.script
same 'what came before' 'batch 2: 18 0|batch 3: 38 12|batch 4: 38 26' "$(grep -E '^batch [2-4]:' output | paste -s -d '|')"
same 'what came before: why' "$its_reasons" "$err"
run run --explain late.script
same 'what came before in a run: why' "$its_reasons" "$err"

# One client's batches have one order, however many they are.
{
    printf '%s\n' 'subscriber all' 'accounts 1' 'account id=0'
    for _ in {1..100001}; do echo 'pulse 1'; done
} >pulses.script
run run --explain pulses.script
same 'a hundred thousand batches: status' 0 "$status"
same 'a hundred thousand batches: why' 'pulses.script:3: batch 1 account 1 (id 0): 2 id_must_not_be_zero: an account'"'"'s id is never 0
' "$err"

# A batch of 1,001 accounts, and batches at the greatest timestamp.
{
    printf '%s\n' 'subscriber all' 'accounts 1'
    for id in {1..1001}; do echo "account id=$id ledger=1 code=1"; done
    printf '%s\n' 'accounts 9223372036854775807' 'account id=1 ledger=1 code=1' 'account id=2 ledger=1 code=1'
    printf '%s\n' 'accounts 9223372036854775807' 'account id=1 ledger=1 code=1'
    printf '%s\n' 'pulse 5' 'accounts 5' 'account id=2 ledger=1 code=1'
} >crowded.script
run books crowded.script
same 'batches that are refused' 'batch 1 refused: 2 batch_too_large
batch 2 refused: 3 timestamps_exhausted
batch 3: 0
batch 4: pulse 0
batch 5 refused: 3 timestamps_exhausted
subscriber 1 applied 0 last 0 ended yes closed no
' "$out"
counts 'batches that are refused' 0 3
run books --explain crowded.script
same 'batches that are refused, explained' 'crowded.script:2: batch 1 refused: 2 batch_too_large: it has 1001 items, and a batch has 1000 at most
crowded.script:1004: batch 2 refused: 3 timestamps_exhausted: the timestamps of its items would pass the greatest one, 2^63-1
crowded.script:1010: batch 5 refused: 3 timestamps_exhausted: the timestamps of its items would pass the greatest one, 2^63-1
' "$err"

# The sentence for each result: tests/checks/arguments/results.errors has them all, and nothing else stands on standard error. Standard output
# and the status are as without the flag.
cp "$top/tests/checks/arguments/results.script" .
# (its requests that are refused for other reasons leave their amount out, which is noted)
its_notes='results.script:38: note: a post with no amount, or 0, takes 0; the whole is 340282366920938463463374607431768211455 (5 in this script)
results.script:35: note: a transfer with no amount, or 0, moves 0 (7 in this script)
'
run books results.script
same 'each result: standard error' "relayplum: requests not accepted: 49, batches refused: 0; --explain prints why
$its_notes" "$err"
plain=$out
run books --explain results.script
same 'each result, explained: status' 0 "$status"
same 'each result, explained: standard output' "$plain" "$out"
same 'each result, explained' "$(cat "$top/tests/checks/arguments/results.errors")
$its_notes" "$err"
run books --explain one.script
same 'nothing to explain: standard output' "$its_book" "$out"
ends_well 'nothing to explain'
cp results.script input
run books --explain -
has 'a script on standard input, explained' 'standard input:24: batch 3 account 1 (id 20): 1 reserved_flag: ' "$err"

# What a good script may not mean: one line for each kind, with how often. A void without an amount is of the whole.
{
    printf '%s' "$one_transfer"
    printf '%s\n' 'transfers 1000' 'transfer id=2 debit_account_id=1 credit_account_id=2 amount=70 ledger=700 code=1 flags=2' \
        'transfer id=3 debit_account_id=1 credit_account_id=2 amount=80 ledger=700 code=1 flags=2' \
        'transfers 1500' 'transfer id=4 pending_id=2 flags=4' 'transfer id=5 pending_id=3 flags=8' \
        'transfer id=6 debit_account_id=1 credit_account_id=2 ledger=700 code=1' 'pulse 9'
} >slips.script
its_notes='slips.script:11: note: a post with no amount, or 0, takes 0; the whole is 340282366920938463463374607431768211455 (1 in this script)
slips.script:13: note: a transfer with no amount, or 0, moves 0 (1 in this script)
slips.script:7: note: 1000 is before 2000: its items count from 2001 (2 in this script)
'
printf 'batch\n' >one.steps
for arguments in 'books slips.script' 'messages slips.script' 'simulate slips.script one.steps' 'run slips.script' \
    'books --json slips.script'; do
    run $arguments
    same "arguments '$arguments': status" 0 "$status"
    same "arguments '$arguments': notes" "$its_notes" "$err"
done
printf 'client 2\naccounts 9000\n' >>slips.script
run run slips.script
same 'notes of a run of several clients' "${its_notes%slips.script:7*}" "$err"
run simulate --check --diagram one.script three.steps
same 'a check draws nothing: status' 0 "$status"
same 'a check draws nothing' 'relayplum: note: nothing is drawn with --check
' "$err"
printf '' >empty.steps
for drawn in one.script empty.steps; do
    run simulate --diagram=$drawn one.script empty.steps
    same "a diagram in the place of $drawn: status" 2 "$status"
    has "a diagram in the place of $drawn: why" "error: --diagram=$drawn: " "$err"
done
same 'a diagram in the place of an empty step file' '' "$(cat empty.steps)"

# Arguments that were meant otherwise.
run one.script
has 'a script without a command' "Did you mean 'relayplum books one.script'?" "$err"
run boks one.script
has 'an unknown command' "'books'" "$err"
run books one.script --diagram
has 'a flag of one other command' "'--diagram' is a flag of simulate." "$err"
run messages one.script --window=1
has 'a flag of two other commands' "'--window' is a flag of simulate and run." "$err"

# A file of progress that can't be one: what is wrong, and what to do.
printf '' >empty.saved
printf 'tb-cdc 2 3 2000\n' >part.saved
cp one.script script.saved
mkdir folder.saved
saved_is() {
    run run one.script --progress "$1"
    same "progress in $1: status" 1 "$status"
    same "progress in $1: standard output" 'fault: store
' "$out"
    has "progress in $1: which file" "$1: store: " "$err"
    has "progress in $1: why" "$2" "$err"
}
saved_is empty.saved 'it is empty, and no progress record: name another file, or remove it to start from scratch'
saved_is part.saved "it begins as a progress record, and isn't a whole one: restore it, or remove it"
saved_is script.saved 'it holds something else than a progress record: name another file'
saved_is folder.saved 'it is no regular file: name another one'
saved_is no-folder/saved "can't be"

# Objects in the place of text: tests/checks/json_text.py has all rows; here what stays as it is.
run books --json no-such.script
same 'objects of no file: status' 1 "$status"
same 'objects of no file' '{"kind":"fault","name":"read_fault"}
' "$out"
has 'objects of no file: standard error' 'no-such.script: read_fault: No such file' "$err"
for arguments in 'books --json --check number.script' 'messages --json number.script' 'run --json number.script' \
    'simulate --json number.script three.steps'; do
    run $arguments
    same "arguments '$arguments': status" 2 "$status"
    same "arguments '$arguments'" '{"kind":"file_fault","file":"script","line":2,"column":10,"word":"x","name":"bad_number"}
' "$out"
    has "arguments '$arguments': standard error" 'number.script:2:10: bad_number: ' "$err"
done
run books --json --explain results.script
has 'objects, explained' 'results.script:24: batch 3 account 1 (id 20): 1 reserved_flag: ' "$err"
run books --json results.script
has 'objects, with items that are not accepted' 'relayplum: requests not accepted: 49, batches refused: 0; --explain prints why' "$err"
if has_full_disk 'objects'; then
    "$program" books --json one.script >/dev/full 2>errors
    same 'objects to a full disk: status' 1 $?
    has 'objects to a full disk: why' 'standard output: write_fault: No space left' "$(cat errors)"
fi

# What each step did, line by line, and as a diagram. Standard output is as without the flags.
run simulate "$top/examples/two-phase.script" "$top/tests/checks/arguments/duplicates.steps"
plain=$out
same 'steps that are traced: their end' 'steps 31 of 31' "$(grep '^steps' output)"
run simulate --trace "$top/examples/two-phase.script" "$top/tests/checks/arguments/duplicates.steps"
same 'a trace: status' 0 "$status"
same 'a trace: standard output' "$plain" "$out"
same 'a trace' "$(cat "$top/tests/checks/arguments/duplicates.trace")
relayplum: subscriber 1 applied 1 of 2 deliveries
" "$err"
run simulate --diagram "$top/examples/two-phase.script" "$top/tests/checks/arguments/duplicates.steps"
same 'a diagram: status' 0 "$status"
same 'a diagram: standard output' "$plain" "$out"
same 'a diagram' "$(cat "$top/tests/checks/arguments/duplicates.diagram")
relayplum: subscriber 1 applied 1 of 2 deliveries
" "$err"
run simulate --diagram=drawn "$top/examples/two-phase.script" "$top/tests/checks/arguments/duplicates.steps"
same 'a diagram in a file' "$(cat "$top/tests/checks/arguments/duplicates.diagram")" "$(cat drawn)"
same 'a diagram in a file: standard output' "$plain" "$out"
same 'a diagram in a file: standard error' 'relayplum: subscriber 1 applied 1 of 2 deliveries
' "$err"
run simulate --diagram=no-folder/drawn "$top/examples/two-phase.script" "$top/tests/checks/arguments/duplicates.steps"
same 'a diagram that cannot be written: status' 0 "$status"
same 'a diagram that cannot be written: standard output' "$plain" "$out"
has 'a diagram that cannot be written: why' 'no-folder/drawn: write_fault: No such file' "$err"
run simulate --diagram=drawn "$top/examples/two-phase.script" "$top/tests/checks/arguments/duplicates.steps"
same 'a diagram in the place of an older one' "0 $(cat "$top/tests/checks/arguments/duplicates.diagram")" "$status $(cat drawn)"
cp "$top/examples/two-phase.script" precious.script
run simulate --diagram=./precious.script precious.script "$top/tests/checks/arguments/duplicates.steps"
same 'a diagram in the place of the script: status' 2 "$status"
same 'a diagram in the place of the script: standard output' '' "$out"
has 'a diagram in the place of the script: why' 'error: --diagram=./precious.script: this file holds something else than a diagram' "$err"
same 'a diagram in the place of the script: the script' "$(cat "$top/examples/two-phase.script")" "$(cat precious.script)"
run simulate --trace --explain --diagram "$top/examples/two-phase.script" "$top/examples/faults.steps"
same 'all reports at once: status' 0 "$status"
same 'all reports at once: what was explained' 2 "$(grep -c 'two-phase.script:.*: 2[68] pending_transfer' errors)"
same 'all reports at once: subscriber 1' 'applied 2000 applied 2001 repeat repeat repeat applied 2002 applied 3000 repeat repeat applied 3001 applied 3002 applied 2000000000 heard the end mark' \
    "$(sed -n 's/^take 1: //p' errors | sed 's/, transfer .*//; s/^repeat of .*/repeat/' | tr '\n' ' ' | sed 's/ $//')"
# The deliveries to one subscriber, in the place of the report. Standard error is as without the flag.
run simulate --trace --deliveries 1 "$top/examples/two-phase.script" "$top/tests/checks/arguments/duplicates.steps"
same 'deliveries with a trace: status' 0 "$status"
same 'deliveries with a trace: standard output' 'delivery 1 1 false 0
delivery 2 1 true 0' "$(sed -E 's/^.*"(delivery)":([0-9]+),"position":([0-9]+),"redelivered":([a-z]+),"previous":"([0-9]+)".*/\1 \2 \3 \4 \5/' output)"
same 'deliveries with a trace: standard error' "$(cat "$top/tests/checks/arguments/duplicates.trace")
relayplum: subscriber 1 applied 1 of 2 deliveries
" "$err"
run simulate --deliveries 2 one.script three.steps
same 'deliveries of no subscriber: status' 2 "$status"
same 'deliveries of no subscriber: standard output' '' "$out"
same 'deliveries of no subscriber: standard error' 'relayplum: --deliveries 2: the script has no such subscriber
' "$err"
run simulate --deliveries 2 --random 1 one.script
same 'deliveries of no subscriber in random steps: status and standard error' \
    '2 relayplum: --deliveries 2: the script has no such subscriber
' "$status $err"
for seed in {1..20}; do
    run simulate "$top/examples/two-phase.script" --random "$seed" --deliveries 1
    same "deliveries of the seed $seed: status" 0 "$status"
    cp errors random.steps
    made=$out
    run simulate "$top/examples/two-phase.script" random.steps --deliveries 1
    same "deliveries of the seed $seed, played again" "$made" "$out"
    cp random.steps input
    run simulate "$top/examples/two-phase.script" /dev/stdin --deliveries 1 --json
    same "deliveries of the seed $seed, from standard input" "$made" "$out"
done
# Those of a run come in one order if no queue rewinds: an event that is published twice has two positions.
delivered_lines() { sed -E 's/^.*"position":([0-9]+),"redelivered":([a-z]+),"previous":"([0-9]+)",("end")?.*/\1 \2 \3 \4/' output; }
run run one.script --lose-confirm 1 --deliveries 1
same 'deliveries of a run: status' 0 "$status"
same 'deliveries of a run: standard output' '1 false 0 
2 false 0 
3 false 2000 "end"' "$(delivered_lines)"
same 'deliveries of a run: standard error' 'relayplum: subscriber 1 applied 1 of 2 deliveries
' "$err"
made=$out
run run one.script --lose-confirm 1 --deliveries 1 --json
same 'deliveries of a run, with --json' "$made" "$out"
run run one.script --lose-confirm 1 --deliveries 1 --expect
same 'what must come of deliveries of a run' 'applied 1 2000
duplicate 1 2000
end 1 2000' "$(sed -E 's/^.*"result":"([a-z]+)","applied":([0-9]+),"last":"([0-9]+)".*/\1 \2 \3/' output)"
run run one.script --lose-confirm 1 --close 1:1 --deliveries 1
same 'deliveries of a run up to the close' '1 false 0 ' "$(delivered_lines)"
same 'deliveries of a run up to the close: standard error' '' "$err"
run run one.script --deliveries 2 --progress never.progress
same 'deliveries of no subscriber in a run: status and standard error' \
    '2 relayplum: --deliveries 2: the script has no such subscriber
' "$status $err"
same 'deliveries of no subscriber in a run: standard output' '' "$out"
same 'deliveries of no subscriber in a run: nothing was run' '' "$(ls never.progress 2>/dev/null)"
run run tab.script
made="$status $out $err"
run run tab.script --deliveries 1
same 'deliveries of a run of a bad script' "$made" "$status $out $err"
printf 'start\nstart\n' >twice.steps
run simulate --trace one.script twice.steps
same 'a trace up to a refused step' 'start: session 1 begins after 0
twice.steps:2: start: not enabled: session 1 runs already
' "$err"

# Random steps: what stands on standard error is a step file that comes to the same report, whatever else
# is printed there; and a seed makes the same steps again. Standard output is that of the step file.
cp "$top/examples/two-phase.script" .
for seed in {1..50}; do
    run simulate two-phase.script --random "$seed" --window $((seed % 3 + 1)) --steps 120 --faults 12
    same "the seed $seed: status" 0 "$status"
    cp errors random.steps
    made=$out
    run simulate two-phase.script random.steps --window $((seed % 3 + 1))
    same "the steps of the seed $seed, played again" "$made" "$out"
    run simulate --trace --explain --diagram two-phase.script --random "$seed" --window $((seed % 3 + 1)) --steps 120 --faults 12
    same "the seed $seed again: standard output" "$made" "$out"
    same "the seed $seed again: its steps" "$(grep -v '^#' random.steps)" "$(grep -v '^#' errors)"
    cp errors random.steps
    run simulate two-phase.script random.steps --window $((seed % 3 + 1))
    same "the steps of the seed $seed among other reports, played again" "$made" "$out"
done
# As many faults as are asked for are made: where all is done, one of them makes more to do.
run simulate two-phase.script --random 7 --steps 1000 --faults 100
same 'random faults: at least 40 that show in the steps' yes \
    "$([ "$(grep -cE '^(crash|rewind|break|close)( |$)' errors)" -ge 40 ] && echo yes)"
run simulate two-phase.script --random 7 --steps 0
same 'no random steps' 'steps 0 of 0' "$(head -n 1 output)"
same 'no random steps: standard error' '# relayplum simulate FILE --random 7 --steps 0 --faults 10 --window 1
' "$err"
# To the end: further steps follow the drawn ones. 999 transfers need some 28 steps each, for eight subscribers, which is more
# than a file may have: a comment reports that.
run simulate two-phase.script --random 7 --steps 0 --to-end
same 'to the end, no random steps: the first line' \
    '# relayplum simulate FILE --random 7 --steps 0 --faults 10 --to-end --window 1' "$(head -n 1 errors)"
same 'to the end, no random steps: it ends' '' "$(grep '^subscriber' output | grep -v ' ended yes closed no$')"
{
    for number in {1..8}; do echo subscriber all; done
    printf 'accounts 1\naccount id=1 ledger=1 code=1\naccount id=2 ledger=1 code=1\ntransfers 10\n'
    for number in {1..999}; do
        echo "transfer id=$number debit_account_id=1 credit_account_id=2 amount=1 ledger=1 code=1"
    done
} >many.script
run simulate many.script --random 7 --to-end
cp errors many.steps
same 'to the end of too many steps: status' 0 "$status"
limit='# the limit of 20000 steps is reached; not every subscriber has received the end mark'
same 'to the end of too many steps: how many lines' 20000 "$(sed "/^$limit\$/,\$d" errors | sed 1d | wc -l)"
same 'to the end of too many steps: the limit' "$limit" "$(grep 'the limit' errors)"
made=$out
run simulate many.script many.steps
same 'to the end of too many steps, played again' "$made" "$out"
run simulate number.script --random 7
same 'random steps of a bad script: status' 2 "$status"
same 'random steps of a bad script: standard output' 'fault: script line 2: bad_number
' "$out"
run simulate no-such.script --random 7
same 'random steps of no file: standard output' 'fault: read_fault
' "$out"
has 'random steps of no file: standard error' 'no-such.script: read_fault: No such file' "$err"
run simulate two-phase.script --random 7 --diagram=./precious.script
same 'random steps, a diagram in the place of the script' "2 $(cat "$top/examples/two-phase.script")" "$status $(cat precious.script)"

# A start after a timestamp: what is left out, also of what comes later, and what later sessions go on from.
printf '%s\n' 'start at 2500' batch batch publish 'arrive 1' poll save crash start poll >late.steps
run simulate --trace --explain one.script late.steps
same 'a start after all that is there' 'start at 2500: session 1 begins after 2500, events left out so far: 0
batch: batch 1, items 2, accepted 2, refused 0
batch: batch 2, items 1, accepted 1, refused 0
publish: packet 1, connect of session 1
arrive 1: taken, session 1 is connected
poll: no event yet
save: session 1 is confirmed up to 2500
crash: session 1 is gone
start: session 2 begins after 2500
poll: no event yet
one.script: events up to the start, 2500, are left out: 1 of 1
' "$err"
printf '%s\n' batch batch 'start at 1999' publish 'arrive 1' poll publish 'arrive 2' 'answer 1' save >late.steps
run simulate --trace one.script late.steps
same 'a start before an event' 'start at 1999: session 1 begins after 1999, events left out so far: 0
poll: event 2000, transfer 1, 100 from 1 to 2
save: session 1 is confirmed up to 2000
' "$(grep -E '^(start|poll|save)' errors)
"

# Files that are only validated.
for arguments in 'books --check one.script' 'messages one.script --check' 'simulate --check one.script three.steps' \
    'simulate one.script --check three.steps --trace --window 1'; do
    run $arguments
    same "arguments '$arguments': standard output" '' "$out"
    ends_well "arguments '$arguments'"
done
cp one.script input
run books --check -
same 'a check of standard input' '' "$out"
ends_well 'a check of standard input'
for arguments in 'books --check number.script' 'messages --check number.script' 'simulate --check number.script bad.steps'; do
    run $arguments
    same "arguments '$arguments': status" 2 "$status"
    same "arguments '$arguments': standard output" 'fault: script line 2: bad_number
' "$out"
    same "arguments '$arguments': standard error" 'number.script:2:10: bad_number: `x` as `accounts` is no number; a number is one or more digits from 0 to 9
' "$err"
done
printf 'start\njump\n' >bad.steps
run simulate --check one.script bad.steps
same 'a check of bad steps: status' 2 "$status"
same 'a check of bad steps: standard output' 'fault: steps line 2: unknown_word
' "$out"
has 'a check of bad steps: standard error' 'bad.steps:2:1: unknown_word: ' "$err"
run books --check no-such.script
same 'a check of no file: status' 1 "$status"
same 'a check of no file: standard output' 'fault: read_fault
' "$out"

# A standard error that takes nothing, and one that is closed, do no harm.
refusing=("books $top/examples/two-phase.script" "books --explain $top/examples/two-phase.script"
    "simulate --trace --explain --diagram $top/examples/two-phase.script $top/examples/faults.steps"
    'simulate one.script twice.steps')
for arguments in "${refusing[@]}"; do
    run $arguments
    wanted="$status $out"
    out=$("$program" $arguments 2>&-; printf ' %s' $?)
    same "arguments '$arguments' without standard error" "${wanted#* } ${wanted%% *}" "$out"
    if has_full_disk "standard error of '$arguments'"; then
        out=$("$program" $arguments 2>/dev/full; printf ' %s' $?)
        same "arguments '$arguments', standard error full" "${wanted#* } ${wanted%% *}" "$out"
    fi
done

# A large simulation: 10,000 transfers, each of which is published, confirmed and taken, in 60,014 steps.
{
    printf '%s\n' 'subscriber all' 'accounts 1000' 'account id=1 ledger=700 code=10' 'account id=2 ledger=700 code=10'
    for batch in {0..9}; do
        echo "transfers $((2000 + 1000 * batch))"
        for i in {1..1000}; do
            echo "transfer id=$((batch * 1000 + i)) debit_account_id=1 credit_account_id=2 amount=1 ledger=700 code=1"
        done
    done
} >large.script
{
    for _ in {0..10}; do echo batch; done
    printf '%s\n' start publish 'arrive 1'
    for i in {1..10000}; do
        printf '%s\n' poll publish "arrive $((i + 1))" "answer $i" 'send 1' 'take 1'
    done
} >large.steps
its_end='steps 60014 of 60014
progress 1 0
subscriber 1 applied 10000 last 11999 ended no closed no
account 1 0 10000 0 0
account 2 0 0 0 10000'
run simulate large.script large.steps
found=$(tail -n 5 output)
same 'a large simulation' "$its_end" "$found"
ends_well 'a large simulation'

# The books and the messages of that script.
its_end='subscriber 1 applied 10000 last 11999 ended yes closed no
account 1 0 10000 0 0
account 2 0 0 0 10000'
run books large.script
same 'a large script' "$its_end" "$(tail -n 3 output)"
ends_well 'a large script'
run messages large.script
same 'a large script: lines of its messages' 20000 "$(wc -l <output)"
ends_well 'a large script: its messages'

# A reader that closes the pipe: standard error reports nothing, and the status is that of any write that failed. Here the
# only reader has closed its end before the command starts.
mkfifo gone
exec 7<>gone 8>gone 7<&-
for arguments in 'books one.script' 'books --json one.script' 'books number.script' 'books --check number.script' 'messages one.script' \
    'messages --json one.script' 'run one.script' 'run --json one.script' 'run one.script --explain --trace' \
    'simulate one.script three.steps' 'simulate --json one.script three.steps' 'simulate one.script --random 7' '--help' \
    'books --help' '--version'; do
    "$program" $arguments >&8 2>errors
    same "'$arguments' without a reader: status" 1 $?
    same "'$arguments' without a reader: standard error" '' "$(cat errors)"
done
exec 8>&-
# A reader that takes the first line of an output that no pipe can hold.
for arguments in 'messages large.script' 'messages --json large.script'; do
    "$program" $arguments 2>errors | head -n 1 >output
    same "'$arguments' into head: status" 1 "${PIPESTATUS[0]}"
    same "'$arguments' into head: lines" 1 "$(wc -l <output)"
    same "'$arguments' into head: standard error" '' "$(cat errors)"
done
# The reader of a diagram that stops after its first byte; descriptor 8 lets it wait for the diagram. The status and standard
# output are those of any diagram.
run simulate large.script large.steps
plain=$out
mkfifo drawing
exec 7<>drawing 8>drawing 9<drawing 7<&-
head -c 1 <&9 >first 8>&- &
reader=$!
exec 9<&-
run simulate --diagram=drawing large.script large.steps
exec 8>&-
wait "$reader"
same 'a diagram without a reader: what was read' s "$(cat first)"
same 'a diagram without a reader: standard output' "$plain" "$out"
ends_well 'a diagram without a reader'
# Any other write that fails is reported. A standard output that is closed takes everything: it becomes /dev/null.
"$program" books one.script >&- 2>errors
same 'a closed standard output: status' 0 $?
same 'a closed standard output: standard error' '' "$(cat errors)"
if has_full_disk 'a diagram'; then
    run simulate --diagram=/dev/full one.script three.steps
    same 'a diagram to a full disk: status' 0 "$status"
    has 'a diagram to a full disk: why' '/dev/full: write_fault: No space left' "$err"
fi

# Bodies are JSON texts to an outside reader too.
for events in "one.script 1" "$top/examples/two-phase.script 7"; do
    "$program" messages "${events% *}" | python3 "$top/tests/common/json_lines.py" "${events##* }" ||
        wrong 'bodies as JSON' "$events events" 'see above'
    checks=$((checks + 1))
done

echo "arguments: $checks checks, $failed failed"
[ "$failed" == 0 ]
