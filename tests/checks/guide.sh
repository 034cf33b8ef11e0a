#!/usr/bin/env bash
# docs/GUIDE.md, STREAMS.md, REFERENCE.md, AUDIT.md, EXACTLY-ONCE.md and TESTING-A-CONSUMER.md as their reader meets them: each `sh` block
# of a page is run, in their order, in one folder that begins with the program, the examples and tools/try-consumer, and what it
# prints on standard output is compared with the block of output after it. A block without one prints nothing. Whatever it writes
# is in the folder play/.
# Of README what it shows of the marketplace is run and compared, and its sentence of what is proved has to be in docs/PROOFS.md.
# Takes the program's path, crates/cdc_app/out/cdc_app where none is given. Prints each block that fails.
set -uo pipefail
top=$(cd "$(dirname "${BASH_SOURCE[0]}")/../.." && pwd)
. "$top/tests/common/help.sh"
program=$(realpath "${1:-$top/crates/cdc_app/out/cdc_app}")
folder=$(mktemp -d)
trap 'rm -rf "$folder"' EXIT
command=$folder/command
wanted=$folder/wanted
blocks=0
failed=0
lack_jq=0

wrong() {
    failed=$((failed + 1))
    printf 'failed: %s\n' "$1"
}

# Makes a clone as a page's reader has it, and goes there.
clone() {
    mkdir "$folder/$1"
    cp -r "$top/examples" "$folder/$1/"
    ln -s "$program" "$folder/$1/relayplum"
    mkdir "$folder/$1/tools"
    printf '#!/bin/sh\nexec %q --program %q "$@"\n' "$top/tools/try-consumer" "$program" >"$folder/$1/tools/try-consumer"
    chmod +x "$folder/$1/tools/try-consumer"
    cd "$folder/$1" || exit 1
}

# Runs the block that was read last, and compares.
run_block() {
    [ -s "$command" ] || return 0
    blocks=$((blocks + 1))
    if grep -q '| jq ' "$command" && ! command -v jq >/dev/null; then
        blocks=$((blocks - 1))
        lack_jq=$((lack_jq + 1))
    else
        bash "$command" >"$folder/found" 2>"$folder/errors" </dev/null
        if ! diff "$wanted" "$folder/found" >"$folder/differs"; then
            wrong "$name.md line $place: < the page, > the program"
            cat "$command" "$folder/differs" "$folder/errors"
        fi
    fi
    rm -f "$command"
}

# Runs all blocks of the page $name.
run_page() {
    local before=$blocks block='' at=0 text
    clone "$name"
    while IFS= read -r text; do
        at=$((at + 1))
        # Which block a line is in: none, a command, what it prints.
        case $block:$text in
            ':```sh')
                run_block
                place=$at
                : >"$wanted"
                block=$command
                ;;
            ':```text' | ':```mermaid')
                [ ! -s "$wanted" ] || wrong "$name.md line $at: a second output"
                block=$wanted
                ;;
            ':```'*) wrong "$name.md line $at: neither a command nor what one prints" ;;
            :*) ;;
            *':```') block='' ;;
            *) printf '%s\n' "$text" >>"$block" ;;
        esac
    done <"$top/docs/$name.md"
    run_block
    [ "$blocks" -gt "$before" ] || wrong "$name.md: no block was found"
    [ -d play ] || mkdir play
    diff <(ls -A) <(printf '%s\n' examples play relayplum tools) || wrong "$name.md: other files than play/"
    diff -r examples "$top/examples" || wrong "$name.md: an example was changed"
}

for name in GUIDE STREAMS REFERENCE AUDIT EXACTLY-ONCE TESTING-A-CONSUMER; do
    run_page
done

# README: what two consumers make of the deliveries, the line that counts them, what is proved.
clone README
sed -n '/^\.\/relayplum simulate /,/^```$/p' "$top/README.md" | sed '$d' >shown.sh
shown=$(sed -n '/^"delivery":2/,/^```$/p' "$top/README.md" | sed '$d')
[ "$shown" != '' ] && [ "$shown" == "$(bash shown.sh 2>said)" ] || wrong 'README: the second delivery'
line=$(sed -n 's/.*`\(subscriber 1 applied [0-9 of]*deliveries\)`.*/\1/p' "$top/README.md")
grep -qx "relayplum: $line" said || wrong 'README: how many deliveries were applied'
theorem=$(sed -n 's/^> //p' "$top/README.md")
[ "$theorem" != '' ] && [ "$(wc -l <<<"$theorem")" == 1 ] || wrong 'README: not one sentence of what is proved'
grep -qF "$theorem" "$top/docs/PROOFS.md" || wrong 'README: its sentence of what is proved is not in PROOFS.md'

[ "$lack_jq" == 0 ] || echo "guide: not tried: $lack_jq blocks: there is no jq (Debian package jq)"
echo "guide: $blocks blocks, $failed failed"
[ "$failed" == 0 ]
