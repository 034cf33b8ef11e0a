#!/usr/bin/env bash
# The man page and the completions, compared with the program's own help: each command and each flag that the help
# names is in each of them, and no other is. Flags are compared command by command, except in the man page, which has
# them in one list. The launcher options, which ./relayplum takes before the command, are compared in the same way.
# Then docs/help, which `relayplum` answers from before there is a program: each text is what the program prints; and what
# tools/pages makes of these texts. Takes the program's path, crates/cdc_app/out/cdc_app where none is given; with `--write` before
# it, it writes docs/help, and then all that tools/pages makes of it.
# Prints each check that fails.
set -uo pipefail
writes=false
if [ "${1-}" == --write ]; then
    writes=true
    shift
fi
top=$(cd "$(dirname "${BASH_SOURCE[0]}")/../.." && pwd)
. "$top/tests/common/help.sh"
program=$(realpath "${1:-$top/crates/cdc_app/out/cdc_app}")
page=$top/docs/relayplum.1
bash_file=$top/completions/relayplum.bash
zsh_file=$top/completions/_relayplum
fish_file=$top/completions/relayplum.fish
failed=0
checks=0

# Compares two lists, in whatever order.
same() {
    checks=$((checks + 1))
    [ "$2" == "$3" ] && return
    failed=$((failed + 1))
    printf 'failed: %s\n  the help has: %s\n  this has:     %s\n' "$1" "$(tr '\n' ' ' <<<"$2")" "$(tr '\n' ' ' <<<"$3")"
}

sorted() { LC_ALL=C sort -u; }

# The flags among some text, each a word of its own.
flags_in() { grep -oE -- "(^|[^a-zA-Z0-9-])--?[a-zA-Z][a-z-]*" | grep -oE -- '--?[a-zA-Z][a-z-]*' | sorted; }

# What the help for some arguments has: its commands, and the flags at the start of its options.
commands() { "$program" --help | sed -n '/^Commands:/,/^$/s/^  \([a-z]*\)  .*/\1/p' | sorted; }
flags() { "$program" "$@" --help | sed -n '/^Options:/,/^$/s/^ *\(-[^ ].*\)/\1/p' | sed 's/  .*//' | flags_in; }

all_commands=$(commands)
with_flags=$(grep -v '^help$' <<<"$all_commands")
all_flags=$({ flags; for command in $with_flags; do flags "$command"; done; } | sorted)
launcher_flags=$("$program" --help | sed -n '/^Launcher options/,/^$/s/^  \(-[^ ].*\)/\1/p' | sed 's/  .*//' | flags_in)

# The page: its lists of commands and of options, and which other flags it names.
part() { sed -n "/^\.SH $1\$/,/^\.SH/p" "$page" | sed 's/\\-/-/g'; }
same 'the page: commands' "$all_commands" "$(part COMMANDS | grep -A 1 '^\.TP' | sed -n 's/^\.BR \([a-z]*\) .*/\1/p' | sorted)"
same 'the page: synopsis' "$all_commands" "$(part SYNOPSIS | sed -n 's/^\.B relayplum \([a-z]*\).*/\1/p' | sorted)"
same 'the page: options' "$all_flags" "$(part OPTIONS | grep -A 1 '^\.TP' | grep '^\.BR' | flags_in)"
same 'the page: launcher options' "$launcher_flags" "$(part 'LAUNCHER OPTIONS' | grep -A 1 '^\.TP' | grep '^\.BR' | flags_in)"
same 'the page: flags anywhere' "$(sorted <<<"$all_flags"$'\n'"$launcher_flags")" "$(sed '/^\.nf/,/^\.fi/d; s/\\-/-/g' "$page" | flags_in)"

# bash: what is offered, by the function itself.
. "$bash_file"
offered() { offered_to relayplum "$@"; }
offered_to() {
    COMP_WORDS=("$@")
    COMP_CWORD=$(($# - 1))
    _relayplum
    printf '%s\n' "${COMPREPLY[@]}" | sorted
}
same 'bash: the first word' "$({ commands; flags; } | sorted)" "$(offered '')"
same 'bash: help' "$all_commands" "$(offered help '')"
for command in $with_flags; do
    same "bash: $command" "$(flags "$command")" "$(offered "$command" -)"
    same "bash: $command, a file" '' "$(offered "$command" '')"
done
# The launcher, which is called by its path: one or several options come before the command, and a folder follows --install.
first=$({ commands; flags; printf '%s\n' $launcher_flags; } | sorted)
same 'bash: the launcher, the first argument' "$first" "$(offered_to ./relayplum '')"
for flag in $launcher_flags; do
    before=("$flag")
    [ "$flag" != --install ] || before=(--install /usr)
    same "bash: the launcher, after $flag" "$first" "$(offered_to ./relayplum "${before[@]}" '')"
    same "bash: the launcher, run after $flag" "$(flags run)" "$(offered_to ./relayplum --optimised "${before[@]}" run -)"
done
same 'bash: the launcher, the folder' "$top/crates" "$(offered_to ./relayplum --optimised --install "$top/crate")"

# zsh: what its file has, command by command; `$help` and its like stand for a list further up.
zsh_list() { sed -n "/^    $1=/p" "$zsh_file" | flags_in; }
same 'zsh: launcher options' "$launcher_flags" "$(sed -n "/^ *launcher=(/,/^ *)/s/^ *'\(--[a-z-]*\)\[.*/\1/p" "$zsh_file" | sorted)"
same 'zsh: commands' "$all_commands" "$(sed -n "/^    commands=(/,/^    )/s/^ *['\"]\([a-z]*\):.*/\1/p" "$zsh_file" | sorted)"
same 'zsh: the first word' "$(flags)" "$({ zsh_list help; grep -- '--version' "$zsh_file" | flags_in; } | sorted)"
for command in $with_flags; do
    found=$(sed -n "/^        ($command)\$/,/;;/p" "$zsh_file")
    lists=$(grep -oE '\$[a-z]+' <<<"$found" | tr -d '$')
    same "zsh: $command" "$(flags "$command")" "$({ for list in $lists; do zsh_list "$list"; done; flags_in <<<"$found"; } | sorted)"
done

# fish: the same, a line for each word; those that aren't of a command are of all of them.
fish_flags() { sed -nE 's/.* -s ([a-zA-Z]) -l ([a-z-]+) .*/-\1 --\2/p; s/.*'"'"' -l ([a-z-]+) .*/--\1/p' | tr ' ' '\n' | sorted; }
same 'fish: commands' "$all_commands" "$(sed -n 's/.*-n __fish_use_subcommand -f -a \([a-z]*\) .*/\1/p' "$fish_file" | sorted)"
same 'fish: the first word' "$(flags)" "$(grep -e '-n __fish_use_subcommand' -e "-n 'not " "$fish_file" | fish_flags)"
for command in $with_flags; do
    same "fish: $command" "$(flags "$command")" \
        "$(grep -e "'__fish_seen_subcommand_from [a-z ]*\b$command\b" -e "-n 'not " "$fish_file" | fish_flags)"
done

same 'fish: launcher options' "$launcher_flags" "$(grep -e "; and __relayplum_may_be_launcher' -l " "$fish_file" | fish_flags)"

# The launcher: each of these options is in its sources, in quotes.
for flag in $launcher_flags; do
    checks=$((checks + 1))
    grep -qsF -e "\"$flag\"" -e "'$flag'" "$top/relayplum" "$top"/tools/build/*.py && continue
    failed=$((failed + 1))
    printf 'failed: the launcher: neither relayplum nor tools/build has %s\n' "$flag"
done

# docs/help: a text for the program, one for its version, and one for each command.
for name in relayplum version $with_flags; do
    case $name in
    relayplum) arguments=(--help) ;;
    version) arguments=(--version) ;;
    *) arguments=("$name" --help) ;;
    esac
    ! $writes || "$program" "${arguments[@]}" >"$top/docs/help/$name.txt"
    checks=$((checks + 1))
    "$program" "${arguments[@]}" | cmp -s - "$top/docs/help/$name.txt" && continue
    failed=$((failed + 1))
    printf 'failed: docs/help/%s.txt is not what the program prints (tests/checks/pages.sh --write writes it)\n' "$name"
done

# The rest, which tools/pages makes of docs/help.
! $writes || "$top/tools/pages" --write
checks=$((checks + 1))
if ! made=$("$top/tools/pages"); then
    failed=$((failed + 1))
    printf '%s\n' "$made"
fi

# The drawing of the crates, which tools/layers makes of crates.txt.
! $writes || "$top/tools/layers"
checks=$((checks + 1))
if ! "$top/tools/layers" --check; then
    failed=$((failed + 1))
    printf "failed: docs/pictures/crates.svg is not what tools/layers makes of crates.txt\n"
fi

echo "pages: $checks checks, $failed failed"
[ "$failed" == 0 ]
