# Completions of relayplum for bash. Source this file, or put it, under the name relayplum, into the folder
# bash-completion/completions of ~/.local/share or /usr/share. tools/pages writes it.
_relayplum() {
    local word=${COMP_WORDS[COMP_CWORD]} words='' launcher='' first=1
    COMPREPLY=()
    # Called by a path, it may be the launcher in the repository, which takes options before the command.
    [[ ${COMP_WORDS[0]} != */* ]] || launcher='--from-records --prove --unproved --optimised --install'
    while [ "$first" -lt "$COMP_CWORD" ] && [[ " $launcher " == *" ${COMP_WORDS[first]} "* ]]; do
        [ "${COMP_WORDS[first]}" != --install ] || first=$((first + 1))
        first=$((first + 1))
    done
    if [ "$COMP_CWORD" -lt "$first" ]; then
        # A folder follows --install.
        compopt -o filenames 2>/dev/null
        mapfile -t COMPREPLY < <(compgen -d -- "$word")
        return
    elif [ "$COMP_CWORD" = "$first" ]; then
        words="books messages simulate run follow audit chain consume help -h --help -V --version $launcher"
    elif [ "${COMP_WORDS[first]}" = help ]; then
        words='books messages simulate run follow audit chain consume help'
    else
        # The values of a flag.
        case "${COMP_WORDS[first]} ${COMP_WORDS[COMP_CWORD - 1]}" in
        'messages --queue' | 'simulate --deliveries' | 'run --deliveries') words='1 2 3 4 5 6 7 8' ;;
        'simulate --window' | 'run --window') words='1 2 8 64' ;;
        esac
    fi
    if [ -z "$words" ] && [[ $word == -* ]]; then
        case ${COMP_WORDS[first]} in
            books)
                words='--explain --json --check -h --help'
                ;;
            messages)
                words='--queue --json --check -h --help'
                ;;
            simulate)
                words='--random --to-end --steps --faults --skip-refused --deliveries --expect --window --explain'
                words+=' --trace --diagram --page --svg --json --check -h --help'
                ;;
            run)
                words='--window --prefetch --lose-confirm --lose-publish --restart-after --repeat --close'
                words+=' --start-after --progress --deliveries --expect --explain --trace --json -h --help'
                ;;
            follow)
                words='--chained --checked --baseline --from-book --skip-gaps --binding --after --book --every'
                words+=' --busy --expect --sql --resume --sql-schema --events --json -h --help'
                ;;
            audit)
                words='--book --foreign --duplicates --state --every --json -h --help'
                ;;
            chain)
                words='--queue --state --every -h --help'
                ;;
            consume)
                words='--queue --book --chained --park --binding --vhost --user --password-file --prefetch'
                words+=' --heartbeat --every --busy --limit --report --json -h --help'
                ;;
        esac
    fi
    # Where there is no such word, files are offered.
    [ -z "$words" ] || mapfile -t COMPREPLY < <(compgen -W "$words" -- "$word")
}
complete -o default -F _relayplum relayplum
