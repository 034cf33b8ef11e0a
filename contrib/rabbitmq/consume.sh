#!/bin/sh
# Consumes a queue of RabbitMQ by `relayplum consume` behind socat, from one node after another, until a new start is of no use.
#   contrib/rabbitmq/consume.sh REPORT NODE.. -- OPTION..
# REPORT: the file that has the status, the counts and the place. NODE: an address of socat, such as TCP:one:5672 or
# OPENSSL:one:5671,cafile=ca.pem. OPTION: an option of consume, without --report. The password is in RELAYPLUM_PASSWORD, or comes by
# --password-file.
# The status is that of the report: 0, 2 or 3. After any other end, the next node is tried. After TRIES connections in a row that
# brought no new event, the status is 1.
# Variables: RELAYPLUM, the program [relayplum]; TRIES [10]; WAIT, the seconds between two connections [1]; RENEW, the seconds after
# which a connection is ended, since a cluster may forget a consumer when a node dies [3600].
case ${1-} in
-h | --help)
    sed -n '2,/^[^#]/s/^# \{0,1\}//p' "$0"
    exit 0
    ;;
esac
set -u

usage_error() {
    echo "consume.sh: $1; consume.sh --help prints the arguments" >&2
    exit 2
}

# Each argument as a word of the shell.
quoted() {
    for word; do
        printf "'%s' " "$(printf '%s\n' "$word" | sed "s/'/'\\\\''/g")"
    done
}

# The value of a line of the report, if the line is there and has digits alone.
reported() {
    sed -n "s/^$1 \([0-9][0-9]*\)\$/\1/p" "$report" 2>/dev/null
}

[ $# -gt 0 ] || usage_error 'no REPORT'
report=$1
shift
nodes=
while [ $# -gt 0 ] && [ "$1" != -- ]; do
    nodes="$nodes $1"
    shift
done
[ $# -gt 0 ] || usage_error 'no -- before the options of consume'
[ -n "$nodes" ] || usage_error 'no NODE'
shift
program=${RELAYPLUM:-relayplum}
for it in "$program" socat timeout; do
    command -v "$it" >/dev/null || usage_error "there is no $it"
done
# socat would read the options as its own words, so the shell that it starts reads them here.
CONSUME=$(quoted "$program" consume "$@" --report "$report")
export CONSUME

# Options, a password or a book that can't be used are named before the first connection.
errors=$("$program" consume "$@" --report "$report" </dev/null 2>&1 >/dev/null)
if [ $? -eq 2 ]; then
    printf '%s\n' "$errors" >&2
    exit 2
fi

tries=${TRIES:-10} failures=0 seen=
while :; do
    for node in $nodes; do
        rm -f -- "$report"
        # shellcheck disable=SC2016
        # -t: the time for the last save once the server has ended the connection; -T: a server that sends no heartbeat is dead.
        timeout --foreground "${RENEW:-3600}" socat -t 30 -T 120 "$node" SYSTEM:'eval \"exec $CONSUME\"'
        status=$(reported status)
        case $status in
        0 | 2 | 3) exit "$status" ;;
        esac
        now=$(reported seen)
        if [ -n "$now" ] && [ "$now" != "$seen" ]; then
            seen=$now failures=0
        fi
        failures=$((failures + 1))
        if [ "$failures" -ge "$tries" ]; then
            echo "consume.sh: $failures connections in a row brought no new event" >&2
            exit 1
        fi
        sleep "${WAIT:-1}"
    done
done
