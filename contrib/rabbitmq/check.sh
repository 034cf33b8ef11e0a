#!/usr/bin/env bash
# Checks the bridge, and `consume` behind socat: first what needs no broker (checks.py), then, over a cluster of three nodes that it
# starts itself, what once lost messages, and how a consumer ends (rows.py), and random kills and stops (storm.py). It takes ten
# minutes, and prints its seed.
#   contrib/rabbitmq/check.sh [PROGRAM [SEED]]    PROGRAM: crates/cdc_app/out/cdc_app; SEED: a random one
# The status is 1 if something differs, and 2 if nothing was sent through a broker: RabbitMQ, pika, socat or the program isn't there.
set -uo pipefail
case ${1-} in
-h | --help)
    sed -n '2,/^[^#]/s/^# \{0,1\}//p' "$0"
    exit 0
    ;;
esac
here=$(cd "$(dirname "$(readlink -f "${BASH_SOURCE[0]}")")" && pwd)
program=$(realpath -m "${1:-$here/../../crates/cdc_app/out/cdc_app}")
python=/usr/bin/python3
export PYTHONDONTWRITEBYTECODE=1

not_tried() {
    echo "check: $1; nothing was sent through a broker" >&2
    exit 2
}
"$python" "$here/checks.py" || exit 1
[ -x /usr/lib/rabbitmq/bin/rabbitmq-server ] || not_tried 'there is no RabbitMQ here: on Debian apt-get install rabbitmq-server'
"$python" -c 'import pika' 2>/dev/null || not_tried "$python has no pika: on Debian apt-get install python3-pika"
command -v socat >/dev/null || not_tried 'there is no socat: on Debian apt-get install socat'
[ -x "$program" ] || not_tried "there is no $program: ./relayplum books FILE builds it"
exec "$python" "$here/storm.py" --rows --program "$program" ${2:+--seed "$2"}
