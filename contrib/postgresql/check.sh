#!/usr/bin/env bash
# Checks the saves that `follow --sql` prints, over a PostgreSQL server that it starts itself: hundreds of kills, rivals and stale
# followers, each cut of a text, with three seeds. It takes some minutes.
#   contrib/postgresql/check.sh [PROGRAM [SEED]]    PROGRAM: crates/cdc_app/out/cdc_app; SEED: of the first of three; 1 if none is named
# The status is 1 if something differs, and 2 if nothing was tried on a server: PostgreSQL or the program isn't there.
set -uo pipefail
case ${1-} in
-h | --help)
    sed -n '2,/^[^#]/s/^# \{0,1\}//p' "$0"
    exit 0
    ;;
esac
here=$(cd "$(dirname "$(readlink -f "${BASH_SOURCE[0]}")")" && pwd)
program=$(realpath -m "${1:-$here/../../crates/cdc_app/out/cdc_app}")
first=${2:-1}
export PYTHONDONTWRITEBYTECODE=1

not_tried() {
    echo "check: $1; nothing was tried on a server" >&2
    exit 2
}
[ -x "$program" ] || not_tried "there is no $program: ./relayplum books FILE builds it"
compgen -G '/usr/lib/postgresql/*/bin/initdb' >/dev/null || not_tried 'there is no PostgreSQL here: on Debian apt-get install postgresql'
status=0
for seed in "$first" $((first + 1)) $((first + 2)); do
    "$here/../../tests/checks/sql.py" "$program" --soak --seed "$seed" || status=1
done
exit "$status"
