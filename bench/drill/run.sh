#!/usr/bin/env bash
# Tells how long the built program takes to drill a stream of 20,000 datagrams, as a ratio to the time of encoding it and then
# repairing the trace. Each is the least user and system time of five runs, without losses. Outside the gate. It wants
# crates/fgate/out/fgate, as `tools/prove` leaves it there, and 120 MB for a while.
set -euo pipefail
here=$(cd "$(dirname "$0")" && pwd)
program=$here/../../crates/fgate/out/fgate
work=$(mktemp -d)
trap 'rm -rf "$work"' EXIT
cd "$work"
"$program" sample seed=1 datagrams=20000 loss=0 > report
mv 5000.ts stream

# least COMMAND: the least time of five runs, in milliseconds.
least() {
    local best=
    for _ in 1 2 3 4 5; do
        local spent
        TIMEFORMAT='%U %S'
        spent=$({ time eval "$1" > /dev/null 2>&1; } 2>&1 | awk '{ printf "%d", 1000 * ($1 + $2) }')
        if [ -z "$best" ] || [ "$spent" -lt "$best" ]; then
            best=$spent
        fi
    done
    echo "$best"
}

encode=$(least '"$program" encode columns=10 rows=10 < stream > trace')
"$program" encode columns=10 rows=10 < stream > trace
repair=$(least '"$program" repair flow=5000 < trace')
cmp -s stream 5000.ts || echo 'repair: WRONG'
drill=$(least '"$program" drill columns=10 rows=10 < stream')
cmp -s stream 5000.ts || echo 'drill: WRONG'
echo "encode $encode ms, repair $repair ms, drill $drill ms, ratio $(awk "BEGIN { printf \"%.2f\", $drill / ($encode + $repair) }")"
