#!/usr/bin/env bash
# Counts the instructions a record of proving a flow's gaps beside those of repairing it without workers, as ratios of one run:
# 10 columns and 10 rows, with none and with 3 in a hundred records lost at window 100 and depth 400, and with 10 at window 1 and
# depth 1,000. Then it times the judging of a text of cases, and tells the most memory of each. Outside the gate; it wants
# valgrind.
#
#   run.sh [DATAGRAMS]
set -euo pipefail
. "$(dirname "$0")/../file_to_file"

# count COMMAND LOSS WORD..: the instructions a record, as the difference of two lengths.
count() {
    local command=$1 lost=$2 found=
    shift 2
    for many in $((datagrams / 20)) $((datagrams / 10)); do
        "$make_trace" --datagrams "$many" --loss "$lost" counted.trace > made
        found="$found $(instructions counted.trace "$command" flow=5000 "$@") $(sed 's/ .*//' made)"
    done
    awk '{ printf "%d", ($3 - $1) / ($4 - $2) }' <<< "$found"
}

# beside LOSS WORD..: a proof beside a repair.
beside() {
    local repair prove
    repair=$(count repair "$@" workers=0)
    prove=$(count prove "$@")
    echo "$1 percent lost, ${*:2}: repair $repair, prove $prove instructions a record, ratio $(awk "BEGIN { printf \"%.2f\", $prove / $repair }")"
}
beside 0 window=100 depth=400
beside 3 window=100 depth=400
beside 10 window=1 depth=1000

"$make_trace" --datagrams "$datagrams" --loss 20 lossy.trace > made
"$program" prove flow=5000 < lossy.trace > cases
for _ in 1 2 3 4 5 6 7 8; do cat cases; done > many_cases
least=
for _ in 1 2 3 4 5; do
    TIMEFORMAT='%U %S'
    spent=$({ time "$program" check < many_cases > judged; } 2>&1 | awk '{ printf "%d", 1000 * ($1 + $2) }')
    if [ -z "$least" ] || [ "$spent" -lt "$least" ]; then least=$spent; fi
done
echo "check: $(wc -c < many_cases) bytes, $(wc -l < judged) cases in $least ms of processor time, $(awk "BEGIN { printf \"%.0f\", $(wc -c < many_cases) / 1000 / $least }") MB a second"
for command in 'prove flow=5000' check; do
    input=$([ "$command" = check ] && echo many_cases || echo lossy.trace)
    # shellcheck disable=SC2086
    /usr/bin/time -f "$command: %M kB of memory at most" "$program" $command < "$input" > told
done
