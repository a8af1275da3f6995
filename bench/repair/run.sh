#!/usr/bin/env bash
# Times a repair, file to file, beside a copy of its trace by read and write in the same run, and prints the ratio of the
# least times. Where valgrind is installed it counts the instructions a record as well. Outside the gate.
#
#   run.sh [DATAGRAMS] [ROUNDS]
set -euo pipefail
. "$(dirname "$0")/../file_to_file"

"$make_trace" --datagrams "$datagrams" --loss 3 lossy.trace stream.ts
beside_a_copy repair lossy.trace report repair flow=5000
cat report
if cmp -s 5000.ts stream.ts; then echo 'the lane is the stream'; else echo 'the lane is not the whole stream'; fi
{ /usr/bin/time -f '%M kB of memory at most' "$program" repair flow=5000 < lossy.trace > report; } 2>&1 || true

command -v valgrind > /dev/null || exit 0
# count DATAGRAMS: the instructions of a repair and the number of records.
count() {
    "$make_trace" --datagrams "$1" --loss 3 counted.trace > made
    echo "$(instructions counted.trace repair flow=5000)" "$(sed 's/ .*//' made)"
}
awk '{ printf "%d instructions a record\n", ($3 - $1) / ($4 - $2) }' <<< \
    "$(count 5000 | tr '\n' ' ')$(count 10000)" 2> /dev/null || true
