#!/usr/bin/env bash
# Times repairs of 1, 4, 16 and 64 flows in one trace, file to file, each beside a copy of its trace by read and write in
# the same run, and prints the ratio of the least times and the peak of memory. All traces have about the same number of
# records, three in a hundred of which are lost, and their flows stand in turns. Outside the gate.
#
#   run.sh [DATAGRAMS] [ROUNDS]
set -euo pipefail
. "$(dirname "$0")/../file_to_file"

# in_turns FLOWS: the trace of so many flows of ports 5000, 5010 and so on, each a copy of the made one, record by record.
in_turns() {
    python3 - "$1" one.trace > trace <<'END'
import struct, sys
flows, trace = int(sys.argv[1]), open(sys.argv[2], "rb").read()
out, place = sys.stdout.buffer, 8
out.write(trace[:8])
while place < len(trace):
    time, port, size = struct.unpack_from(">QHH", trace, place)
    datagram = trace[place + 12:place + 12 + size]
    for flow in range(flows):
        out.write(struct.pack(">QHH", time, port + 10 * flow, size) + datagram)
    place += 12 + size
END
}

for flows in 1 4 16 64; do
    "$make_trace" --datagrams $((datagrams / flows)) --loss 3 one.trace stream.ts > made
    in_turns "$flows"
    words=$(for flow in $(seq 0 $((flows - 1))); do echo "flow=$((5000 + 10 * flow))"; done)
    rm -f times copies
    # shellcheck disable=SC2086
    beside_a_copy "$flows flows" trace report repair $words
    awk '{ print "  " $0 }' <<< "$({ /usr/bin/time -f '%M kB of memory at most' "$program" repair $words < trace > report; } 2>&1 || true)"
    for flow in $(seq 1 $((flows - 1))); do
        cmp -s 5000.ts "$((5000 + 10 * flow)).ts" || { echo "the lanes differ"; exit 1; }
    done
    rm -f ./*.ts
done
