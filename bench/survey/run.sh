#!/usr/bin/env bash
# Counts the instructions a record of surveying a trace, and of picking a flow's records from it, as the difference of two
# lengths: 10 columns and 10 rows with 3 in a hundred records lost, 1,316 bytes a payload. The survey is counted of 1, 16 and 256
# such flows in turns too, and of 256 senders on one port. Then it tells the most memory of each, and, where tshark is there, how
# long its statistics of RTP streams take on the same records as a capture, beside a survey in the same run. Outside the gate; it
# wants valgrind.
#
#   run.sh [DATAGRAMS]
set -euo pipefail
. "$(dirname "$0")/../file_to_file"

# count WORD..: the instructions a record.
count() {
    local found=
    for many in $((datagrams / 20)) $((datagrams / 10)); do
        "$make_trace" --datagrams "$many" --loss 3 counted.trace > made
        found="$found $(instructions counted.trace "$@") $(sed 's/ .*//' made)"
    done
    awk '{ printf "%d", ($3 - $1) / ($4 - $2) }' <<< "$found"
}
# in_turns COUNT KIND DATAGRAMS: makes the trace of so many flows on ports of their own, or senders on one port, each of so many
# datagrams, and tells how many records it has.
in_turns() {
    "$make_trace" --datagrams "$3" --loss 3 one.trace > made
    PYTHONPATH=$top/checks python3 -B - "$1" "$2" one.trace > many.trace <<'END'
import struct, sys
from fgate_checks.trials.plain_model import traces
count, is_flows = int(sys.argv[1]), sys.argv[2] == "flows"
with open(sys.argv[3], "rb") as file:
    one = file.read()
sys.stdout.buffer.write(traces.MAGIC)
for time, port, datagram in traces.read_trace(one, len(one))[0]:
    for number in range(count):
        own = datagram if is_flows else datagram[:8] + struct.pack(">I", number) + datagram[12:]
        sys.stdout.buffer.write(traces.spelled([(time, port + 10 * number * is_flows, own)]))
END
    echo $(($1 * $(sed 's/ .*//' made)))
}
# count_many COUNT KIND: the instructions a record of a survey of them, and its memory.
count_many() {
    local found= records
    for each in $((25600 / $1)) $((51200 / $1)); do
        records=$(in_turns "$1" "$2" "$each")
        found="$found $(instructions many.trace survey) $records"
    done
    awk -v what="$1 $2" '{ printf "survey of %s: %d instructions a record, at most 900; ", what, ($3 - $1) / ($4 - $2) }' <<< "$found"
    { /usr/bin/time -f '%M kB of memory at most' "$program" survey < many.trace > told; } 2>&1
    rm many.trace
}
echo "survey: $(count survey) instructions a record, at most 900"
for many in '1 flows' '16 flows' '256 flows' '256 senders'; do
    # shellcheck disable=SC2086
    count_many $many
done
echo "pick: $(count pick flow=5000 without=9) instructions a record, at most 400 and a copy"

"$make_trace" --datagrams "$datagrams" --loss 3 lossy.trace > made
for command in survey 'pick flow=5000 without=9'; do
    # shellcheck disable=SC2086
    /usr/bin/time -f "$command: %M kB of memory at most" "$program" $command < lossy.trace > told
done
if command -v tshark > /dev/null; then
    "$program" tocap < lossy.trace > lossy.pcap
    TIMEFORMAT=%R
    { time "$program" survey < lossy.trace > told; } 2> ours
    { time tshark -q -d udp.port==5000,rtp -z rtp,streams -r lossy.pcap > theirs_told 2> theirs_said; } 2> theirs
    echo "survey $(cat ours) s, tshark -q -z rtp,streams $(tail -n 1 theirs) s"
else
    echo "tshark isn't here: no time beside it"
fi
