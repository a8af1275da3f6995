#!/usr/bin/env bash
# Times a trace that is made into a capture, and the capture that is made into a trace again, file to file, each beside a copy
# of its input by read and write in the same run, and prints the ratios of the least times. The capture is compared with that
# of capture_of, and the trace with the one that it came from. Where valgrind is installed it counts the instructions a record
# as well. Outside the gate.
#
#   files.sh [DATAGRAMS] [ROUNDS]
set -euo pipefail
here=$(cd "$(dirname "$0")" && pwd)
. "$here/../file_to_file"

"$make_trace" --datagrams "$datagrams" --loss 0 stream.trace stream.ts
rm stream.ts
"$here/capture_of" < stream.trace > wanted.pcap

beside_a_copy tocap stream.trace stream.pcap tocap
if cmp -s stream.pcap wanted.pcap; then echo 'the capture is that of the tool'; else echo "the capture is not the tool's"; fi
rm -f wanted.pcap copies times
beside_a_copy fromcap stream.pcap back.trace fromcap
if cmp -s back.trace stream.trace; then echo 'the trace is back'; else echo 'the trace is not back'; fi

command -v valgrind > /dev/null || exit 0
# The same number of datagrams in a trace and in the capture of it, and the instructions for it: records more than datagrams,
# since parity has records too.
records_of() {
    "$make_trace" --datagrams "$1" --loss 0 counted.trace counted.ts | sed -n 's/.*\b\([0-9][0-9]*\) records.*/\1/p'
}
few=$(records_of 5000)
"$here/capture_of" < counted.trace > counted.pcap
few_out=$(instructions counted.trace tocap)
few_in=$(instructions counted.pcap fromcap)
many=$(records_of 10000)
"$here/capture_of" < counted.trace > counted.pcap
many_out=$(instructions counted.trace tocap)
many_in=$(instructions counted.pcap fromcap)
echo "tocap $(((many_out - few_out) / (many - few))), fromcap $(((many_in - few_in) / (many - few))) instructions a record, copying in them"
