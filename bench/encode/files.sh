#!/usr/bin/env bash
# Times an encoding with 10 columns and 10 rows, file to file, beside a copy of its stream by read and write in the same
# run, and prints the ratio of the least times. Where valgrind is installed it counts the instructions a media datagram as
# well. Outside the gate.
#
#   files.sh [DATAGRAMS] [ROUNDS]
set -euo pipefail
. "$(dirname "$0")/../file_to_file"

"$make_trace" --datagrams "$datagrams" --loss 0 wanted.trace stream.ts
beside_a_copy encode stream.ts trace encode columns=10 rows=10
if cmp -s trace wanted.trace; then echo 'the trace is that of the tool'; else echo "the trace is not the tool's"; fi

command -v valgrind > /dev/null || exit 0
# count DATAGRAMS: the instructions of an encoding.
count() {
    head -c $(($1 * 1316)) stream.ts > counted.ts
    instructions counted.ts encode columns=10 rows=10
}
echo "$((($(count 10000) - $(count 5000)) / 5000)) instructions a media datagram"
