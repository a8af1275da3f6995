#!/usr/bin/env bash
# Times the monitoring of a stream of 700,000 packets in a file in memory, as a ratio of one run to a bare loop of reads of the
# same size. Where valgrind is installed it counts the instructions a packet as well. It stands outside the gate: the program
# is proved and run in a temporary folder.
set -euo pipefail
here=$(cd "$(dirname "$0")" && pwd)
top=$(cd "$here/../.." && pwd)
work=$(mktemp -d)
file=$(mktemp -p /dev/shm stream.XXXXXX)
trap 'rm -rf "$work" "$file"' EXIT
mkdir -p "$work/crates/monitor_times/src"
"$top/bench/copy_crates" "$work" fg_monitor
echo 'monitor_times: fg_io fg_monitor anyhow' >> "$work/crates.txt"
cp "$here/program.txt" "$work/crates/monitor_times/src/main.rt"
cd "$work/crates/monitor_times"
rt run -- make "$file" 700000 > "$work/log" 2>&1 || { cat "$work/log"; exit 1; }
out/monitor_times times "$file"

command -v valgrind > /dev/null || exit 0
# count PACKETS: the instructions of a monitoring.
count() {
    out/monitor_times make "$file" "$1"
    valgrind --tool=callgrind --callgrind-out-file=/dev/null out/monitor_times monitor "$file" 2>&1 \
        | sed -n 's/.*Collected : \([0-9]*\).*/\1/p'
}
echo "$((($(count 100000) - $(count 50000)) / 50000)) instructions a packet"
