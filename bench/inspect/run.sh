#!/usr/bin/env bash
# Times the inspection of a trace of 200,000 media records of 1,340 bytes in memory, as a ratio of one run to a bare loop of
# reads of the same size. It stands outside the gate: the program is proved and run in a temporary folder.
set -euo pipefail
here=$(cd "$(dirname "$0")" && pwd)
top=$(cd "$here/../.." && pwd)
work=$(mktemp -d)
trap 'rm -rf "$work"' EXIT
mkdir -p "$work/crates/inspect_times/src"
"$top/bench/copy_crates" "$work" fg_inspect
printf 'inspect_times: fg_io fg_flows fg_trace fg_inspect anyhow\n' >> "$work/crates.txt"
cp "$here/program.txt" "$work/crates/inspect_times/src/main.rt"
cd "$work/crates/inspect_times"
rt "${1:-run}" > "$work/log" 2>&1 || { cat "$work/log"; exit 1; }
grep -E '^(inspection|\(a sum)' "$work/log"
