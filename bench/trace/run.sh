#!/usr/bin/env bash
# Times the walk of a trace of 200,000 records of 1,340 bytes, as a ratio of one run to a bare loop of reads of the same
# size: over a file in memory, and over bytes in memory. It stands outside the gate: the program is proved and run in a
# temporary folder.
set -euo pipefail
here=$(cd "$(dirname "$0")" && pwd)
top=$(cd "$here/../.." && pwd)
work=$(mktemp -d)
file=$(mktemp -p /dev/shm trace.XXXXXX)
trap 'rm -rf "$work" "$file"' EXIT
mkdir -p "$work/crates/trace_times/src" "$work/crates/trace_times/proofs/walk_all"
"$top/bench/copy_crates" "$work" fg_trace
echo 'trace_times: fg_io fg_trace anyhow' >> "$work/crates.txt"
cp "$here/program.txt" "$work/crates/trace_times/src/main.rt"
cat > "$work/crates/trace_times/proofs/walk_all/Invariants.antt" <<'END'
use Rattle.std.proofs.Common.{◌≡◌, true}
use Rattle.trace_times.proofs.walk_all.Given as goal

abbrev pub invariant-loop : goal.invariant-loop
invariant-loop g l = l.reader.started ≡ true
END
cd "$work/crates/trace_times"
rt run -- "$file" > "$work/log" 2>&1 || { cat "$work/log"; exit 1; }
grep -E '^(walk|\(a sum)' "$work/log"
