#!/usr/bin/env bash
# Prints how long a turn of the turn lock takes beside std's Mutex doing the same increments in the same run: seats
# that go round without a pause, seats that stay outside for two microseconds, and one of the first with three of the
# second; once on the machine as it is, and once beside four busy loops. It takes about a minute. It stands outside
# the gate: the program is proved and run in a temporary folder.
set -euo pipefail
here=$(cd "$(dirname "$0")" && pwd)
top=$(cd "$here/../.." && pwd)
work=$(mktemp -d)
loops=()
finish() {
    for loop in "${loops[@]}"; do kill "$loop" 2> "$work/kill" || true; done
    rm -rf "$work"
}
trap finish EXIT
mkdir -p "$work/crates/turn_bench/src"
cp "$top/HANDLES" "$work/"
cp -r "$top/crates/fg_turn" "$work/crates/"
printf 'fg_turn: atomic_table\nturn_bench: fg_turn\n' > "$work/crates.txt"
cp "$here/program.txt" "$work/crates/turn_bench/src/main.rt"
mkdir -p "$work/crates/turn_bench/proofs/seats"
cat > "$work/crates/turn_bench/proofs/seats/Invariants.antt" <<'END_OF_PROOF'
use Rattle.std.proofs.Common.{◌≡◌, ◌+◌, false}
use Rattle.turn_bench.proofs.seats.Given as goal

abbrev pub invariant-loop : goal.invariant-loop
invariant-loop l =
    (l.owner.turn ≡ l.turn.name) × (l.owner.inside ≡ false)
    × (l.owner.made ≡ l.initial.owner.made + l.counter)
END_OF_PROOF
cd "$work/crates/turn_bench"
echo "as the machine is, with a load of $(cut -d ' ' -f 1 /proc/loadavg)"
rt run > "$work/log" 2>&1 || { cat "$work/log"; exit 1; }
grep 'ns a turn' "$work/log"
for _ in 1 2 3 4; do
    while :; do :; done &
    loops+=("$!")
done
echo "beside four busy loops"
out/turn_bench
