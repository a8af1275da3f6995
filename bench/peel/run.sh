#!/usr/bin/env bash
# Times the peeler, as ratios of one run: XOR in place against memcpy, and peeling a block of 10 columns and 10 rows
# with ten losses against XORing the same words plainly. It makes a throw-away program over the repository's crates in
# a temporary folder, which rt proves and builds like any other.
set -eu
here=$(cd "$(dirname "$0")" && pwd)
top=$(cd "$here/../.." && pwd)
work=$(mktemp -d)
trap 'rm -rf "$work"' EXIT
mkdir -p "$work/crates/peel_times/src" "$work/crates/peel_times/proofs"
"$top/bench/copy_crates" "$work" fg_peel
echo 'peel_times: fg_words fg_shape fg_peel slab' >> "$work/crates.txt"
cp "$here/program.txt" "$work/crates/peel_times/src/main.rt"
# The walk through the lines is proved as in the peeler's own tests.
for name in line_fits lines_fit; do
    cp -r "$top/crates/fg_peel_tests/proofs/peeling/$name" "$work/crates/peel_times/proofs/"
    sed -i "s/fg_peel_tests\.proofs\.peeling\.$name/peel_times.proofs.$name/" "$work/crates/peel_times/proofs/$name"/*.antt
done
cd "$work/crates/peel_times"
rt run
