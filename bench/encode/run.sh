#!/usr/bin/env bash
# Counts the instructions of an encoder's work a media datagram, for 10 columns and 10 rows. Each run is made twice under
# callgrind, with the encoder and without it, and the difference is told. Outside the gate. It wants valgrind.
set -euo pipefail
here=$(cd "$(dirname "$0")" && pwd)
top=$(cd "$here/../.." && pwd)
work=$(mktemp -d)
trap 'rm -rf "$work"' EXIT
mkdir -p "$work/crates/encode_work/src" "$work/crates/encode_work/proofs/run_all"
"$top/bench/copy_crates" "$work" fg_encode
echo 'encode_work: fg_shape fg_ts fg_encode' >> "$work/crates.txt"
cp "$here/program.txt" "$work/crates/encode_work/src/main.rt"
cat > "$work/crates/encode_work/proofs/run_all/Invariants.antt" <<'END'
use Rattle.std.proofs.Common.{◌≡◌, ◌≤◌, ℕ, List}
use Rattle.fg_encode.specs.Encoder.{StandsAfter}
use Rattle.encode_work.proofs.run_all.Given as goal

abbrev pub invariant-loop-done : goal.invariant-loop-done
invariant-loop-done l = record {
  stands : (payloads : List (List ℕ)) × StandsAfter l.encoder payloads;
  packets : l.encoder.settings.packets ≡ 7;
  taken : l.encoder.taken ≤ l.done;
}
END
cd "$work/crates/encode_work"
rt run -- bare block > "$work/log" 2>&1 || { cat "$work/log"; exit 1; }
count() {
    valgrind --tool=callgrind --callgrind-out-file=/dev/null out/encode_work "$@" 2>&1 \
        | sed -n 's/.*Collected : \([0-9]*\).*/\1/p'
}
for layout in block staggered; do
    with=$(count encode "$layout")
    without=$(count bare "$layout")
    echo "$layout: $(((with - without) / 40000)) instructions a media datagram, $(out/encode_work encode "$layout")"
done
