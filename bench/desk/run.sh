#!/usr/bin/env bash
# Counts the instructions of a desk's work a media datagram: admission, plays and tray, and the same without a tray, for
# 10 columns and 10 rows. Each run is made under callgrind with the desk and without it, and the difference is told. Then
# what a hold adds a record, one that has nothing played and one that has. Outside the gate. It wants valgrind.
set -euo pipefail
here=$(cd "$(dirname "$0")" && pwd)
top=$(cd "$here/../.." && pwd)
work=$(mktemp -d)
trap 'rm -rf "$work"' EXIT
mkdir -p "$work/crates/desk_work/src" "$work/crates/desk_work/proofs"
"$top/bench/copy_crates" "$work" fg_desk
echo 'desk_work: fg_words fg_shape fg_desk' >> "$work/crates.txt"
cp "$here/program.txt" "$work/crates/desk_work/src/main.rt"
mkdir "$work/crates/desk_work/proofs/play_held" "$work/crates/desk_work/proofs/take_media" "$work/crates/desk_work/proofs/run_all"
cat > "$work/crates/desk_work/proofs/play_held/Invariants.antt" <<'END'
use Rattle.std.proofs.Common.{◌≡◌}
use Rattle.desk_work.proofs.play_held.Given as goal

abbrev pub invariant-loop : goal.invariant-loop
invariant-loop l = l.desk.state.playout.window ≡ l.fn.desk.state.playout.window
END
cat > "$work/crates/desk_work/proofs/take_media/Invariants.antt" <<'END'
use Rattle.std.proofs.Common.{◌≡◌}
use Rattle.desk_work.proofs.take_media.Given as goal

abbrev pub invariant-loop : goal.invariant-loop
invariant-loop l = (l.desk.state.playout.window ≡ l.fn.desk.state.playout.window) × (l.tray.window ≡ l.fn.tray.window)
END
cat > "$work/crates/desk_work/proofs/run_all/Invariants.antt" <<'END'
use Rattle.std.proofs.Common.{◌≤◌}
use Rattle.desk_work.proofs.run_all.Given as goal

abbrev pub invariant-loop-number : goal.invariant-loop-number
invariant-loop-number l = l.desk.state.playout.window ≤ l.tray.window
END
cd "$work/crates/desk_work"
rt run -- bare 400 100 0 none > "$work/log" 2>&1 || { cat "$work/log"; exit 1; }
count() {
    valgrind --tool=callgrind --callgrind-out-file=/dev/null out/desk_work "$@" 2>&1 \
        | sed -n 's/.*Collected : \([0-9]*\).*/\1/p'
}
for loss in 0 3; do
    for depth in 400 1000; do
        for window in 100 10 1; do
            with=$(count desk "$depth" "$window" "$loss" none)
            place=$(count place "$depth" "$window" "$loss" none)
            without=$(count bare "$depth" "$window" "$loss" none)
            echo "loss $loss depth $depth window $window: $(((with - without) / 40000)) instructions a media datagram," \
                "$(((place - without) / 40000)) without a tray, $(out/desk_work desk "$depth" "$window" "$loss" none)"
        done
    done
done
for loss in 0 3; do
    for hold in 3600000000 60000; do
        with=$(count place 400 100 "$loss" "$hold")
        without=$(count place 400 100 "$loss" 0)
        records=$((loss == 0 ? 48000 : 46560))
        echo "loss $loss hold $hold: $(((with - without) / records)) instructions a record more than without one," \
            "$(out/desk_work place 400 100 "$loss" "$hold")"
    done
done
