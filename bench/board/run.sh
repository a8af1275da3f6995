#!/usr/bin/env bash
# What the turn costs the admitter of a board whom nobody disturbs, beside a desk alone in the same run: nanoseconds and
# instructions of an admission or play, for 10 columns and 10 rows, windows of 100, depths of 400 and 1,000. Then the
# instructions of a pass's work beside some 40 live equations of ten slots: a take and its giving back, a take that finds
# nothing, and a take whose word is solved and published. Instructions are counted by callgrind, as differences of two
# runs. Outside the gate. It wants valgrind.
set -euo pipefail
here=$(cd "$(dirname "$0")" && pwd)
top=$(cd "$here/../.." && pwd)
work=$(mktemp -d)
trap 'rm -rf "$work"' EXIT
"$top/bench/copy_crates" "$work" fg_board
echo 'board_work may_wait=12: fg_words fg_shape fg_turn fg_desk fg_core fg_board' >> "$work/crates.txt"
mkdir -p "$work/crates/board_work/src" "$work/crates/board_work/proofs/do_one" "$work/crates/board_work/proofs/rows"
cp "$here/program.txt" "$work/crates/board_work/src/main.rt"
cp "$here/do_one.txt" "$work/crates/board_work/proofs/do_one/Answers.antt"
cp "$here/rows.txt" "$work/crates/board_work/proofs/rows/Invariants.antt"
cd "$work/crates/board_work"
rt run -- times 400 > "$work/log" 2>&1 || { cat "$work/log"; exit 1; }
for depth in 400 1000; do
    out/board_work times "$depth"
done
# The instructions of a run, and the number that its line begins with.
count() {
    valgrind --tool=callgrind --callgrind-out-file=/dev/null out/board_work "$@" 2>&1 \
        | sed -n 's/.*Collected : \([0-9]*\).*/\1/p'
}
number() { out/board_work "$@" | cut -d ' ' -f 1; }
for depth in 400 1000; do
    made=$(count bare "$depth")
    desk=$(count desk "$depth")
    board=$(count board "$depth")
    calls=$(number board "$depth")
    echo "depth $depth: desk $(((desk - made) / calls)) instructions a call, board $(((board - made) / calls))," \
        "$(((board - desk) / calls)) more"
done
rows=4000
checks=$(count checks 400)
twice=$(count twice 400)
none=$(count none 400)
solves=$(count solves 400)
echo "a take and its giving back: $(((twice - checks) / rows)) instructions;" \
    "a take that finds nothing: $(((none - checks) / rows));" \
    "a take, its solving and publishing: $(((solves - checks) / rows))"
