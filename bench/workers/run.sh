#!/usr/bin/env bash
# Times repairs beside 1, 4 and 16 workers and without any, of one flow and of four in one trace, with none, 3 and 10 in a
# hundred records lost, and of 16 and 64 flows with 3, file to file: first on the machine as it is, then beside busy loops, two
# a processor. It prints the ratios of the least wall times and of processor times to those without workers of the same run, and
# the peaks of memory, and then how many words came from workers, which a copy of the program with a counting gate tells.
# Outside the gate.
#
#   run.sh [DATAGRAMS] [ROUNDS]
set -euo pipefail
here=$(cd "$(dirname "$0")" && pwd)
. "$here/../file_to_file"

"$here/measure" "$program" "$make_trace" "$datagrams" "$rounds"

# The copy has another gate, and is run without a proof.
"$top/bench/copy_crates" "$work/counted" fgate
cd "$work/counted/crates/fgate"
"$here/with_counting_gate" src/main.rt
for lost in 0 3 10; do
    "$make_trace" --datagrams 20000 --loss "$lost" data/lossy.trace > made
    rt try -- repair flow=5000 workers=4 < data/lossy.trace > report 2> told || true
    awk -v lost="$lost" '/^words from workers/ { print lost " percent lost: " $0 " of " shown }
        FNR == 1 && /^flow/ { shown = $6 }' report told
done
