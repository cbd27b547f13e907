#!/bin/bash
# Prints what it costs to write the chain of chunk frames once and to read it once: at 16,384 frames, with none, half
# and all of them marked, each alone. With a number as its argument it averages over so many rounds in place of 2,000.
# Needs the kit's `rt`, which proves and builds the program first; the program's own clock times the calls.
set -eu
cd "$(dirname "$0")/../crates/bitmaps_bench"
rounds=${1:-2000}
rt run > /dev/null
for marked in 0 8192 16384; do
    out/bitmaps_bench 16384 "$marked" "$rounds"
done
