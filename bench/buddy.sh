#!/bin/bash
# Prints what a take and the gives after it cost: at 1,024, 4,096 and 16,384 frames, with 1 and 256 single
# frames a call, where all frames are free before the call and where all but the last ones are held.
# Needs the kit's `rt`, which proves and builds the program first; the program's own clock times the calls.
set -eu
cd "$(dirname "$0")/../crates/buddy_bench"
rounds=${1:-2000}
rt run > /dev/null
for frames in 1024 4096 16384; do
    for count in 1 256; do
        for held in 0 $((frames - 1 - count)); do
            out/buddy_bench "$frames" "$count" "$held" "$rounds"
        done
    done
done
