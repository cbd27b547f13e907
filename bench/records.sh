#!/bin/bash
# Prints what it costs to write the records of a state once and to survey them once, on a machine of 16,384 frames: with 4, 8
# and 16 sessions of 16 files each, of one page and of 60 pages. Both grow with the files and their pages; the survey also looks
# at every frame, and the writer fills the chunk frames. With a number as its argument it averages over so many rounds in place
# of 200. Needs the kit's `rt`, which proves and builds the program first; the program's own clock times the calls.
set -eu
cd "$(dirname "$0")/../crates/records_bench"
rounds=${1:-200}
rt run > /dev/null
for pages in 1 60; do
    for sessions in 4 8 16; do
        out/records_bench 16384 "$sessions" 16 "$pages" "$rounds"
    done
done
