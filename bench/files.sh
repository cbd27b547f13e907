#!/bin/bash
# Prints what a byte costs that is written into a file in pieces of 256 bytes and read back, beside a plain Vec of bytes: at
# orders 0, 4 and 9, with files of 1, 4 and 16 MiB, as the least of some rounds. A read costs its bytes, whatever the file's
# size; a write costs its bytes and the runs that it takes, each of which is filled with zeros first. Larger files fit the
# caches less, as the Vec shows.
# Needs the kit's `rt`, which proves and builds the program first; the program's own clock times the calls.
set -eu
cd "$(dirname "$0")/../crates/files_bench"
rounds=${1:-10}
rt run -- check > /dev/null
for order in 0 4 9; do
    for mebibytes in 1 4 16; do
        out/files_bench "$order" $((mebibytes * 4096)) "$rounds"
    done
done
