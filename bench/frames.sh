#!/bin/bash
# Prints what making 16,384 frames costs beside filling as many new bytes with zeros, as the least of some rounds,
# and what takes and gives cost at orders 0 and 9.
# Needs the kit's `rt`, which proves and builds the program first; the program's own clock times the calls.
set -eu
cd "$(dirname "$0")/../crates/frames_bench"
rounds=${1:-20}
moves=${2:-1000000}
rt run > /dev/null
out/frames_bench 16384 "$rounds" "$moves"
