#!/bin/bash
# Prints how many turns a second 1, 2, 4 and 8 agents take, on one object and on an object each: with `turns_table`,
# and with a `std::sync::Mutex` round each object in a Rust program that does the same.
# Needs the kit's `rt`, which proves and builds the first program, and `rustc` for the second; each times itself.
set -eu
cd "$(dirname "$0")"
turns=${1:-50000}
mutex=$(mktemp -d)
trap 'rm -r "$mutex"' EXIT
(cd ../crates/turns_bench && rt run > /dev/null)
if command -v rustc > /dev/null; then
    rustc -O --edition 2021 -o "$mutex/turns_mutex" turns_mutex.rs
fi
for agents in 1 2 4 8; do
    for objects in $(printf '%s\n' 1 "$agents" | sort -u); do
        echo "turns_table: $(../crates/turns_bench/out/turns_bench "$agents" "$objects" "$turns")"
        if [ -x "$mutex/turns_mutex" ]; then
            echo "Mutex:       $("$mutex/turns_mutex" "$agents" "$objects" "$turns")"
        fi
    done
done
