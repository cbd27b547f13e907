#!/bin/bash
# The time that a command takes, at 500, 1,000, 2,000 and 4,000 writes into one file. Where a run's time is
# linear in the number of its writes, the time of a command stays about the same.
set -u
top=$(cd -P "$(dirname "${BASH_SOURCE[0]}")/.." && pwd) || exit 1
work=$(mktemp -d) || exit 1
trap 'rm -rf "$work"' EXIT
cd "$work" || exit 1

# The program is proved and built first, where that is due.
"$top/handover" --build || exit 1

for writes in 500 1000 2000 4000; do
    {
        printf 'machine 64\nscratch 1 8\nround\nagent a\nmemfd m 0\n'
        for index in $(seq 1 "$writes"); do
            echo "write m $((index % 4000)) 68656c6c6f"
        done
        printf 'create s\npreserve s 7 m\nclose s\n'
    } >script
    begin=$(date +%s%N)
    "$top/crates/handover_cli/out/handover_cli" run script >text || exit 1
    end=$(date +%s%N)
    commands=$((writes + 4))
    echo "$writes writes: $(((end - begin) / 1000000)) ms, $(((end - begin) / 1000 / commands)) us a command, $(wc -l <text) lines"
done

# The instructions of one run, which are the same whatever else the machine does.
if command -v valgrind >/dev/null; then
    {
        printf 'machine 64\nscratch 1 8\nround\nagent a\nmemfd m 0\n'
        for index in $(seq 1 4000); do
            echo "write m $((index % 4000)) 00112233445566778899aabbccddeeff"
        done
    } >script
    valgrind --tool=callgrind --callgrind-out-file=callgrind \
        "$top/crates/handover_cli/out/handover_cli" run script >text 2>log || exit 1
    count=$(sed -n 's/.*Collected : \([0-9]*\)$/\1/p' log)
    echo "4000 writes of 16 bytes: $((count / 1000)) thousand instructions, $((count / 4001)) a command"
else
    echo "valgrind isn't here, so no instructions were counted"
fi
