#!/bin/bash
# The time and the instructions of a command in scripts of 512, 1,024, 2,048 and 4,096 commands, over so many files and
# sessions that the last has 256 files and 16 sessions, in rounds of two agents in turn. Where a turn's cost doesn't grow
# with files, sessions or the history, the cost of a command stays about the same.
set -u
top=$(cd -P "$(dirname "${BASH_SOURCE[0]}")/.." && pwd) || exit 1
work=$(mktemp -d) || exit 1
trap 'rm -rf "$work"' EXIT
cd "$work" || exit 1

# The program is proved and built first, where that is due.
"$top/handover" --build || exit 1
program="$top/crates/handover_cli/out/handover_cli"

# A script of so many commands: per 256 of them one session, 16 files in it, and writes and reads of these.
script_of() {
    local part file turn count
    printf 'machine 4096\nscratch 1 8\n'
    for part in $(seq 1 $(($1 / 256))); do
        printf 'round\nagent a%d\ncreate s%d\n' $((part % 2)) "$part"
        for file in $(seq 1 16); do
            printf 'memfd f%d-%d 0\nwrite f%d-%d 0 00112233\npreserve s%d %d f%d-%d\n' \
                "$part" "$file" "$part" "$file" "$part" "$file" "$part" "$file"
        done
        count=49
        for turn in $(seq 1 7); do
            for file in $(seq 1 16); do
                [ "$count" -lt 255 ] || break 2
                printf 'write f%d-%d %d 44\nread f%d-%d 0 4\n' "$part" "$file" $((turn % 4)) "$part" "$file"
                count=$((count + 2))
            done
        done
        printf 'read f%d-1 0 4\n' "$part"
    done
}

first=0
for commands in 512 1024 2048 4096; do
    script_of "$commands" >script
    best=0
    for run in 1 2 3 4 5; do
        begin=$(date +%s%N)
        "$program" run script >text || exit 1
        end=$(date +%s%N)
        [ "$best" -ne 0 ] && [ $((end - begin)) -ge "$best" ] || best=$((end - begin))
    done
    done_count=$(grep -c ' self done = ' text)
    echo "$commands commands: $((best / 1000)) us, $((best / commands)) ns a command, $done_count done"
    if command -v valgrind >/dev/null; then
        valgrind --tool=callgrind --callgrind-out-file=callgrind "$program" run script >text 2>log || exit 1
        count=$(sed -n 's/.*Collected : \([0-9]*\)$/\1/p' log)
        [ "$first" -ne 0 ] || first=$((count / commands))
        echo "$commands commands: $((count / commands)) instructions a command, $((count / commands * 100 / first)) hundredths of the first"
    fi
done
