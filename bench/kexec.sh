#!/bin/bash
# The time of a kexec, with the boot of the next kernel, on machines of 32, 4,096 and 16,384 frames that are full of files, beside
# one pass of a C loop over the bytes of so many frames. The first kexec carries all files; seven more, in one script,
# carry nothing. The same script without a kexec is taken off. Where a kexec costs its frames and files, its time grows
# with these and no faster.
set -u
top=$(cd -P "$(dirname "${BASH_SOURCE[0]}")/.." && pwd) || exit 1
work=$(mktemp -d) || exit 1
trap 'rm -rf "$work"' EXIT
cd "$work" || exit 1

# The program is proved and built first, where that is due.
"$top/handover" --build || exit 1
program="$top/crates/handover_cli/out/handover_cli"

# One pass over the bytes of a file, which are in memory: it prints their sum and how many microseconds the pass took.
cat >pass.c <<'EOF'
#include <stdio.h>
#include <stdlib.h>
#include <time.h>
int main(int argc, char **argv) {
    FILE *file = fopen(argv[1], "rb");
    fseek(file, 0, SEEK_END);
    long size = ftell(file);
    rewind(file);
    unsigned char *bytes = malloc(size);
    if (!bytes || fread(bytes, 1, size, file) != (size_t)size) return 1;
    struct timespec begin, end;
    clock_gettime(CLOCK_MONOTONIC, &begin);
    unsigned long sum = 0;
    for (long at = 0; at < size; at++) sum += bytes[at];
    clock_gettime(CLOCK_MONOTONIC, &end);
    printf("%lu %ld\n", sum, (end.tv_sec - begin.tv_sec) * 1000000 + (end.tv_nsec - begin.tv_nsec) / 1000);
}
EOF
cc -O2 -o pass pass.c || exit 1

# A script for a machine of so many frames and so many kexecs, full of files: as many runs of the greatest order as there
# are, in files of at most 16 MiB, and files of single pages for what is left but 40 frames at most, which the records take.
script_of() {
    local frames=$1 kexecs=$2 runs=$(($1 / 512 - 1)) file=0 pages kexec
    [ "$runs" -ge 0 ] || runs=0
    pages=$((frames - runs * 512 - 9 - (frames < 100 ? 8 : 40)))
    printf 'machine %d\nscratch 1 8\nround\nagent a\ncreate s\n' "$frames"
    while [ "$runs" -gt 0 ]; do
        file=$((file + 1))
        printf 'memfd f%d 9\nfill f%d 0 %d %d\npreserve s %d f%d\n' "$file" "$file" $(((runs < 8 ? runs : 8) * 2097152)) "$file" "$file" "$file"
        runs=$((runs - 8))
    done
    file=$((file + 1))
    printf 'memfd f%d 0\nfill f%d 0 %d %d\npreserve s %d f%d\n' "$file" "$file" $((pages * 4096)) "$file" "$file" "$file"
    for kexec in $(seq 1 "$kexecs"); do
        printf 'kexec %d 4\n' "$kexec"
    done
}

# The best time of five runs, in microseconds.
best_of() {
    local run begin end best=0
    for run in 1 2 3 4 5; do
        begin=$(date +%s%N)
        "$@" >text || exit 1
        end=$(date +%s%N)
        [ "$best" -ne 0 ] && [ $((end - begin)) -ge "$best" ] || best=$((end - begin))
    done
    echo $((best / 1000))
}

for frames in 32 4096 16384; do
    script_of "$frames" 0 >script
    none=$(best_of "$program" run script)
    script_of "$frames" 1 >script
    one=$(best_of "$program" run script)
    grep -q '0 1 self done = Ok' text || echo "the kexec wasn't done: $(tail -n 1 text)"
    script_of "$frames" 8 >script
    eight=$(best_of "$program" run script)
    head -c $((frames * 4096)) /dev/urandom >bytes
    pass=$(for run in 1 2 3 4 5; do ./pass bytes; done | awk '{ print $2 }' | sort -n | head -n 1)
    echo "$frames frames full of files: a kexec that carries them $((one - none)) us, one that carries nothing $(((eight - one) / 7)) us; one pass over so many bytes $pass us"
done
