#!/bin/bash
# The time of writing the image of 16,384 frames, 64 MiB, at a kexec: a run with --images less the same run without, beside
# a cp of that image, which is in memory then. And the time of reading it and booting from it: a whole run of resume, whose
# script reads a byte. The best of five runs each. First with one small file and all other frames zeros, then with files
# that have 60 MiB without a zero.
set -u
top=$(cd -P "$(dirname "${BASH_SOURCE[0]}")/.." && pwd) || exit 1
work=$(mktemp -d) || exit 1
trap 'rm -rf "$work"' EXIT
cd "$work" || exit 1

# The program is proved and built first, where that is due.
"$top/handover" --build || exit 1
program="$top/crates/handover_cli/out/handover_cli"

# The best time of five runs, in microseconds.
best_of() {
    local run begin end best=0
    for run in 1 2 3 4 5; do
        begin=$(date +%s%N)
        "$@" >text || exit 1
        end=$(date +%s%N)
        [ "$best" -ne 0 ] && [ $((end - begin)) -ge "$best" ] || best=$((end - begin))
    done
    echo $((best / 1000))
}

# Prints the times of an image: what a script of so many files of 16 MiB at most, with so many bytes in all, leaves.
times_of() {
    local title=$1 files=$2 bytes=$3 file without with copied resumed
    {
        printf 'machine 16384\nscratch 1 8\nround\nagent a\ncreate s\n'
        for file in $(seq 1 "$files"); do
            printf 'memfd f%d 0\nfill f%d 0 %d 7\npreserve s %d f%d\n' "$file" "$file" "$((bytes / files))" "$file" "$file"
        done
        printf 'kexec 1 4\n'
    } >script
    printf 'round\nagent a\nopen s\nretrieve s 1 r\nread r 0 1\n' >next
    without=$(best_of "$program" run script)
    with=$(best_of "$program" run script --images image)
    copied=$(best_of cp image.1 copy)
    resumed=$(best_of "$program" resume image.1 next)
    tail -n 1 text | grep -q 'self done = Ok 07$' || echo "the file wasn't read: $(tail -n 1 text)"
    echo "an image of $(stat -c %s image.1) bytes, $title: written in $((with - without)) us, read and booted in $resumed us; cp of it: $copied us"
}

times_of 'one page of a file' 1 4096
times_of '60 MiB of files' 4 62914560
