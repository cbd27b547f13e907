#!/bin/bash
# Images: what `run SCRIPT --images FILE` writes at each kexec that ends a kernel.
. "$(dirname "$0")/lib/common.sh"
need_program

head_lines='machine 64\nscratch 1 8\nround\nagent a\n'
printf "${head_lines}memfd m 0\nwrite m 0 68656c6c6f\ncreate s\npreserve s 7 m\nkexec 1 4\nround\nagent a\nopen s\nretrieve s 7 r\nread r 0 5\nfinish s\nkexec 1 9\nkexec 1 4\n" >"$work/script"

# so many bytes of a file from an offset on, as words of hexadecimal digits
bytes_at() {
    od -An -v -tx1 -j "$2" -N "$3" "$work/$1" | tr -d ' \n'
}

run_program run script
expect "without images: the status" 0 "$status"
cp "$work/out" "$work/plain"
expect "no file is made" "" "$(cd "$work" && ls k.* 2>/dev/null)"

run_program run script --images k
expect "with images: the status" 0 "$status"
expect "the same text" "" "$(cmp "$work/plain" "$work/out")"
expect "an image for each kexec that ended a kernel" "k.1 k.2" "$(cd "$work" && echo k.*)"
expect "their sizes" "262176 262176" "$(stat -c %s "$work/k.1" "$work/k.2" | tr '\n' ' ' | sed 's/ $//')"
# a word and a line feed, 64 frames, the entry frame 10, and 0
expect "the header" "4b484f494d47310a40000000000000000a000000000000000000000000000000" "$(bytes_at k.1 0 32)"
expect "the entry frame begins as a devicetree blob" "d00dfeed" "$(bytes_at k.1 $((32 + 10 * 4096)) 4)"
expect "the file's page has its bytes" "68656c6c6f000000" "$(bytes_at k.1 $((32 + 9 * 4096)) 8)"

run_program run --images=j script
expect "the name in the same word: the status" 0 "$status"
expect "the same image" "" "$(cmp "$work/k.1" "$work/j.1")"

run_program run script --images nowhere/k
expect "an image that can't be made: the status" 5 "$status"
expect "the text of the blocks before it" "$(grep -c '^0 [0-9]* 1 ' "$work/plain")" "$(grep -c . "$work/out")"

run_program run script --images k --images j
expect "an option twice: the status" 2 "$status"

if command -v dtc >/dev/null; then
    dd if="$work/k.1" of="$work/entry.dtb" bs=1 skip=$((32 + 10 * 4096)) count=4096 2>/dev/null
    expect "dtc reads the entry frame" "/dts-v1/;" "$(dtc -q -I dtb -O dts "$work/entry.dtb" 2>/dev/null | head -n 1)"
else
    skip "dtc isn't here"
fi

finish
