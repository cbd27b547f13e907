#!/bin/bash
# `resume IMAGE SCRIPT`: a run that goes on from an image, and images that are refused, each with the first place whose
# rules break.
. "$(dirname "$0")/lib/common.sh"
need_program

first='machine 64\nscratch 1 8\nround\nagent a\nmemfd m 0\nwrite m 0 68656c6c6f\ncreate s\npreserve s 7 m\n'
second='round\nagent a\nopen s\nretrieve s 7 r\nread r 0 5\nfinish s\n'
printf "${first}kexec 1 4\n${second}" >"$work/whole"
printf "${first}kexec 1 4\n" >"$work/first"
printf "$second" >"$work/second"

run_program run whole
expect "both kernels in one run: the status" 0 "$status"
# The lines of the second kernel, as those of a kernel 0 whose agent's commands begin with 1.
sed -n 's/^1 \([0-9]*\) \([0-9]*\) \([0-9]*\) /\1 \2 \3 /p' "$work/out" |
    awk '{ $3 = $3 - 4; print "0 " $0 }' >"$work/due"
expect "its lines" 14 "$(grep -c . "$work/due")"

run_program run first --images k
expect "the first kernel alone: the status" 0 "$status"
expect "its image" "k.1" "$(cd "$work" && echo k.*)"

run_program resume k.1 second
expect "resumed: the status" 0 "$status"
expect "resumed: the lines of the second kernel" "" "$(cmp "$work/due" "$work/out")"
run_program resume k.1 second --images j
expect "resumed with images: the status" 0 "$status"
expect "resumed with images: the same lines" "" "$(cmp "$work/due" "$work/out")"
expect "no kernel ended: no image" "" "$(cd "$work" && ls j.* 2>/dev/null)"

# From an image to an image, and on from that.
printf 'kexec 2 5\n' >"$work/next"
run_program resume k.1 next --images n
expect "the next kexec resumed: the status" 0 "$status"
expect "its text" "self done = Ok" "$(cut -d ' ' -f 5- "$work/out" | tail -n 1)"
expect "its image is named 1" "n.1" "$(cd "$work" && echo n.*)"
printf 'round\nagent a\nopen s\n' >"$work/open"
run_program resume n.1 open
check "a session that nobody finished isn't carried on" 0 "0 1 1 1 reg open s = NoSession${newline}0 2 1 1 self done = NoSession$newline" ""

# The greatest token and the longest name are carried in an image.
name=$(printf 'n%.0s' $(seq 63))
printf "machine 64\nscratch 1 8\nround\nagent a\nmemfd m 0\nwrite m 0 2a\ncreate $name\npreserve $name 18446744073709551615 m\nkexec 1 4\n" >"$work/long"
printf "round\nagent a\nopen $name\nretrieve $name 18446744073709551615 r\nread r 0 1\n" >"$work/longer"
run_program run long --images l
expect "the longest name: the status" 0 "$status"
run_program resume l.1 longer
expect "the greatest token under the longest name" "Ok 2a" "$(ends | tail -n 1 | cut -d ' ' -f 3-)"

# A script that isn't read: its refusal comes before the image is opened.
printf "machine 64\n$second" >"$work/fresh"
run_program resume k.1 fresh
check "a machine line" 1 "script refused: line 1: place$newline" ""
run_program resume nothing fresh
check "a refused script and no image" 1 "script refused: line 1: place$newline" ""
run_program resume nothing second
check "no image" 4 "" "$read_fault"
run_program resume k.1 nothing
check "no script" 4 "" "$read_fault"
run_program resume k.1
check "no script's name" 2 "usage: handover run SCRIPT [--images FILE] [--summary TEXT] | resume IMAGE SCRIPT [--images FILE] [--summary TEXT] | audit SCRIPT HISTORY | inspect IMAGE | gen NUMBER$newline" ""

# refused NAME PLACE: the image `broken` is refused at this place.
refused() {
    run_program resume broken second
    check "$1" 6 "image refused: $2$newline" ""
}

size=$(stat -c %s "$work/k.1")
expect "the image's size" 262176 "$size"
head -c 31 "$work/k.1" >"$work/broken"
refused "31 bytes" header
head -c 0 "$work/k.1" >"$work/broken"
refused "no bytes" header
head -c 32 "$work/k.1" >"$work/broken"
refused "the header alone" short
head -c $((32 + 11 * 4096)) "$work/k.1" >"$work/broken"
refused "the frames up to the entry frame" short
head -c $((size - 1)) "$work/k.1" >"$work/broken"
refused "a byte too few" short
{ cat "$work/k.1" && printf x; } >"$work/broken"
refused "a byte too many" extra
{ cat "$work/k.1" && head -c 70000000 /dev/zero; } >"$work/broken"
refused "more bytes than any image has" extra
head -c 70000000 /dev/zero >"$work/broken"
refused "more bytes than any image has, and no header" header
cp "$work/k.1" "$work/broken"
run_program resume broken second
expect "all bytes: the status" 0 "$status"

# The frames of this image: P has the file's page; E is the entry frame, S, F and L have the records, C and D the bitmaps.
frames=$(sed -n 's/.* pool take 0 6 = Got \[\(.*\)\]$/\1/p' <(run_program run first && cat "$work/out"))
IFS=, read -r E S F L C D <<<"$frames"
P=$(sed -n 's/.* pool take 0 1 = Got \[\(.*\)\]$/\1/p' "$work/out")
expect "the frames" "yes" "$([ -n "$D" ] && [ -n "$P" ] && echo yes)"

# patched OFFSET HEX: `broken` is the image with other bytes from an offset on.
patched() {
    cp "$work/k.1" "$work/broken"
    printf "$(sed 's/../\\x&/g' <<<"$2")" | dd of="$work/broken" bs=1 seek="$1" conv=notrunc 2>/dev/null
}

# The offset of a byte of a frame.
at() {
    echo $((32 + $1 * 4096 + $2))
}

# A number of 8 bytes, the lowest first.
low_first() {
    local hex
    hex=$(printf '%016x' "$1")
    fold -w 2 <<<"$hex" | tac | tr -d '\n'
}

patched 16 "$(low_first 0)"
refused "the entry number 0" entry
patched 16 "$(low_first 64)"
refused "the entry number 64" entry
patched "$(at "$E" 0)" 00
refused "the entry frame's first byte 0" "tree header"
# The update number is the property of 8 bytes whose value is 1.
hex=$(od -An -v -tx1 -j "$(at "$E" 0)" -N 4096 "$work/k.1" | tr -d ' \n')
before=${hex%%00000003000000080000????0000000000000001*}
patched "$(at "$E" $((${#before} / 2 + 12)))" 0000000000000000
refused "the update number 0" luo
patched "$(at "$C" 8)" "$(low_first 8)"
refused "the first chunk has 8 bitmaps" "chain $C"
patched "$(at "$D" 0)" "$(low_first 64)"
refused "the second chunk's next is 64" "chain 64"
patched "$(at "$D" 0)" "$(low_first "$C")"
refused "the second chunk's next is the first" "chain $C"

patched "$(at "$S" 8)" "$(low_first 17)"
refused "the session frame has 17 slots" "record $S"
patched "$(at "$F" $((128 + 24)))" "$(low_first 4097)"
refused "the file has 4097 bytes" "record $F"
patched "$(at "$L" 16)" "$(low_first 64)"
refused "the file's run begins at 64" "record $L"

# The bit of a frame in the first bitmap, that of order 0.
bits_of() {
    od -An -v -tu1 -j "$(at "$C" $((48 + $1 / 8)))" -N 1 "$work/k.1" | tr -d ' '
}
patched "$(at "$C" $((48 + P / 8)))" "$(printf '%02x' $(($(bits_of "$P") & ~(1 << (P % 8)))))"
refused "the bit of the file's frame is clear" "owner $P"
patched "$(at "$C" 48)" "$(printf '%02x' $(($(bits_of 3) | 8)))"
refused "the bit of frame 3 is set" "owner 3"

# Zeros stand past the end of a file that an image carried, when it gets longer again.
printf 'round\nagent a\nopen s\nretrieve s 7 r\nfinish s\ntruncate r 2\ntruncate r 9\nread r 0 9\n' >"$work/longer"
run_program resume k.1 longer
expect "zeros past the old size" "Ok 686500000000000000" "$(ends | tail -n 1 | cut -d ' ' -f 3-)"

finish
