#!/bin/bash
# Whole files of all orders: holes, sizes, positions, runs that are given back, and files that a kexec carries.
. "$(dirname "$0")/lib/common.sh"
need_program

head_lines='machine 64\nscratch 1 8\nround\nagent a\n'

# The lines of one command, by its agent and number, without kernel, stamp, agent and number.
command_lines() {
    sed -n "s/^[0-9]* [0-9]* $1 $2 //p" "$work/out"
}

# Too few frames for the holes of a file that is preserved: nothing is taken, and the one free frame stays free.
printf 'machine 32\nscratch 1 8\nround\nagent a\nmemfd a 0\nfill a 0 90112 1\nmemfd b 0\ntruncate b 8192\ncreate s\npreserve s 1 b\nmemfd c 0\nwrite c 0 01\n' >"$work/script"
run_program run script
expect "holes and one free frame: the stamps" "0 15 1 6 reg find_out s = Ok s0
0 16 1 6 pool take 0 2 = NoFrames
0 17 1 6 f1 pin [] = NoFrames 2
0 18 1 6 s0 add s 1 f1 0 = NoFrames
0 19 1 6 self done = NoFrames" "$(grep '^0 1[5-9] ' "$work/out")"
expect "holes and one free frame: the write after it" "1 1 Ok
1 2 Ok
1 3 Ok
1 4 Ok
1 5 Ok
1 6 NoFrames
1 7 Ok
1 8 Ok" "$(ends)"

# An empty file is preserved without a run and carried; its size is fixed until the session ends.
printf "${head_lines}memfd m 0\ncreate s\npreserve s 1 m\nkexec 1 4\nround\nagent a\nopen s\nretrieve s 1 r\nread r 0 0\ntruncate r 1\nfinish s\ntruncate r 1\n" >"$work/script"
run_program run script
expect "an empty file: preserve" "reg find_out s = Ok s0
f0 pin [] = Ok []
s0 add s 1 f0 0 = Ok
self done = Ok" "$(command_lines 1 3)"
expect "an empty file: the kexec" "pool take 0 5 = Got [9,10,11,12,13]
self done = Ok" "$(command_lines 0 1)"
expect "an empty file: in the next kernel" "self done = Ok
self done = Ok
self done = Ok -
self done = SizeFrozen
self done = Ok
self done = Ok" "$(sed -n 's/^1 [0-9]* 1 [0-9]* \(self done\)/\1/p' "$work/out")"

# The size of a held file, and the runs that a shorter size gives back after the session's end.
printf "${head_lines}memfd m 0\nwrite m 0 68656c6c6f\ncreate s\npreserve s 7 m\nkexec 1 4\nround\nagent a\nopen s\nretrieve s 7 r\ntruncate r 2\ncreate t\npreserve t 1 r\nfinish s\ntruncate r 0\n" >"$work/script"
run_program run script
expect "a held file: truncate" "f0 truncate 2 = SizeFrozen
self done = SizeFrozen" "$(command_lines 1 7)"
expect "a held file: preserve" "reg find_out t = Ok s0
f0 pin [] = NotFinished
s0 add t 1 f0 0 = NotFinished
self done = NotFinished" "$(command_lines 1 9)"
expect "a held file: truncate after the finish" "f0 truncate 0 = Ok [9]
pool give 0 [9] = Ok
self done = Ok" "$(command_lines 1 11)"

# Runs are aligned: of 1024 frames only two runs of order 9 are, and these hold frame 0 and a scratch frame.
printf 'machine 1024\nscratch 512 1\nround\nagent a\nmemfd a 9\nwrite a 0 00\nmemfd b 8\nwrite b 0 00\n' >"$work/script"
run_program run script
expect "no aligned run of order 9" "pool take 9 1 = NoFrames
f0 write 0 00 [] = NoFrames 1
self done = NoFrames" "$(command_lines 1 2)"
case $(command_lines 1 4 | head -n 1) in
'pool take 8 1 = Got [256]' | 'pool take 8 1 = Got [768]') pass "an aligned run of order 8" ;;
*) fail "an aligned run of order 8: $(command_lines 1 4 | head -n 1)" ;;
esac

# Zeros stand past a cut, and positions are at most the size.
printf "${head_lines}memfd m 0\nwrite m 0 01020304\ntruncate m 2\ntruncate m 4\nread m 0 4\nread m 0 5\nseek m 4\nseek m 5\ntell m\ntruncate m 3\ntell m\n" >"$work/script"
run_program run script
expect "zeros behind a cut" "1 1 Ok
1 2 Ok
1 3 Ok
1 4 Ok
1 5 Ok 01020000
1 6 PastEnd
1 7 Ok
1 8 PastEnd
1 9 Ok @4
1 10 Ok
1 11 Ok @3" "$(ends)"

# The largest file: one run of the greatest order at its end, and the greatest size.
printf 'machine 4096\nscratch 1 8\nround\nagent a\nmemfd m 9\nwrite m 16777215 00\nwrite m 16777216 00\ntruncate m 16777216\ntruncate m 16777217\nfill m 0 4294967295 1\nread m 16777215 1\nread m 16777215 2\n' >"$work/script"
run_program run script
expect "the largest file" "1 1 Ok
1 2 Ok
1 3 TooBig
1 4 Ok
1 5 TooBig
1 6 TooBig
1 7 Ok 00
1 8 PastEnd" "$(ends)"

# Full tables: 16 sessions, 31 files in one of them, 256 files.
{
    printf '%b' "$head_lines"
    for n in $(seq 0 16); do printf 'create s%d\n' "$n"; done
    for n in $(seq 1 32); do printf 'memfd m%d 0\npreserve s0 %d m%d\n' "$n" "$n" "$n"; done
    printf 'preserve s1 99 m1\n'
    for n in $(seq 33 257); do printf 'memfd m%d 0\n' "$n"; done
} >"$work/script"
run_program run script
expect "full tables" "1 17 SessionsFull
1 81 SessionFull
1 82 AlreadyPinned
1 307 FilesFull" "$(ends | grep -v ' Ok$')"

# A write and a fill over several runs, with a hole before them; a hole reads as zeros and takes no run.
printf "${head_lines}memfd m 1\nwrite m 16382 0102030405\nread m 16380 7\nread m 0 4\nfill m 8190 4 255\nread m 8188 8\nclosefd m\n" >"$work/script"
run_program run script
expect "runs and a hole" "pool take 1 2 = Got [10,12]
f0 write 16382 0102030405 [10,12] = Ok
self done = Ok
f0 read 16380 7 = Ok 00000102030405
self done = Ok 00000102030405
f0 read 0 4 = Ok 00000000
self done = Ok 00000000
pool take 1 1 = Got [14]
f0 fill 8190 4 255 [14] = Ok
self done = Ok
f0 read 8188 8 = Ok 0000ffffffff0000
self done = Ok 0000ffffffff0000" "$(for n in 2 3 4 5 6; do command_lines 1 $n; done)"

# Two files of several runs, one of them with holes, carried through two kernels with their positions, and the runs that
# a label's end gives back in the third.
printf 'machine 256\nscratch 1 8\nround\nagent a\nmemfd m 2\nfill m 0 40000 7\nseek m 5\nmemfd n 0\nwrite n 12290 aabb\ncreate s\npreserve s 1 m\npreserve s 2 n\nkexec 1 4\nround\nagent a\nopen s\nretrieve s 1 p\nread p 39998 2\ntell p\nretrieve s 2 q\nread q 12288 4\nwrite q 0 01\nfinish s\ncreate t\npreserve t 3 p\npreserve t 4 q\nkexec 2 4\nround\nagent a\nopen t\nretrieve t 4 x\nread x 12288 4\nread x 0 2\nretrieve t 3 y\nfinish t\nread y 0 2\ntruncate y 40001\nread y 39999 2\nclosefd y\n' >"$work/script"
run_program run script
expect "files of several runs over two kexecs" "1 11 Ok 0707
1 12 Ok @5
1 14 Ok 0000aabb
1 22 Ok 0000aabb
1 23 Ok 0100
1 26 Ok 0707
1 28 Ok 0700" "$(sed -n 's/^[12] [0-9]* \(1 [0-9]*\) self done = Ok \(.*\)/\1 Ok \2/p' "$work/out" | grep -v ' Ok$')"
expect "no command of these is refused" "" "$(grep 'self done = ' "$work/out" | grep -v 'self done = Ok')"

finish
