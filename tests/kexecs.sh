#!/bin/bash
# Kernels that follow each other: the exact text of what a kexec freezes and the next kernel retrieves.
. "$(dirname "$0")/lib/common.sh"
need_program

head_lines='machine 64\nscratch 1 8\nround\nagent a\n'
first_round="${head_lines}memfd m 0\nwrite m 0 68656c6c6f\ncreate s\npreserve s 7 m\n"

first_text='0 1 1 1 reg new_file = Ok f0
0 2 1 1 f0 init memfd 0 0 [] = Ok
0 3 1 1 self done = Ok
0 4 1 2 pool take 0 1 = Got [9]
0 5 1 2 f0 write 0 68656c6c6f [9] = Ok
0 6 1 2 self done = Ok
0 7 1 3 reg create s = Ok s0
0 8 1 3 s0 begin s = Ok
0 9 1 3 self done = Ok
0 10 1 4 reg find_out s = Ok s0
0 11 1 4 f0 pin [] = Ok [9]
0 12 1 4 pool mark 0 [9] = Ok
0 13 1 4 s0 add s 7 f0 0 = Ok
0 14 1 4 self done = Ok
'

kexec_text='0 15 0 1 pool take 0 6 = Got [10,11,12,13,14,15]
0 16 0 1 self done = Ok
'

open_text='1 1 1 5 reg open s = Ok s16
1 2 1 5 s16 open s = Ok
1 3 1 5 self done = Ok
1 4 1 6 reg find_in s = Ok s16
1 5 1 6 f0 open_held = Ok
1 6 1 6 s16 take s 7 = Ok f0
1 7 1 6 self done = Ok
'

# The plain path: a file outlives its kernel.
printf "${first_round}kexec 1 4\nround\nagent a\nopen s\nretrieve s 7 r\nread r 0 5\nfinish s\n" >"$work/script"
run_program run script
check "a file that outlives its kernel" 0 "$first_text$kexec_text${open_text}1 8 1 7 f0 read 0 5 = Ok 68656c6c6f
1 9 1 7 self done = Ok 68656c6c6f
1 10 1 8 reg find_in s = Ok s16
1 11 1 8 f0 finish = Kept
1 12 1 8 s16 finish s = Ok
1 13 1 8 reg drop_in s = Ok
1 14 1 8 self done = Ok
" ""

# Bytes that are written after the preserve are carried.
printf "${first_round}write m 0 4a\nkexec 1 4\nround\nagent a\nopen s\nretrieve s 7 r\nread r 0 5\n" >"$work/script"
run_program run script
check "bytes written after the preserve" 0 "${first_text}0 15 1 5 f0 write 0 4a [] = Ok
0 16 1 5 self done = Ok
0 17 0 1 pool take 0 6 = Got [10,11,12,13,14,15]
0 18 0 1 self done = Ok
1 1 1 6 reg open s = Ok s16
1 2 1 6 s16 open s = Ok
1 3 1 6 self done = Ok
1 4 1 7 reg find_in s = Ok s16
1 5 1 7 f0 open_held = Ok
1 6 1 7 s16 take s 7 = Ok f0
1 7 1 7 self done = Ok
1 8 1 8 f0 read 0 5 = Ok 4a656c6c6f
1 9 1 8 self done = Ok 4a656c6c6f
" ""

# A file without a byte takes no list frame; its size can't change while its session isn't finished.
printf "${head_lines}memfd m 0\ncreate s\npreserve s 1 m\nkexec 1 4\nround\nagent a\nopen s\nretrieve s 1 r\nread r 0 0\nwrite r 0 01\nfinish s\nwrite r 0 01\n" >"$work/script"
run_program run script
check "a file without a byte" 0 "0 1 1 1 reg new_file = Ok f0
0 2 1 1 f0 init memfd 0 0 [] = Ok
0 3 1 1 self done = Ok
0 4 1 2 reg create s = Ok s0
0 5 1 2 s0 begin s = Ok
0 6 1 2 self done = Ok
0 7 1 3 reg find_out s = Ok s0
0 8 1 3 f0 pin [] = Ok []
0 9 1 3 s0 add s 1 f0 0 = Ok
0 10 1 3 self done = Ok
0 11 0 1 pool take 0 5 = Got [9,10,11,12,13]
0 12 0 1 self done = Ok
1 1 1 4 reg open s = Ok s16
1 2 1 4 s16 open s = Ok
1 3 1 4 self done = Ok
1 4 1 5 reg find_in s = Ok s16
1 5 1 5 f0 open_held = Ok
1 6 1 5 s16 take s 1 = Ok f0
1 7 1 5 self done = Ok
1 8 1 6 f0 read 0 0 = Ok -
1 9 1 6 self done = Ok -
1 10 1 7 f0 write 0 01 [] = SizeFrozen
1 11 1 7 self done = SizeFrozen
1 12 1 8 reg find_in s = Ok s16
1 13 1 8 f0 finish = Kept
1 14 1 8 s16 finish s = Ok
1 15 1 8 reg drop_in s = Ok
1 16 1 8 self done = Ok
1 17 1 9 pool take 0 1 = Got [9]
1 18 1 9 f0 write 0 01 [9] = Ok
1 19 1 9 self done = Ok
" ""

# A token gives its file once, and names and tokens that aren't there are refused.
printf "${first_round}kexec 1 4\nround\nagent a\nretrieve s 7 o\nopen s\nopen s\nretrieve s 7 r\nretrieve s 7 q\nretrieve s 8 p\nretrieve t 7 n\nread q 0 0\n" >"$work/script"
run_program run script
check "a token that was taken, and one that isn't there" 0 "$first_text${kexec_text}1 1 1 5 reg find_in s = NoSession
1 2 1 5 self done = NoSession
1 3 1 6 reg open s = Ok s16
1 4 1 6 s16 open s = Ok
1 5 1 6 self done = Ok
1 6 1 7 reg open s = AlreadyOpen
1 7 1 7 self done = AlreadyOpen
1 8 1 8 reg find_in s = Ok s16
1 9 1 8 f0 open_held = Ok
1 10 1 8 s16 take s 7 = Ok f0
1 11 1 8 self done = Ok
1 12 1 9 reg find_in s = Ok s16
1 13 1 9 s16 take s 7 = AlreadyTaken
1 14 1 9 self done = AlreadyTaken
1 15 1 10 reg find_in s = Ok s16
1 16 1 10 s16 take s 8 = NoToken
1 17 1 10 self done = NoToken
1 18 1 11 reg find_in t = NoSession
1 19 1 11 self done = NoSession
1 20 1 12 self done = BadFd
" ""

# A file that isn't finished can't be preserved again.
printf "${first_round}kexec 1 4\nround\nagent a\nopen s\nretrieve s 7 r\ncreate t\npreserve t 1 r\n" >"$work/script"
run_program run script
check "a file that isn't finished" 0 "$first_text$kexec_text${open_text}1 8 1 7 reg create t = Ok s0
1 9 1 7 s0 begin t = Ok
1 10 1 7 self done = Ok
1 11 1 8 reg find_out t = Ok s0
1 12 1 8 f0 pin [] = NotFinished
1 13 1 8 s0 add t 1 f0 0 = NotFinished
1 14 1 8 self done = NotFinished
" ""

# A finish gives the frames of a file back that was never retrieved: they are the first to be taken again.
printf "${first_round}kexec 1 4\nround\nagent a\nopen s\nfinish s\nmemfd n 0\nwrite n 0 01\nopen s\n" >"$work/script"
run_program run script
check "a file that was never retrieved" 0 "$first_text${kexec_text}1 1 1 5 reg open s = Ok s16
1 2 1 5 s16 open s = Ok
1 3 1 5 self done = Ok
1 4 1 6 reg find_in s = Ok s16
1 5 1 6 f0 finish = Gone [9]
1 6 1 6 pool give 0 [9] = Ok
1 7 1 6 reg free_file f0 = Ok
1 8 1 6 s16 finish s = Ok
1 9 1 6 reg drop_in s = Ok
1 10 1 6 self done = Ok
1 11 1 7 reg new_file = Ok f0
1 12 1 7 f0 init memfd 0 0 [] = Ok
1 13 1 7 self done = Ok
1 14 1 8 pool take 0 1 = Got [9]
1 15 1 8 f0 write 0 01 [9] = Ok
1 16 1 8 self done = Ok
1 17 1 9 reg open s = NoSession
1 18 1 9 self done = NoSession
" ""

# Sessions that nobody finishes are given up at the next kexec: the third kernel has all its frames free, and they are
# zeros.
printf "${first_round}kexec 1 4\nkexec 2 4\nround\nagent a\nopen s\nmemfd n 0\nwrite n 1 01\nread n 0 2\n" >"$work/script"
run_program run script
check "a session that nobody finished" 0 "$first_text${kexec_text}1 1 0 2 pool take 0 4 = Got [10,11,12,13]
1 2 0 2 self done = Ok
2 1 1 5 reg open s = NoSession
2 2 1 5 self done = NoSession
2 3 1 6 reg new_file = Ok f0
2 4 1 6 f0 init memfd 0 0 [] = Ok
2 5 1 6 self done = Ok
2 6 1 7 pool take 0 1 = Got [9]
2 7 1 7 f0 write 1 01 [9] = Ok
2 8 1 7 self done = Ok
2 9 1 8 f0 read 0 2 = Ok 0001
2 10 1 8 self done = Ok 0001
" ""

# A program that doesn't fit scratch area 0, and records that find too few free frames: nothing changes.
printf "${first_round}kexec 1 9\nround\nagent a\nread m 0 5\n" >"$work/script"
run_program run script
check "a program that is too large" 0 "${first_text}0 15 0 1 self done = ScratchSmall 9 8
0 16 1 5 f0 read 0 5 = Ok 68656c6c6f
0 17 1 5 self done = Ok 68656c6c6f
" ""

printf "machine 32\nscratch 1 26\nround\nagent a\nmemfd m 0\nwrite m 0 68656c6c6f\ncreate s\npreserve s 7 m\nkexec 1 4\nround\nagent a\nread m 0 5\n" >"$work/script"
run_program run script
check "too few frames for the records" 0 "$(printf '%s' "$first_text" | sed 's/\[9\]/[27]/')
0 15 0 1 pool take 0 6 = NoFrames
0 16 0 1 self done = NoFrames 6
0 17 1 5 f0 read 0 5 = Ok 68656c6c6f
0 18 1 5 self done = Ok 68656c6c6f
" ""

# A kexec after which nothing follows is done to its end; a kernel without a session carries none.
printf "machine 64\nscratch 1 8\nkexec 1 4\n" >"$work/script"
run_program run script
check "a kexec alone" 0 "0 1 0 1 pool take 0 4 = Got [9,10,11,12]
0 2 0 1 self done = Ok
" ""

# Eight kexecs: a file is carried through two of them, finished, and given up with its kernel at the third.
{
  printf "${first_round}kexec 1 4\nround\nagent a\nopen s\nretrieve s 7 r\nfinish s\nwrite r 0 4a\ncreate t\npreserve t 8 r\n"
  printf 'kexec 2 4\nround\nagent a\nopen t\nretrieve t 8 q\nread q 0 5\nfinish t\nkexec 3 4\nround\nagent a\nopen t\n'
  printf 'kexec 4 1\nkexec 5 2\nkexec 6 3\nkexec 7 4\nkexec 8 5\nround\nagent a\nread q 0 0\n'
} >"$work/script"
run_program run script
expect "eight kexecs: the status" 0 "$status"
expect "its bytes in the third kernel" '2 8 1 13 f0 read 0 5 = Ok 4a656c6c6f' "$(grep '^2 .* f0 read ' "$work/out")"
expect "it is given up in the fourth" '3 1 1 15 reg open t = NoSession' "$(grep '^3 .* reg open ' "$work/out")"
expect "all frames are free there" '3 3 0 4 pool take 0 4 = Got [9,10,11,12]' "$(grep '^3 .* pool take ' "$work/out")"
expect "the ninth kernel" '8 1 1 16 self done = BadFd' "$(tail -n 1 "$work/out")"

finish
