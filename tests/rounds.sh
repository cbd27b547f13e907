#!/bin/bash
# Several rounds, files and sessions in one kernel: their exact text, and the refusals of full tables.
. "$(dirname "$0")/lib/common.sh"
need_program

head_lines='machine 1024\nscratch 1 8\nround\nagent a\n'

# A second file under a token that the session lists already.
printf "${head_lines}memfd m 0\nmemfd n 0\ncreate s\npreserve s 7 m\npreserve s 7 n\n" >"$work/script"
run_program run script
check "a token twice" 0 "0 1 1 1 reg new_file = Ok f0
0 2 1 1 f0 init memfd 0 0 [] = Ok
0 3 1 1 self done = Ok
0 4 1 2 reg new_file = Ok f1
0 5 1 2 f1 init memfd 0 0 [] = Ok
0 6 1 2 self done = Ok
0 7 1 3 reg create s = Ok s0
0 8 1 3 s0 begin s = Ok
0 9 1 3 self done = Ok
0 10 1 4 reg find_out s = Ok s0
0 11 1 4 f0 pin [] = Ok []
0 12 1 4 s0 add s 7 f0 0 = Ok
0 13 1 4 self done = Ok
0 14 1 5 reg find_out s = Ok s0
0 15 1 5 s0 add s 7 f1 0 = TokenTaken
0 16 1 5 self done = TokenTaken
" ""

# Two rounds of two agents: labels are each agent's own, its commands are numbered over the whole script, and stamps
# begin after the greatest of the kernel.
printf "${head_lines}memfd m 0\ncreate s\nround\nagent b\nmemfd m 0\npreserve s 1 m\nround\nagent a\npreserve s 2 m\nread m 0 0\nclose s\n" >"$work/script"
run_program run script
check "two rounds of one agent, and one of another between them" 0 "0 1 1 1 reg new_file = Ok f0
0 2 1 1 f0 init memfd 0 0 [] = Ok
0 3 1 1 self done = Ok
0 4 1 2 reg create s = Ok s0
0 5 1 2 s0 begin s = Ok
0 6 1 2 self done = Ok
0 7 2 1 reg new_file = Ok f1
0 8 2 1 f1 init memfd 0 0 [] = Ok
0 9 2 1 self done = Ok
0 10 2 2 reg find_out s = Ok s0
0 11 2 2 f1 pin [] = Ok []
0 12 2 2 s0 add s 1 f1 0 = Ok
0 13 2 2 self done = Ok
0 14 1 3 reg find_out s = Ok s0
0 15 1 3 f0 pin [] = Ok []
0 16 1 3 s0 add s 2 f0 0 = Ok
0 17 1 3 self done = Ok
0 18 1 4 f0 read 0 0 = Ok -
0 19 1 4 self done = Ok -
0 20 1 5 reg find_out s = Ok s0
0 21 1 5 f1 unpin = Kept []
0 22 1 5 f0 unpin = Kept []
0 23 1 5 s0 close s = Ok
0 24 1 5 reg drop_name s = Ok
0 25 1 5 self done = Ok
" ""

# What a read gives, and where it ends past the size; a label without a file.
printf "${head_lines}memfd m 0\nwrite m 0 68656c6c6f\nwrite m 7 4a\nread m 0 8\nread m 4 4\nread m 4 5\nread m 4294967295 4096\nread x 0 1\nwrite x 0 00\ncreate s\npreserve s 1 x\npreserve t 1 m\nclose t\n" >"$work/script"
run_program run script
expect "reads, and labels and names that aren't there" "1 1 Ok
1 2 Ok
1 3 Ok
1 4 Ok 68656c6c6f00004a
1 5 Ok 6f00004a
1 6 PastEnd
1 7 PastEnd
1 8 BadFd
1 9 BadFd
1 10 Ok
1 11 BadFd
1 12 NoSession
1 13 NoSession" "$(ends)"

# A file that a session has can be written in place, and its size stays.
printf "${head_lines}memfd m 0\nwrite m 0 68656c6c6f\ncreate s\npreserve s 1 m\nwrite m 4 4a4b\nwrite m 0 4a\nread m 0 5\npreserve s 2 m\nclose s\nwrite m 4 4a4b\ncreate s\npreserve s 1 m\n" >"$work/script"
run_program run script
expect "a preserved file" "1 1 Ok
1 2 Ok
1 3 Ok
1 4 Ok
1 5 SizeFrozen
1 6 Ok
1 7 Ok 4a656c6c6f
1 8 AlreadyPinned
1 9 Ok
1 10 Ok
1 11 Ok
1 12 Ok" "$(ends)"

# Full tables: the 257th file, the 17th session, the 32nd file of a session.
{
    printf "$head_lines"
    for i in $(seq 1 257); do printf 'memfd m%d 0\n' "$i"; done
    for i in $(seq 1 17); do printf 'create s%d\n' "$i"; done
    for i in $(seq 1 32); do printf 'preserve s1 %d m%d\n' "$i" "$i"; done
    printf 'close s1\ncreate s18\npreserve s18 1 m1\n'
} >"$work/script"
run_program run script
expect "the 257th file" "FilesFull" "$(ends | sed -n '257s/^1 257 //p')"
expect "256 files before it" "256" "$(ends | head -n 256 | grep -c ' Ok$')"
expect "the 17th session" "SessionsFull" "$(ends | sed -n '274s/^1 274 //p')"
expect "the 32nd file of a session" "SessionFull" "$(ends | sed -n '306s/^1 306 //p')"
expect "31 files before it" "31" "$(ends | sed -n '275,305p' | grep -c ' Ok$')"
expect "a slot that is free again" "Ok
Ok
Ok" "$(ends | sed -n '307,309s/^1 [0-9]* //p')"

finish
