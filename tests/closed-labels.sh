#!/bin/bash
# Labels that end: the text where a session keeps the file and where nothing does, and what stays of the label.
. "$(dirname "$0")/lib/common.sh"
need_program

head_lines='machine 64\nscratch 1 8\nround\nagent a\n'

# A label ends while a session has its file. The session's end gives the file up then, and its name is free again.
printf "${head_lines}memfd m 0\nwrite m 0 68656c6c6f\ncreate s\npreserve s 7 m\nclosefd m\nclose s\ncreate s\n" >"$work/script"
run_program run script
check "a label that ends before its file's session" 0 "0 1 1 1 reg new_file = Ok f0
0 2 1 1 f0 init memfd 0 0 [] = Ok
0 3 1 1 self done = Ok
0 4 1 2 pool take 0 1 = Got [9]
0 5 1 2 f0 write 0 68656c6c6f [9] = Ok
0 6 1 2 self done = Ok
0 7 1 3 reg create s = Ok s0
0 8 1 3 s0 begin s = Ok
0 9 1 3 self done = Ok
0 10 1 4 reg find_out s = Ok s0
0 11 1 4 f0 pin [] = Ok [9]
0 12 1 4 pool mark 0 [9] = Ok
0 13 1 4 s0 add s 7 f0 0 = Ok
0 14 1 4 self done = Ok
0 15 1 5 f0 close_fd = Kept
0 16 1 5 self done = Ok
0 17 1 6 reg find_out s = Ok s0
0 18 1 6 f0 unpin = Gone [9]
0 19 1 6 pool unmark 0 [9] = Ok
0 20 1 6 pool give 0 [9] = Ok
0 21 1 6 reg free_file f0 = Ok
0 22 1 6 s0 close s = Ok
0 23 1 6 reg drop_name s = Ok
0 24 1 6 self done = Ok
0 25 1 7 reg create s = Ok s0
0 26 1 7 s0 begin s = Ok
0 27 1 7 self done = Ok
" ""

# A label ends and nothing else has its file: the run is free again, and the number is given to the next file. A file
# without a run gives none back.
printf "${head_lines}memfd m 0\nwrite m 0 68\nclosefd m\nmemfd n 0\nclosefd n\nmemfd k 0\nwrite k 0 68\nread k 0 1\n" >"$work/script"
run_program run script
check "a label that ends with its file" 0 "0 1 1 1 reg new_file = Ok f0
0 2 1 1 f0 init memfd 0 0 [] = Ok
0 3 1 1 self done = Ok
0 4 1 2 pool take 0 1 = Got [9]
0 5 1 2 f0 write 0 68 [9] = Ok
0 6 1 2 self done = Ok
0 7 1 3 f0 close_fd = Gone [9]
0 8 1 3 pool give 0 [9] = Ok
0 9 1 3 reg free_file f0 = Ok
0 10 1 3 self done = Ok
0 11 1 4 reg new_file = Ok f0
0 12 1 4 f0 init memfd 0 0 [] = Ok
0 13 1 4 self done = Ok
0 14 1 5 f0 close_fd = Gone []
0 15 1 5 reg free_file f0 = Ok
0 16 1 5 self done = Ok
0 17 1 6 reg new_file = Ok f0
0 18 1 6 f0 init memfd 0 0 [] = Ok
0 19 1 6 self done = Ok
0 20 1 7 pool take 0 1 = Got [9]
0 21 1 7 f0 write 0 68 [9] = Ok
0 22 1 7 self done = Ok
0 23 1 8 f0 read 0 1 = Ok 68
0 24 1 8 self done = Ok 68
" ""

# Commands on a label that ended, in its round and in a later one; another agent's label of the same name stays.
printf "${head_lines}memfd m 0\nclosefd m\nwrite m 0 00\nread m 0 0\ncreate s\npreserve s 1 m\nclosefd m\nclosefd x\nround\nagent b\nmemfd m 0\nread m 0 0\nround\nagent a\nread m 0 0\nround\nagent b\nwrite m 0 00\n" >"$work/script"
run_program run script
expect "commands on labels that ended" "1 1 Ok
1 2 Ok
1 3 BadFd
1 4 BadFd
1 5 Ok
1 6 BadFd
1 7 BadFd
1 8 BadFd
2 1 Ok
2 2 Ok -
1 9 BadFd
2 3 Ok" "$(ends)"

# A label that ended isn't bound again by its agent.
printf "${head_lines}memfd m 0\nclosefd m\nmemfd m 0\n" >"$work/script"
run_program run script
check "a label that is bound again" 1 "script refused: line 7: label$newline" ""

# A label ends while a session has its file, and a kexec carries the file all the same.
printf "${head_lines}memfd m 0\nwrite m 0 68656c6c6f\ncreate s\npreserve s 7 m\nclosefd m\nkexec 1 4\nround\nagent a\nopen s\nretrieve s 7 r\nread r 0 5\n" >"$work/script"
run_program run script
expect "a file without a label is carried: the end of the label" "0 15 1 5 f0 close_fd = Kept" "$(grep ' f0 close_fd ' "$work/out")"
expect "a file without a label is carried: its bytes" "1 9 1 8 self done = Ok 68656c6c6f" "$(tail -n 1 "$work/out")"

finish
