#!/bin/bash
# The example prints its twenty lines and nothing else, from any folder.
. "$(dirname "$0")/lib/common.sh"
need_program

cp "$top/examples/first-path.script" "$work/copy.script" || exit 1
(cd "$work" && "$top/handover" run copy.script </dev/null >"$work/out" 2>"$work/err")
status=$?
# The pool may choose any frame that isn't scratch, from 9 to 63.
frame=$(sed -n '4s/^0 4 1 2 pool take 0 1 = Got \[\([0-9]*\)\]$/\1/p' "$work/out")
if [ -z "$frame" ] || [ "$frame" -lt 9 ] || [ "$frame" -gt 63 ]; then
    fail "the example's frame is one from 9 to 63: '$frame'"
    frame=9
else
    pass "the example's frame is one from 9 to 63"
fi
check "the example" 0 "0 1 1 1 reg new_file = Ok f0
0 2 1 1 f0 init memfd 0 0 [] = Ok
0 3 1 1 self done = Ok
0 4 1 2 pool take 0 1 = Got [$frame]
0 5 1 2 f0 write 0 68656c6c6f [$frame] = Ok
0 6 1 2 self done = Ok
0 7 1 3 reg create s = Ok s0
0 8 1 3 s0 begin s = Ok
0 9 1 3 self done = Ok
0 10 1 4 reg find_out s = Ok s0
0 11 1 4 f0 pin [] = Ok [$frame]
0 12 1 4 pool mark 0 [$frame] = Ok
0 13 1 4 s0 add s 7 f0 0 = Ok
0 14 1 4 self done = Ok
0 15 1 5 reg find_out s = Ok s0
0 16 1 5 f0 unpin = Kept [$frame]
0 17 1 5 pool unmark 0 [$frame] = Ok
0 18 1 5 s0 close s = Ok
0 19 1 5 reg drop_name s = Ok
0 20 1 5 self done = Ok
" ""

printf 'machine 64\nscratch 1 63\nround\nagent a\nmemfd m 0\nwrite m 0 68656c6c6f\ncreate s\n' >"$work/script"
run_program run script
check "no frame is left" 0 "0 1 1 1 reg new_file = Ok f0
0 2 1 1 f0 init memfd 0 0 [] = Ok
0 3 1 1 self done = Ok
0 4 1 2 pool take 0 1 = NoFrames
0 5 1 2 f0 write 0 68656c6c6f [] = NoFrames 1
0 6 1 2 self done = NoFrames
0 7 1 3 reg create s = Ok s0
0 8 1 3 s0 begin s = Ok
0 9 1 3 self done = Ok
" ""

printf 'machine 64\nscratch 1 8\n' >"$work/script"
run_program run script
check "a machine without a round" 0 "" ""

finish
