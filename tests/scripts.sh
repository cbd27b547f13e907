#!/bin/bash
# Scripts at the edges: their sizes, their bytes, and the line that is told.
. "$(dirname "$0")/lib/common.sh"
need_program

# a script of so many bytes: a machine, and a comment of blanks behind it
script_of() {
    {
        printf 'machine 64\nscratch 1 8\n#'
        head -c "$(($1 - 24))" /dev/zero | tr '\0' ' '
    } >"$work/script"
    if [ "$(wc -c <"$work/script")" -ne "$1" ]; then
        fail "the script of $1 bytes was made"
    fi
}

script_of 1048576
run_program run script
check "a script of 1,048,576 bytes" 0 "" ""

script_of 1048577
run_program run script
check "a script of 1,048,577 bytes" 1 "script refused: too long$newline" ""

: >"$work/script"
run_program run script
check "a script of no bytes" 1 "script refused: line 1: end$newline" ""

every_byte() {
    local n
    for n in $(seq 0 255); do
        printf "\\x$(printf '%02x' "$n")"
    done
}

every_byte >"$work/script"
run_program run script
check "a script with every byte" 1 "script refused: line 1: byte$newline" ""

{
    printf 'machine 64\nscratch 1 8\n'
    every_byte
} >"$work/script"
run_program run script
check "every byte after a machine" 1 "script refused: line 3: byte$newline" ""

printf 'machine 64\n' >"$work/script"
run_program run script
check "an end before the first scratch line" 1 "script refused: line 2: end$newline" ""

printf 'machine 64\nscratch 1 8\nround\nagent a\nmemfd m 0\nwrite m 0 68656c6c6f\ncreate s\npreserve s 7 m\nclose s\ndevice d dev0 16\n' >"$work/script"
run_program run script
check "a line that isn't built" 1 "script refused: line 10: later$newline" ""

printf 'machine 31\n' >"$work/script"
run_program run script
check "a machine that is too small" 1 "script refused: line 1: number$newline" ""

printf 'machine 64\nscratch 1 8\nround\nagent a\ncreate %064d\n' 0 >"$work/script"
run_program run script
check "a name of 64 bytes" 1 "script refused: line 5: name$newline" ""

# One line for each reason; a line that breaks several rules has the first of them.
refused_for() {
    printf 'machine 64\nscratch 1 8\nround\nagent a\nmemfd m 0\n%b\n' "$2" >"$work/script"
    run_program run script
    check "refused for $1: $2" 1 "script refused: line ${3:-6}: $1$newline" ""
}
refused_for word 'format m'
refused_for later 'device d dev0 16'
refused_for later 'agent b'
refused_for count 'write m 0'
refused_for number 'write m x 00'
refused_for number 'memfd n 10'
refused_for number 'fill m 0 0 1'
refused_for number 'read m 0 4097'
refused_for number 'kexec 1 0'
refused_for number 'kexec 1 16385'
refused_for name 'create a/b'
refused_for hex 'write m 0 0'
refused_for place 'machine 64'
refused_for place 'scratch 20 1'
refused_for place 'agent a'
refused_for label 'memfd m 0'
refused_for label 'retrieve s 7 m'
refused_for place 'round\nmemfd n 0' 7
printf 'machine 64\nscratch 1 8\nscratch 4 8\n' >"$work/script"
run_program run script
check "refused for shape" 1 "script refused: line 3: shape$newline" ""
{
    printf 'machine 64\nscratch 1 8\n'
    for round in $(seq 1 65); do echo round; done
} >"$work/script"
run_program run script
check "refused for limit: the 65th round" 1 "script refused: line 67: limit$newline" ""
{
    printf 'machine 64\nscratch 1 8\n'
    for kexec in $(seq 1 9); do echo "kexec $kexec 4"; done
} >"$work/script"
run_program run script
check "refused for limit: the 9th kexec" 1 "script refused: line 11: limit$newline" ""

printf 'machine 64\nscratch 1 8\nround\nagent a\ncreate %063d' 0 >"$work/script"
run_program run script
check "a name of 63 bytes on a last line without a line feed" 0 "0 1 1 1 reg create $(printf '%063d' 0) = Ok s0
0 2 1 1 s0 begin $(printf '%063d' 0) = Ok
0 3 1 1 self done = Ok
" ""

finish
