#!/bin/bash
# Words that fit no command get the usage line and status 2.
. "$(dirname "$0")/lib/common.sh"
need_program

usage="usage: handover run SCRIPT [--images FILE] [--summary TEXT] | resume IMAGE SCRIPT [--images FILE] [--summary TEXT] | audit SCRIPT HISTORY | inspect IMAGE | gen NUMBER$newline"

run_program
check "no words" 2 "$usage" ""
run_program run
check "run alone" 2 "$usage" ""
run_program run ""
check "an empty word" 2 "$usage" ""
run_program run --images
check "a word with a dash in front" 2 "$usage" ""
run_program run one two
check "a word too many" 2 "$usage" ""
run_program Run script
check "another first word" 2 "$usage" ""
run_program run $'\xff'
check "a word that isn't text" 2 "$usage" ""

finish
