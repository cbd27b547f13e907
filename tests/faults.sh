#!/bin/bash
# What the system refuses is told by the status, and by one sentence on standard error.
. "$(dirname "$0")/lib/common.sh"
need_program

cp "$top/examples/first-path.script" "$work/script" || exit 1

run_program run missing
check "a missing file" 4 "" "$read_fault"

mkdir "$work/folder"
run_program run folder
check "a folder in place of a file" 4 "" "$read_fault"

if [ "$(id -u)" -eq 0 ]; then
    skip "an unreadable file: root reads every file"
else
    cp "$work/script" "$work/unreadable"
    chmod 000 "$work/unreadable"
    run_program run unreadable
    check "an unreadable file" 4 "" "$read_fault"
fi

: >"$work/out"
(cd "$work" && exec "$program" run script </dev/null >&- 2>"$work/err")
status=$?
check "a closed standard output" 5 "" "$write_fault"

if [ -c /dev/full ]; then
    : >"$work/out"
    (cd "$work" && exec "$program" run script </dev/null >/dev/full 2>"$work/err")
    status=$?
    check "a full standard output" 5 "" "$write_fault"
    : >"$work/out"
    (cd "$work" && exec "$program" run </dev/null >/dev/full 2>"$work/err")
    status=$?
    check "a usage line that can't be written" 5 "" "$write_fault"
    : >"$work/empty"
    (cd "$work" && exec "$program" run empty </dev/null >/dev/full 2>"$work/err")
    status=$?
    check "a refusal that can't be written" 5 "" "$write_fault"
else
    skip "a full standard output: there is no /dev/full"
fi

finish
