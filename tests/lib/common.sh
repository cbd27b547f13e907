# What the shell tests share. A test script reads this file, calls `check` for each thing that it looks at,
# and ends with `finish`.
top=$(cd -P "$(dirname "${BASH_SOURCE[0]}")/../.." && pwd) || exit 1
work=$(mktemp -d) || exit 1
trap 'chmod -R u+rwx "$work" 2>/dev/null; rm -rf "$work"' EXIT
passed=0
failed=0

# Ends the script without a failure where the built program can't be had.
need_program() {
    if [ ! -x "$top/crates/handover_cli/out/handover_cli" ] && ! command -v rt >/dev/null; then
        skip "neither a built program nor rt is here"
        finish
    fi
    # Behind the gate this finds the program that the gate built; else it proves and builds the program, and says so.
    if ! "$top/handover" --build; then
        fail "the program is built"
        finish
    fi
    program="$top/crates/handover_cli/out/handover_cli"
}

skip() {
    echo "skipped: $1"
}

pass() {
    passed=$((passed + 1))
    echo "ok: $1"
}

fail() {
    failed=$((failed + 1))
    echo "FAILED: $1"
}

# Runs the program with these words in the work folder, with its streams in files.
run_program() {
    (cd "$work" && exec "$program" "$@" </dev/null >"$work/out" 2>"$work/err")
    status=$?
}

# check NAME STATUS OUT ERR: the last run had this status, and just this text on each stream.
check() {
    printf '%s' "$3" >"$work/out.wanted"
    printf '%s' "$4" >"$work/err.wanted"
    if [ "$status" -ne "$2" ]; then
        fail "$1: status $status, not $2"
    elif ! cmp -s "$work/out" "$work/out.wanted"; then
        fail "$1: standard output"
        diff "$work/out.wanted" "$work/out" | head -n 10
    elif ! cmp -s "$work/err" "$work/err.wanted"; then
        fail "$1: standard error"
        diff "$work/err.wanted" "$work/err" | head -n 10
    else
        pass "$1"
    fi
}

# expect NAME WANTED GOT: two texts are the same.
expect() {
    if [ "$3" = "$2" ]; then
        pass "$1"
    else
        fail "$1"
        diff <(printf '%s\n' "$2") <(printf '%s\n' "$3") | head -n 10
    fi
}

# The line of each command's end, in order, without the stamps.
ends() {
    sed -n 's/^0 [0-9]* \([0-9]* [0-9]*\) self done = /\1 /p' "$work/out"
}

# The last line tells the counts; the status tells whether anything failed.
finish() {
    echo "$passed passed, $failed failed"
    [ "$failed" -eq 0 ]
    exit
}

newline='
'
read_fault="handover: read fault$newline"
write_fault="handover: write fault$newline"
