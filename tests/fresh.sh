#!/bin/bash
# In a copy of the sources in which nothing is built, the launcher answers with the example's twenty lines by an
# unproved build, says so in one line on standard error, and leaves nothing behind. How long that took is printed and
# not judged: a minute is wanted of a machine that does nothing else.
. "$(dirname "$0")/lib/common.sh"

if ! command -v rt >/dev/null; then
    skip "rt isn't here"
    finish
fi
mkdir "$work/fresh" || exit 1
tar -C "$top" --exclude=./.git --exclude=out -cf - . | tar -C "$work/fresh" -xf - || exit 1
cp "$top/examples/kexec.script" "$work/copy.script" || exit 1

begin=$(date +%s)
(cd "$work" && fresh/handover run copy.script </dev/null >"$work/out" 2>"$work/err")
status=$?
end=$(date +%s)
echo "the first answer took $((end - begin)) s"
check "the first answer of a fresh copy" 0 "$(cat "$top/crates/handover_cli/stdout")$newline" \
    "handover: an unproved build answers, compiled with checks; for the proved one: ./handover --build$newline"
if [ -e "$work/fresh/crates/handover_cli/out/handover_cli" ]; then
    fail "an unproved program isn't kept"
else
    pass "an unproved program isn't kept"
fi

finish
