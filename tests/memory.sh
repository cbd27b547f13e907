#!/bin/bash
# Refuses, in turn, each request for memory that a run makes of the C library, which is each of its allocations:
# the run ends with want of memory, and nothing stands on its output but whole blocks of the history, so nothing where
# there is one block. Where a refusal changes nothing at all, that is told.
. "$(dirname "$0")/lib/common.sh"
need_program

if ! command -v cc >/dev/null; then
    skip "refused memory: there is no C compiler"
    finish
fi
cc -shared -fPIC -O1 -o "$work/refuse-memory.so" "$top/tests/lib/refuse-memory.c" || exit 1

# run_refusing NUMBER WORD..: runs the program with these words, without memory for the request of this number.
run_refusing() {
    (cd "$work" && exec env REFUSED_REQUEST="$1" REQUEST_COUNT="$work/count" LD_PRELOAD="$work/refuse-memory.so" \
        "$program" "${@:2}" </dev/null >"$work/out" 2>"$work/err")
    status=$?
}

# After how many lines of the history a block may end, in which memory may run out: the text of whole blocks stands.
fronts=0

# Whether the output is the text of whole blocks.
is_front() {
    local lines
    for lines in $fronts; do
        head -n "$lines" "$work/out.whole" | cmp -s - "$work/out" && return
    done
    return 1
}

# refuse_each NAME WORD..: refuses each request of a run of these words in turn.
refuse_each() {
    local name=$1 whole requests number wanting=0 ever=0 other=0
    shift
    run_refusing 0 "$@"
    whole=$status
    requests=$(cat "$work/count")
    cp "$work/out" "$work/out.whole"
    for number in $(seq "$requests"); do
        run_refusing "$number" "$@"
        if [ "$status" -eq 3 ] && is_front && [ "$(cat "$work/err")" = "handover: want of memory" ]; then
            wanting=$((wanting + 1))
        elif [ "$status" -eq "$whole" ] && cmp -s "$work/out" "$work/out.whole" && [ ! -s "$work/err" ]; then
            ever=$((ever + 1))
            echo "request $number: as ever"
        else
            other=$((other + 1))
            echo "request $number: status $status, $(wc -c <"$work/out") bytes on the output, $(cat "$work/err")"
        fi
    done
    if [ "$wanting" -gt "$ever" ] && [ "$other" -eq 0 ]; then
        pass "$name: of $requests requests that are refused $wanting end in want of memory, $ever change nothing"
    else
        fail "$name: $other of $requests requests that are refused are answered otherwise"
    fi
}

cp "$top/examples/first-path.script" "$work/example" || exit 1
refuse_each "the example" run example

printf 'machine 64\nscratch 1 63\nround\nagent a\nmemfd m 0\nwrite m 0 68656c6c6f\ncreate s\npreserve s 7 m\nclose s\n' >"$work/script"
refuse_each "no frame is left" run script

printf 'machine 64\nscratch 1 63\nround\nagent a\nmemfd m 0\nwrite m 0 68656c6c6f\ncreate s\npreserve s 7 m\npreserve s 7 m\n' >"$work/refused"
refuse_each "a script that is refused" run refused

refuse_each "words that fit nothing" run

cp "$top/examples/kexec.script" "$work/kexec" || exit 1
fronts='0 14 16'
refuse_each "a kexec" run kexec

# From the image of that kexec's first kernel on. The image's 262,176 bytes are read in blocks.
run_program run kexec --images kept
printf 'round\nagent a\nopen s\nretrieve s 7 r\nread r 0 5\nfinish s\n' >"$work/next"
fronts=0
refuse_each "a resume" resume kept.1 next
head -c 31 "$work/kept.1" >"$work/broken"
refuse_each "an image that is refused" resume broken next

finish
