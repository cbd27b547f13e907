#!/bin/bash
# Blobs that `fdt_tool` writes are read back by `dtc`, the devicetree compiler, to the same trees, and blobs that `dtc`
# makes from source are read by `fdt_tool` with the same properties. The entry frame that the writer of records makes is
# read back by `dtc` too.
. "$(dirname "$0")/lib/common.sh"

# Ends the script without a failure where dtc isn't here.
if ! command -v dtc >/dev/null; then
    skip "dtc, the devicetree compiler, isn't here"
    finish
fi

# need_tool NAME CRATE.. -- WORD..: the program of the crate NAME, which stands on these crates, is the one that is run from
# here on. Where their sources changed since it was built, it is proved and built, and run once with these words. Ends the
# script where that can't be done.
need_tool() {
    local name=$1 folders=("$top/crates.txt")
    while [ "$1" != -- ]; do
        folders+=("$top/crates/$1")
        shift
    done
    program="$top/crates/$name/out/$name"
    if [ -x "$program" ] && [ -z "$(find "${folders[@]}" -name out -prune -o -type f -newer "$program" -print -quit)" ]; then
        return
    fi
    if ! command -v rt >/dev/null; then
        skip "$name isn't built, and rt, which proves and builds it, isn't here"
        finish
    fi
    if ! (cd "$top/crates/$name" && rt run "$@" </dev/null >/dev/null 2>"$work/build.log"); then
        tail -n 30 "$work/build.log" >&2
        fail "$name is built"
        finish
    fi
}

# same_tree NAME SOURCE: the blob that was written and the blob that dtc makes of the source are the same source text when dtc
# reads them.
same_tree() {
    printf '/dts-v1/;\n%s\n' "$2" | dtc -q -I dts -O dtb -o "$work/wanted.dtb" - || fail "dtc compiles the tree $1"
    dtc -q -I dtb -O dts -o "$work/wanted.dts" "$work/wanted.dtb"
    if dtc -q -I dtb -O dts -o "$work/written.dts" "$work/written.dtb" &&
        cmp -s "$work/written.dts" "$work/wanted.dts"; then
        pass "dtc reads the tree $1 back"
    else
        fail "dtc reads the tree $1 back"
        diff "$work/wanted.dts" "$work/written.dts" | head -n 10
    fi
}

# writes NAME SOURCE: the tool's blob of the tree NAME is the tree of the source.
writes() {
    run_program write "$1" written.dtb
    check "the tool writes the tree $1" 0 "" ""
    same_tree "$1" "$2"
}

# The source of the tree of an entry frame, by the numbers of the first chunk frame and of the session frame.
handover_tree() {
    printf '/ {
    compatible = "kho-v1";
    preserved-memory-map = [00 00 00 00 00 00 00 %s];
    scratch = [00 00 00 00 00 00 00 01 00 00 00 00 00 00 00 08];
    luo {
        compatible = "luo-v1";
        liveupdate-number = [00 00 00 00 00 00 00 01];
        session-header = [00 00 00 00 00 00 00 %s];
    };
};' "$1" "$2"
}

# reads NAME SOURCE TEXT PATH..: what the tool says of these paths of the blob that dtc makes of the source is this text.
# The options in `options` go to dtc.
options=()
reads() {
    local name=$1 source=$2 text=$3
    shift 3
    printf '/dts-v1/;\n%s\n' "$source" | dtc -q -I dts -O dtb "${options[@]}" -o "$work/made.dtb" - || fail "dtc compiles $name"
    run_program props made.dtb "$@"
    check "the tool reads $name" 0 "$text" ""
}

# refuses NAME SOURCE PLACE: the tool refuses the blob that dtc makes of the source, and tells this place.
refuses() {
    printf '/dts-v1/;\n%s\n' "$2" | dtc -q -f -I dts -O dtb "${options[@]}" -o "$work/made.dtb" - || fail "dtc compiles $1"
    run_program props made.dtb /
    check "the tool refuses $1" 1 "refused: $3$newline" ""
}

# A tree of so many levels, the root included: each node holds the next, and the innermost has a property.
levels() {
    local text="leaf { depth = [00 00 00 10]; };"
    for ((i = 2; i < $1; i++)); do
        text="n { $text };"
    done
    printf '/ { %s };' "$text"
}

need_tool fdt_tool fdt_blob ho_base -- write smallest

# Writing.
writes smallest '/ { };'
writes handover "$(handover_tree 0a 0b)"
writes values '/ {
    v0; v1 = [ff]; v2 = [ff 00]; v3 = [ff 00 01]; v4 = [ff 00 01 7f]; v5 = [ff 00 01 7f 80];
    v6 = [ff 00 01 7f 80 0d]; v7 = [ff 00 01 7f 80 0d fe]; v8 = [ff 00 01 7f 80 0d fe ed];
};'
writes names '/ {
    x = [37]; y+z_ = [38];
    Node.with_all+kinds-of,bytes-0 { x = [33]; why? = [34]; #size,cells = [35]; };
    n234567890123456789012345678901 {
        p234567890123456789012345678901 = [36];
        a { #size,cells = [31]; x = [32]; };
    };
    a { };
};'
writes levels "$(levels 16)"
writes full "/ { abc = [$(printf '5a%.0s' $(seq 4008))]; };"
[ "$(stat -c %s "$work/written.dtb")" -eq 4096 ] && pass "the full blob has 4096 bytes" || fail "the full blob has 4096 bytes"

run_program write too-big
check "a tree of 4097 bytes is too big" 1 "refused: too big$newline" ""
run_program write levels-17
check "a tree of seventeen levels isn't valid" 1 "refused: not valid$newline" ""

# Reading.
reads "the smallest tree" '/ { };' "/: 0 properties, 0 children
/x: no property
/x/y: no node
" / /x /x/y

tree='/memreserve/ 0x1000 0x2000;
/memreserve/ 0xdeadbeef00000000 0x10;
/ {
    compatible = "kho-v1";
    ible = "tail";
    numbers = <1 2 0xffffffff>;
    list = "a", "bc";
    empty;
    one = [01]; two = [01 02]; three = [01 02 03];
    a { ible; b { compatible = "deep"; }; };
    c { };
};'
answers="/: 8 properties, 2 children
/compatible = 6b686f2d763100
/ible = 7461696c00
/numbers = 0000000100000002ffffffff
/list = 6100626300
/empty = 
/one = 01
/two = 0102
/three = 010203
/a/: 1 properties, 1 children
/a/ible = 
/a/compatible: no property
/a/b/: 1 properties, 0 children
/a/b/compatible = 6465657000
/c/: 0 properties, 0 children
/b/: no node
"
paths=(/ /compatible /ible /numbers /list /empty /one /two /three /a/ /a/ible /a/compatible /a/b/ /a/b/compatible /c/ /b/)
reads "properties, shared names and reservations" "$tree" "$answers" "${paths[@]}"
options=(-b 5 -R 3 -p 100)
reads "the same with a boot processor, spare reservations and bytes behind the blocks" "$tree" "$answers" "${paths[@]}"
options=(-S 2048 -a 64)
reads "the same with a given size and alignment" "$tree" "$answers" "${paths[@]}"
options=()
reads "names of 31 bytes" '/ { p234567890123456789012345678901 = [01]; n234567890123456789012345678901 { q = [02]; }; };' "/: 1 properties, 1 children
/p234567890123456789012345678901 = 01
/n234567890123456789012345678901/q = 02
" / /p234567890123456789012345678901 /n234567890123456789012345678901/q
reads "sixteen levels" "$(levels 16)" "/: 0 properties, 1 children
/n/n/n/n/n/n/n/n/n/n/n/n/n/n/leaf/depth = 00000010
" / /n/n/n/n/n/n/n/n/n/n/n/n/n/n/leaf/depth

refuses "seventeen levels" "$(levels 17)" structure
refuses "a unit address" '/ { a@1 { }; };' structure
refuses "a property's name of 32 bytes" '/ { p2345678901234567890123456789012; };' structure
refuses "a node's name of 32 bytes" '/ { n2345678901234567890123456789012 { }; };' structure
options=(-V 16)
refuses "version 16" '/ { };' header
options=()
printf '/dts-v1/;\n/ { };\n' | dtc -q -I dts -O dtb -o "$work/made.dtb" -
head -c 71 "$work/made.dtb" >"$work/short.dtb"
run_program props short.dtb /
check "the tool refuses the smallest blob without its last byte" 1 "refused: header$newline" ""

# The entry frame of the records: the blob, and zeros up to the frame's end.
need_tool records_bench kho_writer kho_laws kho_records record_frames folio_bitmaps phys_frames fdt_blob ho_base -- help
run_program entry written.dtb
check "the writer of records writes an entry frame" 0 "" ""
expect "an entry frame has 4096 bytes" 4096 "$(stat -c %s "$work/written.dtb")"
same_tree entry "$(handover_tree 0e 0b)"

finish
