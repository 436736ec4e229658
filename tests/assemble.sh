#!/bin/sh
# Assembles examples/calls.s by both builds of `fdpic`: `show` of the file has to list what stands in tests/calls.txt, and, where
# readelf is installed, what that says of the file. A text that is refused has to leave no file. Called at the project's top, after
# the gate.
top=$PWD
work=$(mktemp -d) || exit 1
trap 'rm -rf "$work"' EXIT
cp examples/calls.s "$work" && printf ' mov r0, #0x101\n' >"$work/wrong.s" && cd "$work" || exit 1
for program in "$top/crates/fdpic/out/fdpic" "$top/crates/fdpic/out/fdpic.by-rattle"; do
    rm -f calls.o
    "$program" as calls.o calls.s && "$program" show calls.o | cmp - "$top/tests/calls.txt" || exit 1
    said=$("$program" as wrong.o wrong.s 2>&1)
    [ $? = 5 ] && [ "$said" = "fdpic: asm Range line 1" ] && [ ! -e wrong.o ] || exit 1
    if command -v readelf >/dev/null && command -v python3 >/dev/null; then
        mkdir -p objects && cp calls.o objects && FDPIC=$program "$top/tests/against_readelf.py" objects >/dev/null || exit 1
    fi
done
