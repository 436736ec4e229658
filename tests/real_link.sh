#!/bin/sh
# Links gcc's relocatable files of examples/real/obj by both builds of `fdpic`, libraries as shared objects and each program over
# its libraries, p15 also alone (static), and runs what was linked: a program has to end with the exit value and to put out the bytes
# that are listed in tests/real/expected.txt, and each call that begins has to arrive four steps later. Of p11 other values are
# wanted: GNU ld linked p11_s.so with -Bsymbolic, so that it kept its own `who` and `shared_d`; here the first in the scope win, as its
# sources tell then, worked by hand. Both builds have to put the same files, and where readelf is installed, `show` of each object
# has to say what that does. Called at the project's top, after the gate.
top=$PWD
work=$(mktemp -d) || exit 1
trap 'rm -rf "$work"' EXIT
grep -v '^#' tests/real/expected.txt | sed 's/^p11 .*/p11 exit 0x1f031aa5 out 31663033316161350a/' >"$work/listed"

# whether the program with the name $1 does what is listed
runs_as_listed() {
    read -r _ _ value _ bytes <<END
$(grep "^$1 " "$work/listed")
END
    report=$("$program" run "$1.job") || return 1
    printf '%s\n' "$report" | awk -v value="$((value))" -v bytes="$bytes" -f "$top/tests/as_listed.awk" ||
        { echo "$1: not as listed" >&2; return 1; }
}

for build in fdpic fdpic.by-rattle; do
    program=$top/crates/fdpic/out/$build
    mkdir "$work/$build" && cd "$work/$build" && cp "$top"/examples/real/obj/*.o "$top"/examples/real/*.job . || exit 1
    for name in p01_lib p02_liba p02_libb p11_a p11_b p11_s; do
        "$program" link "$name.so" shared "$name.o" || exit 1
    done
    "$program" link p15 static p15_main.o && runs_as_listed p15 && cp p15 p15_alone || exit 1
    "$program" link p01 program lib=p01_lib.so p01_main.o || exit 1
    "$program" link p02 program lib=p02_liba.so lib=p02_libb.so p02_main.o p02_over.o || exit 1
    "$program" link p11 program lib=p11_a.so lib=p11_b.so lib=p11_s.so p11_main.o || exit 1
    "$program" link p15 program p15_main.o || exit 1
    for name in p01 p02 p11 p15; do
        runs_as_listed "$name" || exit 1
    done
    rm ./*.o
    if command -v readelf >/dev/null && command -v python3 >/dev/null; then
        FDPIC=$program "$top/tests/against_readelf.py" . >said || { cat said >&2; exit 1; }
    fi
done
diff -r "$work/fdpic" "$work/fdpic.by-rattle"
