#!/bin/sh
# How long `bind` takes for each name that a program takes from a library: so many functions, with a slot and a word of data
# for each. The start and what doesn't grow are taken off, as the time of the same with 10 names. Beside it GNU ld for Arm, where
# one is installed, which links a program to a library of the same names, with a call and a word of data for each. Then `show` of
# the last library, beside readelf. The program is the one that ./build has built; this script is not part of the gate.
#
# usage: benches/bind.sh [SIZE..]     (default: 1000 8000 60000, the most that the limits of a file leave room for)
set -eu

[ $# -gt 0 ] || set -- 1000 8000 60000
top=$(cd "$(dirname "$0")/.." && pwd)
program=$top/crates/fdpic/out/fdpic
make=$top/benches/bind_objects.py
work=$(mktemp -d)
trap 'rm -rf "$work"' EXIT

if [ ! -x "$program" ]; then
    echo "there is no $program yet: run ./build" >&2
    exit 1
fi

# the least time of three, in microseconds; one that takes over five seconds is taken once
micros() {
    least=
    for _ in 1 2 3; do
        begin=$(date +%s%N)
        "$@" >"$work/said" 2>&1 || { cat "$work/said" >&2; exit 1; }
        took=$((($(date +%s%N) - begin) / 1000))
        [ -n "$least" ] && [ "$took" -ge "$least" ] || least=$took
        [ "$took" -lt 5000000 ] || break
    done
    echo "$least"
}

# what is said of so many names, of which 10 took the first time and all of them the second
say() {
    awk -v what="$1" -v names="$2" -v few="$3" -v all="$4" 'BEGIN {
        printf "%-22s %6d names in %9.1f ms: %8.2f microseconds a name\n", what, names, all / 1000, (all - few) / (names - 10)
    }'
}

# makes the objects of a variant in a folder of their own, and goes there
enter() {
    mkdir -p "$work/$2-$1"
    "$make" "$work/$2-$1" "$1" "$2"
    cd "$work/$2-$1"
}

for variant in plain symbolic descriptors; do
    enter 10 "$variant"
    few=$(micros "$program" bind prog.job)
    for size in "$@"; do
        enter "$size" "$variant"
        all=$(micros "$program" bind prog.job)
        say "bind, $variant" "$size" "$few" "$all"
    done
done

for target in arm-uclinuxfdpiceabi arm-linux-gnueabi arm-none-eabi; do
    command -v "$target-ld" >/dev/null && command -v "$target-as" >/dev/null || continue
    for size in 10 "$@"; do
        enter "$size" assembly
        "$target-as" -o lib.o lib.s
        "$target-as" -o prog.o prog.s
        "$target-ld" -shared -o lib.so lib.o
        all=$(micros "$target-ld" -o prog prog.o lib.so)
        if [ "$size" = 10 ]; then few=$all; else say "$target-ld" "$size" "$few" "$all"; fi
    done
    break
done

for size in "$@"; do :; done
cd "$work/plain-$size"
all=$(micros "$program" show lib.so)
echo "show of the library of $size names: $all microseconds"
if command -v readelf >/dev/null; then
    all=$(micros readelf -hldsrDW lib.so)
    echo "readelf -hldsrDW of the same: $all microseconds"
fi
