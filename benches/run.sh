#!/bin/sh
# How many steps a second `run` takes with its report, and how many instructions of this computer go into a step, start and load
# apart (those of `bind` on the same job): a mixed loop of 999,956 steps with a call through the PLT each 50, and the real program
# p15, checksums and ciphers, whose 19,243 steps are run again and again. Beside each the same source as ordinary Arm code under
# qemu-arm, where that and a compiler are installed (Debian's qemu-user and gcc-arm-linux-gnueabi); that one's time has the start of
# its process and the translation of its code in each run. Instructions are counted where valgrind is installed, and last those of
# the loop by function. The program is the one that ./build has built; this script is not part of the gate.
#
# usage: benches/run.sh [ROUNDS]     (of p15; the loop is run a fortieth as often)
set -eu

rounds=${1:-200}
top=$(cd "$(dirname "$0")/.." && pwd)
real=$top/examples/real
fdpic=${FDPIC:-$top/crates/fdpic/out/fdpic}
work=$(mktemp -d)
trap 'rm -rf "$work"' EXIT

if [ ! -x "$fdpic" ]; then
    echo "there is no $fdpic yet: run ./build" >&2
    exit 1
fi

# the milliseconds that a command takes, so many times
millis() {
    times=$1
    shift
    begin=$(date +%s%N)
    round=0
    while [ "$round" -lt "$times" ]; do
        "$@" >/dev/null 2>&1 || true
        round=$((round + 1))
    done
    echo $((($(date +%s%N) - begin) / 1000000))
}

# the instructions of a command, which are left by function in a file
instructions() {
    counted=$1
    shift
    valgrind --tool=callgrind --callgrind-out-file="$counted" "$@" 2>&1 >/dev/null | sed -n 's/.*Collected : //p'
}

# what is measured of a job in the current folder: its name, and how many runs
measure() {
    steps=$("$fdpic" run "$1.job" | awk '$1 == "exit" { print $2 }')
    whole=$(millis "$2" "$fdpic" run "$1.job")
    loaded=$(millis "$2" "$fdpic" bind "$1.job")
    echo "$1: $2 runs of $steps steps in $whole ms, $loaded ms of it to start and load:" \
        "$(($2 * steps / (whole - loaded + 1))) thousand steps a second"
    if command -v valgrind >/dev/null; then
        all=$(instructions "$work/$1.run" "$fdpic" run "$1.job")
        first=$(instructions "$work/$1.bind" "$fdpic" bind "$1.job")
        echo "$1: $(((all - first) / steps)) instructions a step, and $first to start and load"
    fi
}

# the same source as ordinary Arm code: its name, how many runs, and what the compiler is given besides
measure_qemu() {
    name=$1
    runs=$2
    shift 2
    command -v qemu-arm >/dev/null && command -v arm-linux-gnueabi-gcc >/dev/null || return 0
    arm-linux-gnueabi-gcc -marm -march=armv5t -static -nostdlib -o "$work/$name.arm" "$@" -lgcc
    echo "$name: under qemu-arm $runs runs in $(millis "$runs" qemu-arm "$work/$name.arm") ms"
}

"$top/benches/mixed_loop.py" "$work"
cd "$work"
runs=$(((rounds + 39) / 40))
measure mixed "$runs"
measure_qemu mixed "$runs" mixed.s

cd "$real"
measure p15 "$rounds"
measure_qemu p15 "$rounds" -O2 -fno-tree-loop-distribute-patterns -DLINUX_REF -I src src/p15_main.c

if command -v callgrind_annotate >/dev/null; then
    callgrind_annotate "$work/mixed.run" | grep -E '^ *[0-9,]+ \(' | sed 's/ \[.*//; s/???://' | head -12
fi
