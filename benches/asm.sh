#!/bin/sh
# How long `as` takes for a text of 100,000 lines with 10,000 labels, instructions of many kinds, words and relocations, and for a
# tenth of it, beside GNU as for Arm, where one is installed. The program is the one that ./build has built, or FDPIC where that
# is set; this script is not part of the gate.
#
# usage: benches/asm.sh [LINES]
set -eu

top=$(cd "$(dirname "$0")/.." && pwd)
program=${FDPIC:-$top/crates/fdpic/out/fdpic}
work=$(mktemp -d)
trap 'rm -rf "$work"' EXIT

if [ ! -x "$program" ]; then
    echo "there is no $program yet: run ./build" >&2
    exit 1
fi

# Ten lines for each label. GNU as gets the same lines behind one that chooses the syntax.
python3 - "$work" "${1:-100000}" <<'END'
import sys

folder, most = sys.argv[1], int(sys.argv[2])


def block(k, labels):
    return f"""label_{k}: mov r0, #{k % 256}
 add r1, r2, r3, lsl #{k % 32}
 ldr r4, [r5, #{4 * (k % 1000)}]
 strheq r4, [sp, #-2]!
 ldmia r0!, {{r1-r4, r6, lr}}
 cmp r1, r2, ror r3    @ label {k}
 bne label_{k}
 bl far_{k % 100}
 umull r1, r2, r3, r4
 .word label_{(k * 7919) % labels}
"""


for lines in (most // 10, most):
    labels = max(lines // 10, 1)
    text = "".join(block(k, labels) for k in range(labels))
    with open(f"{folder}/{lines}.s", "w") as it:
        it.write(text)
    with open(f"{folder}/{lines}.gnu.s", "w") as it:
        it.write(".syntax unified\n" + text)
END

# the least time of three, in milliseconds
millis() {
    least=
    for _ in 1 2 3; do
        begin=$(date +%s%N)
        "$@"
        took=$((($(date +%s%N) - begin) / 1000000))
        [ -n "$least" ] && [ "$took" -ge "$least" ] || least=$took
    done
    echo "$least"
}

cd "$work"
for text in $(ls | grep -v gnu | sort -n); do
    lines=${text%.s}
    took=$(millis "$program" as out.o "$text")
    echo "fdpic as: $took milliseconds for $lines lines, a file of $(wc -c <out.o) bytes"
    for tool in arm-none-eabi-as arm-linux-gnueabi-as; do
        if command -v "$tool" >/dev/null; then
            took=$(millis "$tool" -march=armv7-a -meabi=5 -o gnu.o "$lines.gnu.s")
            echo "$tool: $took milliseconds"
            break
        fi
    done
done
