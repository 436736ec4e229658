#!/bin/sh
# How long `code` takes for a text of 1,000,000 words, beside an objdump that knows Arm, where one is installed. The
# program is the one that ./test has built; this script is not part of the gate.
#
# usage: benches/code.sh
set -eu

top=$(cd "$(dirname "$0")/.." && pwd)
program=$top/crates/fdpic/out/fdpic
work=$(mktemp -d)
trap 'rm -rf "$work"' EXIT

if [ ! -x "$program" ]; then
    echo "there is no $program yet: run ./test" >&2
    exit 1
fi
python3 - "$work" <<'END'
import struct
import sys

COUNT = 1_000_000


def words(*values):
    return struct.pack(f"<{len(values)}I", *values)


def segment(kind, offset, address, size, flags):
    return words(kind, offset, address, address, size, size, flags, 16)


# the condition "always", and 28 bits that run through all rows of the table
text = words(*(0xE0000000 | (k * 0x9E3779B1 >> 4) & 0x0FFFFFFF for k in range(COUNT)))
data = words(0, 0, 0, 3, 0x800000, 0, 0)
header = b"\x7fELF\x01\x01\x01\x41" + bytes(8) + struct.pack("<HH", 3, 40) + words(1, 0, 52, 0, 0x05000000)
header += struct.pack("<6H", 52, 32, 3, 40, 0, 0)
first, second = 160, 160 + len(text)
header += segment(1, first, 0, len(text), 5) + segment(1, second, 0x800000, len(data), 6)
header += segment(2, second + 12, 0x80000C, len(data) - 12, 6)
with open(f"{sys.argv[1]}/large.so", "wb") as it:
    it.write(header.ljust(first, b"\0") + text + data)
with open(f"{sys.argv[1]}/text", "wb") as it:
    it.write(text)
END
cd "$work"
echo "code:"
time -p "$program" code large.so > listing
tail -n 1 listing
for tool in arm-none-eabi-objdump arm-linux-gnueabi-objdump objdump; do
    if "$tool" -D -b binary -m arm text > other 2> /dev/null; then
        echo "$tool:"
        time -p "$tool" -D -b binary -m arm text > other
        exit
    fi
done
echo "no objdump here knows Arm"
