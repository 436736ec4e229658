#!/bin/sh
# Compares, for each instruction that `code` prints of the objects in examples/real and of a generated one with many words, its word
# with those that `as` and GNU as for Arm make of the printed text. A branch is printed by its distance; GNU as gets it as an
# address relative to `.`. What GNU as refuses is counted and left out; so is `add` or `sub` on pc with a number of 2^31 or more,
# which GNU as takes as a negative one, and makes the opposite operation of it. The program is the one that ./build or ./test has
# built, or FDPIC where that is set; this script is not part of the gate. Ends with 1 where a word differs.
#
# usage: tests/against_as.sh [WORDS]
set -eu

top=$(cd "$(dirname "$0")/.." && pwd)
program=${FDPIC:-$top/crates/fdpic/out/fdpic}
for tool in arm-none-eabi-as arm-linux-gnueabi-as; do
    command -v "$tool" >/dev/null && break
done
if [ ! -x "$program" ] || ! command -v "$tool" >/dev/null; then
    echo "there is no $program, or no GNU as for Arm" >&2
    exit 2
fi
exec python3 - "$program" "$tool" "$top/examples/real" "${1:-200000}" <<'END'
import os
import re
import struct
import subprocess
import sys
import tempfile

PROGRAM, TOOL, REAL, COUNT = sys.argv[1], sys.argv[2], sys.argv[3], int(sys.argv[4])


def words(*values):
    return struct.pack(f"<{len(values)}I", *values)


def generated():
    """An object whose text runs through all rows of the table, with every condition."""
    text = words(*((k * 0x9E3779B1 + k) % 0xF0000000 for k in range(COUNT)))
    data = words(0, 0, 0, 3, 0x800000, 0, 0)
    segment = lambda kind, offset, address, size, flags: words(kind, offset, address, address, size, size, flags, 16)
    header = b"\x7fELF\x01\x01\x01\x41" + bytes(8) + struct.pack("<HH", 3, 40) + words(1, 0, 52, 0, 0x05000000)
    header += struct.pack("<6H", 52, 32, 3, 40, 0, 0)
    first, second = 160, 160 + len(text)
    header += segment(1, first, 0, len(text), 5) + segment(1, second, 0x800000, len(data), 6)
    header += segment(2, second + 12, 0x80000C, len(data) - 12, 6)
    return header.ljust(first, b"\0") + text + data


def printed(folder, name):
    """The texts of an object's instructions with their words; none where the file is no object."""
    ran = subprocess.run([PROGRAM, "code", name], cwd=folder, capture_output=True, text=True)
    rows = (line.split(" ", 2) for line in ran.stdout.splitlines())
    return {text: int(word, 16) for _, word, text in rows if text != ".word"}


def text_section(path):
    """The bytes of .text in a relocatable file."""
    with open(path, "rb") as it:
        file = it.read()
    headers, = struct.unpack_from("<I", file, 32)
    size, count, names = struct.unpack_from("<3H", file, 46)
    rows = [struct.unpack_from("<10I", file, headers + size * k) for k in range(count)]
    named = lambda row: file[rows[names][4] + row[0] :].split(b"\0", 1)[0]
    row = next(row for row in rows if named(row) == b".text")
    return file[row[4] : row[4] + row[5]]


def made(path):
    text = text_section(path)
    return struct.unpack(f"<{len(text) // 4}I", text)


def as_relative(text):
    """A branch by a distance, as GNU as reads it."""
    return re.sub(r"^(bl?(?:[a-z]{2})?) #(-?\d+)$", lambda it: f"{it[1]} . + 8 + ({it[2]})", text)


def is_turned(text):
    found = re.fullmatch(r"(?:add|sub)(?:[a-z]{2})? \w+, pc, #(\d+)", text)
    return found is not None and int(found[1]) >= 2**31


def by_gnu(folder, texts):
    """The texts that GNU as takes, and their words."""
    taken = [text for text in texts if not is_turned(text)]
    while True:
        with open(f"{folder}/gnu.s", "w") as it:
            it.write(".syntax unified\n.arch armv7-a\n.arm\n" + "".join(f"{as_relative(text)}\n" for text in taken))
        ran = subprocess.run([TOOL, "-o", "gnu.o", "gnu.s"], cwd=folder, capture_output=True, text=True)
        refused = {int(it[1]) for it in re.finditer(r"^gnu\.s:(\d+): Error: ", ran.stderr, re.M)}
        if not refused:
            ran.check_returncode()
            return taken, made(f"{folder}/gnu.o")
        taken = [text for k, text in enumerate(taken) if k + 4 not in refused]


def by_ours(folder, texts):
    with open(f"{folder}/ours.s", "w") as it:
        it.write("".join(f" {text}\n" for text in texts))
    subprocess.run([PROGRAM, "as", "ours.o", "ours.s"], cwd=folder, check=True)
    return made(f"{folder}/ours.o")


with tempfile.TemporaryDirectory() as folder:
    with open(f"{folder}/many.so", "wb") as it:
        it.write(generated())
    texts = printed(folder, "many.so")
    for name in sorted(os.listdir(REAL)):
        if os.path.isfile(f"{REAL}/{name}"):
            texts |= printed(REAL, name)
    taken, theirs = by_gnu(folder, texts)
    ours = dict(zip(texts, by_ours(folder, texts), strict=True))
    wrong = [text for text, word in texts.items() if ours[text] != word]
    wrong += [text for text, word in zip(taken, theirs, strict=True) if texts[text] != word]
    for text in wrong[:20]:
        print(f"{text}: {texts[text]:08x}, by fdpic {ours[text]:08x}", *(f"by GNU as {it:08x}" for at, it in zip(taken, theirs) if at == text))
    print(f"{len(texts)} texts, of which GNU as takes {len(taken)}; {len(wrong)} words differ")
    known = set(taken)
    for text in [it for it in texts if it not in known and not is_turned(it)][:5]:
        print(f"GNU as refuses: {text}")
    sys.exit(1 if wrong else 0)
END
