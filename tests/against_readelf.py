#!/usr/bin/env python3
"""Compares what `show` prints of each file in a folder with what readelf says, line by line: of a relocatable file its sections,
relocations and symbols, of an object what it is, its segments, names, symbols, relocations and slots. Fixups and flags of an object
are left out, and its GOT where its dynamic section doesn't tell it.

usage: tests/against_readelf.py FOLDER

It runs the program that ./build or ./test has built, or FDPIC where that is set. Ends with 1 where something differs.
"""

import os
import pathlib
import re
import subprocess
import sys

TOP = pathlib.Path(__file__).resolve().parent.parent
PROGRAM = pathlib.Path(os.environ.get("FDPIC", TOP / "crates/fdpic/out/fdpic"))


def printed(*words):
    return subprocess.run(words, capture_output=True, text=True, check=True).stdout.splitlines()


KINDS = {"PROGBITS": 1, "NOTE": 7, "NOBITS": 8, "INIT_ARRAY": 14, "FINI_ARRAY": 15}
FLAGS = {"W": 1, "A": 2, "X": 4, "M": 16, "S": 32, "I": 64, "L": 128, "O": 256, "G": 512, "T": 1024}
PLACES = {"UND": "undef", "ABS": "abs", "COM": "common"}
SECTION = re.compile(r" *\[ *(\d+)\] (\S*) +(\S+) +[0-9a-f]{8} ([0-9a-f]{6}) ([0-9a-f]{6}) [0-9a-f]{2} +([A-Za-z]*) +\d+ +(\d+) +(\d+)$")
# a section without a name is 0
RELOCATIONS = re.compile(r"Relocation section (?:'.*'|0) at offset 0x([0-9a-f]+) contains")
RELOCATION = re.compile(r"([0-9a-f]{8})  ([0-9a-f]{8}) ")
SYMBOL = re.compile(r" *(\d+): ([0-9a-f]{8}) +(\S+) (\S+) +(\S+) +(\S+) +(\S+) ?(\S*)$")


def relocatable(path):
    """The listing of a relocatable file, from what readelf says of it."""
    said = printed("readelf", "-aW", path)
    headers = [it.groups() for it in map(SECTION.match, said) if it]
    kept, tables, at = {}, {}, None
    for index, name, kind, offset, size, flags, info, align in headers:
        if kind in KINDS and "A" in flags:
            number = sum(FLAGS[it] for it in flags)
            kept[index] = [f"section {len(kept)} {name} {KINDS[kind]} {number} {int(size, 16)} {align}"]
    for line in said:
        if head := RELOCATIONS.match(line):
            at = next((it[6] for it in headers if it[2] == "REL" and int(it[3], 16) == int(head[1], 16)), None)
            tables[at] = 0
        elif (row := RELOCATION.match(line)) and at in kept:
            site, word = int(row[1], 16), int(row[2], 16)
            kept[at].append(f"rel {tables[at]} 0x{site:08x} {word % 256} {word // 256}")
            tables[at] += 1
    numbers = {index: number for number, index in enumerate(kept)}
    places = PLACES | {it[0]: f"section {numbers[it[0]]}" if it[0] in numbers else "dropped" for it in headers[1:]}
    return ["relocatable", *(line for it in kept.values() for line in it), *symbols(said, places)]


def symbols(said, places):
    """The lines of the symbols, from readelf's."""
    for row in filter(None, map(SYMBOL.match, said)):
        number, value, size, kind, binding, visibility, index, name = row.groups()
        # readelf gives the symbol of a section the section's name
        name = "-" if kind == "SECTION" or not name else name
        words = " ".join(it.lower() for it in (binding, kind, visibility))
        yield f"symbol {number} {name} {words} {places.get(index, 'here')} 0x{value} {int(size, 0)}"


TYPE = re.compile(r" *Type: +(EXEC|DYN) ")
ENTRY = re.compile(r" *Entry point address: +0x([0-9a-f]+)$")
SEGMENT = re.compile(r" *LOAD +0x[0-9a-f]+ (0x[0-9a-f]{8}) 0x[0-9a-f]{8} 0x([0-9a-f]+) 0x([0-9a-f]+) (.)(.)(.) (\S+)$")
ENTRY_OF_DYNAMIC = re.compile(r" *0x[0-9a-f]{8} \((\w+)\) +(?:.*\[(.*)\]|0x([0-9a-f]+)|.*)$")
TABLE = re.compile(r"'(REL|PLT)' relocation section at offset 0x[0-9a-f]+ contains")


def object_listing(path):
    """The listing of an object, from what readelf says of its headers and its dynamic section."""
    said = printed("readelf", "-hldrsDW", path)
    kind, entry = (next(filter(None, map(it.match, said)))[1] for it in (TYPE, ENTRY))
    tags = [it.groups() for it in map(ENTRY_OF_DYNAMIC.match, said) if it]
    got = next((f"{int(it[2], 16):08x}" for it in tags if it[0] == "PLTGOT"), None)
    listing = [f"object {kind.lower()} entry 0x{int(entry, 16):08x}" + (f" got 0x{got}" if got else "")]
    for number, row in enumerate(filter(None, map(SEGMENT.match, said))):
        address, filled, size, *flags, align = row.groups()
        flags = sum(bit for bit, letter in zip((4, 2, 1), flags) if letter != " ")
        listing.append(f"segment {number} {address} 0x{int(filled, 16):08x} 0x{int(size, 16):08x} {flags} {int(align, 0)}")
    listing += [f"needed {it[1]}" for it in tags if it[0] == "NEEDED"]
    listing += [f"soname {it[1]}" for it in tags if it[0] == "SONAME"]
    listing += symbols(said, PLACES)
    tables, at = {"REL": [], "PLT": []}, None
    for line in said:
        if head := TABLE.match(line):
            at = tables[head[1]]
        elif (row := RELOCATION.match(line)) and at is not None:
            at.append((int(row[1], 16), int(row[2], 16)))
    for word, rows in zip(("rel", "jmprel"), tables.values()):
        listing += [f"{word} {k} 0x{site:08x} {it % 256} {it // 256}" for k, (site, it) in enumerate(rows)]
    return listing


def shown(path):
    """What `show` prints of a file, without what isn't compared."""
    return [it for it in printed(PROGRAM, "show", path) if it.split(" ")[0] not in ("fixup", "flag")]


def differs(path):
    """Whether the listing of a file is another one, and which line differs first."""
    ours = shown(path)
    theirs = relocatable(path) if path.read_bytes()[16:18] == b"\x01\x00" else object_listing(path)
    if " got " not in theirs[0]:
        ours[0] = ours[0].split(" got ")[0]
    if ours == theirs:
        print(f"{path.name}: {len(ours)} lines agree")
        return False
    place = next((k for k, (our, their) in enumerate(zip(ours, theirs)) if our != their), min(len(ours), len(theirs)))
    print(f"{path.name}: DIFFERS at line {place + 1}: {ours[place:place + 1]} for {theirs[place:place + 1]}")
    return True


def main(folder):
    paths = [it for it in sorted(pathlib.Path(folder).iterdir()) if it.is_file() and it.read_bytes()[:4] == b"\x7fELF"]
    return 1 if sum(map(differs, paths)) else 0


if __name__ == "__main__":
    sys.exit(main(sys.argv[1]) if len(sys.argv) == 2 else __doc__)
