#!/usr/bin/env python3
"""Writes a library that exports COUNT functions, a program with a slot and a word of data for each, and their job.

usage: benches/bind_objects.py FOLDER COUNT plain|symbolic|descriptors|assembly

plain        the words of the program are R_ARM_ABS32 on the functions
symbolic     the library besides has such words on its own functions, and DT_SYMBOLIC
descriptors  the library has a descriptor of its own for each function, and the words of the program, R_ARM_FUNCDESC, ask for them
assembly     the same as plain in GNU as's language, for an ordinary linker: lib.s and prog.s
"""

import pathlib
import sys
from struct import pack

TABLES, DATA = 0x100000, 0x800000  # link addresses of the tables and of the data, at whose start the GOT stands
ABS32, FUNCDESC, FUNCDESC_VALUE = 2, 163, 164
NEEDED, PLTRELSZ, PLTGOT, HASH, STRTAB, SYMTAB, STRSZ, SYMENT = 1, 2, 3, 4, 5, 6, 10, 11
SYMBOLIC, REL, RELSZ, RELENT, PLTREL, JMPREL = 16, 17, 18, 19, 20, 23
MOV_R0_0, SVC_0, BX_LR = 0xE3A00000, 0xEF000000, 0xE12FFF1E


def words(*values):
    return pack(f"<{len(values)}I", *values)


def name_of(k):
    return b"function_%05d" % k


def hash_of(name):
    """The hash of the gABI's "Hash Table"."""
    h = 0
    for byte in name:
        h = (h << 4) + byte
        top = h & 0xF0000000
        h = (h ^ (top >> 24)) & 0x0FFFFFFF
    return h


def hash_table(count):
    buckets = count // 4 + 1
    heads, chain = [0] * buckets, [0] * (count + 1)
    for k in range(1, count + 1):
        bucket = hash_of(name_of(k)) % buckets
        chain[k], heads[bucket] = heads[bucket], k
    return words(buckets, count + 1, *heads, *chain)


def symbol_table(count, defined):
    """Symbol k is function k, which stands at 4 * (k - 1) where it is defined. Names stand one behind the other from 1 on."""
    size = len(name_of(0)) + 1
    rows = (words(1 + size * (k - 1), 4 * (k - 1) if defined else 0, 4 * defined) for k in range(1, count + 1))
    return bytes(16) + b"".join(row + pack("<BBH", 0x12, 0, defined) for row in rows)


def relocations(kind, first, step, symbols):
    return b"".join(words(first + step * at, symbol << 8 | kind) for at, symbol in enumerate(symbols))


def elf(kind, text, data, tags, tables):
    """Text, tables with the dynamic section behind them, and data. `tables` has the bytes of each tag that names some."""
    held = b""
    for tag, table in tables:
        tags = [*tags, tag, TABLES + len(held)]
        held += table + bytes(-len(table) % 4)
    dynamic = words(*tags, 0, 0)
    offset, loads = 52 + 4 * 32, b""
    segments = [(text, 0, 5), (held + dynamic, TABLES, 4), (data, DATA, 6)]
    for part, address, flags in segments:
        loads += words(1, offset, address, address, len(part), len(part), flags, 4)
        if address == TABLES:
            at = len(held)
            loads += words(2, offset + at, address + at, address + at, len(dynamic), len(dynamic), 4, 4)
        offset += len(part)
    header = b"\x7fELF\x01\x01\x01\x41" + bytes(8)
    header += pack("<HHIIIIIHHHHHH", kind, 40, 1, 0, 52, 0, 0x05000000, 52, 32, 4, 40, 0, 0)
    return header + loads + b"".join(part for part, _, _ in segments)


def strings(count, *others):
    return b"\0" + b"".join(name_of(k) + b"\0" for k in range(1, count + 1)) + b"".join(it + b"\0" for it in others)


def library(count, variant):
    text, data, rel, tags = words(BX_LR) * count, bytes(12), b"", [PLTGOT, DATA]
    if variant == "symbolic":
        rel = relocations(ABS32, DATA + 12, 4, range(1, count + 1))
        data += bytes(4 * count)
        tags += [SYMBOLIC, 0]
    if variant == "descriptors":  # on symbol 0, with the function's link address as the addend
        rel = relocations(FUNCDESC_VALUE, DATA + 12, 8, [0] * count)
        data += b"".join(words(4 * k, 0) for k in range(count))
    names = strings(count)
    tables = [(HASH, hash_table(count)), (SYMTAB, symbol_table(count, True)), (STRTAB, names)]
    if rel:
        tables.append((REL, rel))
        tags += [RELSZ, len(rel), RELENT, 8]
    return elf(3, text, data, [*tags, STRSZ, len(names), SYMENT, 16], tables)


def program(count, variant):
    kind = FUNCDESC if variant == "descriptors" else ABS32
    numbers = range(1, count + 1)
    slots = relocations(FUNCDESC_VALUE, DATA + 12, 8, numbers)
    rel = relocations(kind, DATA + 12 + 8 * count, 4, numbers)
    names = strings(count, b"lib.so")
    tags = [PLTGOT, DATA, NEEDED, len(names) - len(b"lib.so\0"), STRSZ, len(names), SYMENT, 16]
    tags += [RELSZ, len(rel), RELENT, 8, PLTREL, REL, PLTRELSZ, len(slots)]
    tables = [(HASH, hash_table(count)), (SYMTAB, symbol_table(count, False)), (STRTAB, names), (REL, rel), (JMPREL, slots)]
    return elf(2, words(MOV_R0_0, SVC_0), bytes(12 + 12 * count), tags, tables)


def assembly(folder, count):
    names = [name_of(k).decode() for k in range(1, count + 1)]
    functions = "".join(f".global {it}\n.type {it}, %function\n{it}: bx lr\n" for it in names)
    (folder / "lib.s").write_text(f".arch armv5t\n.text\n{functions}")
    calls, kept = "".join(f"bl {it}\n" for it in names), "".join(f".word {it}\n" for it in names)
    (folder / "prog.s").write_text(f".arch armv5t\n.text\n.global _start\n_start:\n{calls}.data\n{kept}")


def main(folder, count, variant):
    folder, count = pathlib.Path(folder), int(count)
    if variant == "assembly":
        assembly(folder, count)
        return
    (folder / "lib.so").write_bytes(library(count, variant))
    (folder / "prog").write_bytes(program(count, variant))
    (folder / "prog.job").write_text("fdpic-job 1\nprogram prog\nmode eager\nmemory 8388608\n")


if __name__ == "__main__":
    sys.exit(main(*sys.argv[1:]) if len(sys.argv) == 4 else __doc__)
