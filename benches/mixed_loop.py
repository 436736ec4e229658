#!/usr/bin/env python3
"""Writes a program that takes 999,956 steps, its library and its job, word by word: 19,999 rounds of 50 steps, each of three turns
of eleven words (loads, stores, sums, a multiplication) and one call through the PLT. Beside them the same words in GNU as's
language for an ordinary linker: mixed.s, whose slot is filled beforehand, as a loader would.

usage: benches/mixed_loop.py FOLDER
"""

import pathlib
import sys
from struct import pack

DATA = 0x10000  # link address of the data, at whose start the GOT stands
ROUNDS, TURNS = 19_999, 3
CALL, NOT_EQUAL = 0xEB000000, 0x1A000000


def words(*values):
    return pack(f"<{len(values)}I", *values)


def branch(kind, at, to):
    """A branch from word `at` to word `to`, whose offset is counted from two words on."""
    return kind | (to - at - 2) & 0xFFFFFF


BEGIN = [
    0xE1A08009,  # mov r8, r9             the GOT, which a call through the PLT changes
    0xE2891014,  # add r1, r9, #20        what is loaded and stored, behind the GOT and its slot
    0xE3A04C00 | ROUNDS >> 8,  # mov r4, #(ROUNDS's upper bits)
    0xE3844000 | ROUNDS & 0xFF,  # orr r4, r4, #(its lower eight)
]
MIXED = [
    0xE5912000,  # ldr r2, [r1]
    0xE2822001,  # add r2, r2, #1
    0xE5812000,  # str r2, [r1]
    0xE09331A2,  # adds r3, r3, r2, lsr #3
    0xE5D15004,  # ldrb r5, [r1, #4]
    0xE0366005,  # eors r6, r6, r5
    0xE1C160B8,  # strh r6, [r1, #8]
    0xE00A0392,  # mul r10, r2, r3
    0x11A0B00A,  # movne r11, r10
    0xE18002EA,  # orr r0, r0, r10, ror #5
    0xE1D150B8,  # ldrh r5, [r1, #8]
]
PLT = [
    0xE59FC008,  # ldr r12, [pc, #8]      where the slot stands, counted from the GOT
    0xE08CC009,  # add r12, r12, r9
    0xE59C9004,  # ldr r9, [r12, #4]
    0xE59CF000,  # ldr pc, [r12]
    12,
    0,  # where its relocation stands in its table
    0xE51FC00C,  # ldr r12, [pc, #-12]    what binds the slot at its first call
    0xE92D1000,  # push {r12}
    0xE599C004,  # ldr r12, [r9, #4]
    0xE599F000,  # ldr pc, [r9]
]
FOO = [
    0xE0800006,  # add r0, r0, r6
    0xE12FFF1E,  # bx lr
]


def program():
    text = [*BEGIN]
    first = len(text)
    text.append(0xE3A07000 | TURNS)  # mov r7, #TURNS
    turn = len(text)
    text += MIXED
    text.append(0xE2577001)  # subs r7, r7, #1
    text.append(branch(NOT_EQUAL, len(text), turn))
    call = len(text)
    plt = call + 6
    text.append(branch(CALL, call, plt))
    text.append(0xE1A09008)  # mov r9, r8
    text.append(0xE2544001)  # subs r4, r4, #1
    text.append(branch(NOT_EQUAL, len(text), first))
    text += [0xE3A07001, 0xEF000000]  # mov r7, #1, which Linux asks for; svc #0 ends the process with r0
    return text + PLT, 4 * plt


def elf(kind, text, data, dynamic):
    """Text at link address 0 and, apart from it, the data and behind them the dynamic section."""
    data_at = 52 + 3 * 32 + len(text)
    dynamic_at = DATA + len(data)
    size = len(data) + len(dynamic)
    header = b"\x7fELF\x01\x01\x01\x41" + bytes(8)
    header += pack("<HHIIIIIHHHHHH", kind, 40, 1, 0, 52, 0, 0x05000000, 52, 32, 3, 40, 0, 0)
    segments = [
        (1, 52 + 3 * 32, 0, len(text), len(text), 5),
        (1, data_at, DATA, size, size, 6),
        (2, data_at + len(data), dynamic_at, len(dynamic), len(dynamic), 4),
    ]
    return header + b"".join(words(it, at, to, to, size, held, flags, 4) for it, at, to, size, held, flags in segments) + text + data + dynamic


def write_objects(folder):
    text, plt = program()
    data = words(0, 0, 0, plt + 24, 0)  # the GOT's header, and the slot, which leads to what binds it
    data += words(0, 0x5A, 0, 0)  # 0x10014: what is loaded and stored
    data += words(DATA + 12, 0x1A4)  # 0x10024: R_ARM_FUNCDESC_VALUE on symbol 1 at the slot
    data += words(1, 2, 1, 0, 0)  # 0x1002c: the hash table
    data += words(0, 0, 0, 0, 1, 0, 0, 0x12)  # 0x10040: `foo`, an undefined function
    data += b"\0foo\0foo.so\0"  # 0x10060
    dynamic = words(1, 5, 3, DATA, 23, DATA + 0x24, 2, 8, 20, 17)  # NEEDED, PLTGOT, JMPREL, PLTRELSZ, PLTREL
    dynamic += words(4, DATA + 0x2C, 6, DATA + 0x40, 5, DATA + 0x60, 10, 12, 0, 0)  # HASH, SYMTAB, STRTAB, STRSZ
    (folder / "prog").write_bytes(elf(2, words(*text), data, dynamic))
    data = words(0, 0, 0)  # the GOT's header
    data += words(1, 2, 1, 0, 0)  # 0x1000c: the hash table
    data += words(0, 0, 0, 0, 1, 0, 0, 0x10012)  # 0x10020: `foo`, a function at 0
    data += b"\0foo\0\0\0\0"  # 0x10040
    dynamic = words(3, DATA, 4, DATA + 0x0C, 6, DATA + 0x20, 5, DATA + 0x40, 10, 8, 0, 0)
    (folder / "foo.so").write_bytes(elf(3, words(*FOO), data, dynamic))
    (folder / "mixed.job").write_text("fdpic-job 1\nprogram prog\nmode eager\nsteps 1000000\n")


def write_assembly(folder):
    def listed(values):
        return "".join(f".word {it:#x}\n" for it in values)

    text, _ = program()
    lines = ".arch armv5t\n.arm\n.text\nfoo:\n" + listed(FOO)
    lines += ".global _start\n_start: ldr r9, =got\nmov r0, #0\nmov r3, #0\nmov r6, #0\n" + listed(text)
    lines += ".ltorg\n.data\ngot: .word 0, 0, 0, foo, got\n" + listed([0, 0x5A, 0, 0])
    (folder / "mixed.s").write_text(lines)


if __name__ == "__main__":
    if len(sys.argv) != 2:
        sys.exit(__doc__)
    write_objects(pathlib.Path(sys.argv[1]))
    write_assembly(pathlib.Path(sys.argv[1]))
