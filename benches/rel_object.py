"""Writes a relocatable file to a path: rel_object.py PATH SYMBOLS RELOCATIONS, the relocations in two sections. `rel_file` makes the
bytes of any file with a text and a data section, also for other scripts."""

import struct
import sys

TEXT, DATA = 1, 2  # the numbers of the sections, for symbols
NAMES = b"\0.text\0.data\0.rel.text\0.rel.data\0.symtab\0.strtab\0.shstrtab\0"


def words(*values):
    return struct.pack(f"<{len(values)}I", *values)


def rel_file(text, data, rels, symbols):
    """The file of two sections, the relocations of each (offset, symbol, kind), and symbols behind the null one, local ones first
    (name, value, size, info, section)."""
    table, strings = words(0, 0, 0, 0), b"\0" + b"".join(it[0] + b"\0" for it in symbols if it[0])
    rows, at = [], 1
    for name, value, size, info, section in symbols:
        rows.append(struct.pack("<IIIBBH", at if name else 0, value, size, info, 0, section))
        at += len(name) + 1 if name else 0
    table += b"".join(rows)
    locals_ = 1 + sum(info < 16 for _, _, _, info, _ in symbols)
    tables = [b"".join(words(offset, symbol * 256 + kind) for offset, symbol, kind in it) for it in rels]
    parts = [text, data, *tables, table, strings, NAMES]
    sections = [
        (b".text", 1, 6, 0, 0, 4, 0),
        (b".data", 1, 3, 0, 0, 4, 0),
        (b".rel.text", 9, 0x40, 5, 1, 4, 8),
        (b".rel.data", 9, 0x40, 5, 2, 4, 8),
        (b".symtab", 2, 0, 6, locals_, 4, 16),
        (b".strtab", 3, 0, 0, 0, 1, 0),
        (b".shstrtab", 3, 0, 0, 0, 1, 0),
    ]
    image, headers = bytes(52), words(*[0] * 10)
    for part, (name, kind, flags, link, info, align, entry) in zip(parts, sections):
        image += bytes(-len(image) % 4)
        headers += words(NAMES.index(name + b"\0"), kind, flags, 0, len(image), len(part), link, info, align, entry)
        image += part
    image += bytes(-len(image) % 4)
    header = b"\x7fELF\x01\x01\x01" + bytes(9) + struct.pack("<HH", 1, 40) + words(1, 0, 0, len(image), 0x05000000)
    header += struct.pack("<6H", 52, 0, 0, 40, len(sections) + 1, len(sections))
    return header + image[52:] + headers


def main(path, count, relocations):
    half = relocations // 2
    symbols = [(b"function_%d" % k, 4 * (k % half), 4, 0x12, 1 + k % 2) for k in range(1, count)]
    # R_ARM_JUMP24, and R_ARM_ABS32
    rels = [[(4 * k, 1 + k % (count - 1), kind) for k in range(half)] for kind in (29, 2)]
    with open(path, "wb") as it:
        it.write(rel_file(bytes(4 * half), bytes(4 * half), rels, symbols))


if __name__ == "__main__":
    main(sys.argv[1], int(sys.argv[2]), int(sys.argv[3]))
