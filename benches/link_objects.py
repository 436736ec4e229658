#!/usr/bin/env python3
"""Writes the relocatable files of a link: FILES of them, 0.o and so on, each with SYMBOLS symbols and RELOCATIONS relocations.

usage: benches/link_objects.py FOLDER alone|program|plain FILES SYMBOLS RELOCATIONS

alone     for a link without libraries: calls, addresses, distances, offsets from the GOT and words of the GOT
program   besides lib0.o and lib1.o, each with 2,000 functions, from which some names are taken; calls, addresses, words of the GOT, and
          descriptors of functions
plain     the same without descriptors, which only a linker for FDPIC takes

A fifth of a file's symbols are local functions, two fifths global ones, a fifth objects, and a fifth names of other files, by turns
functions and objects, or where there are libraries by turns theirs and of other files. Each relocation has a word of its own.
"""

import pathlib
import sys

sys.dont_write_bytecode = True
from rel_object import DATA, TEXT, rel_file, words

ABS32, REL32, GOTOFF32, GOT_BREL, CALL = 2, 3, 24, 26, 28
GOTFUNCDESC, GOTOFFFUNCDESC, FUNCDESC = 161, 162, 163
BX_LR, BL = 0xE12FFF1E, 0xEBFFFFFE
LOCAL, FUNCTION, OBJECT, OUTSIDE = 0x02, 0x12, 0x11, 0x10  # binding and type; what is not defined is global, without a type
LIBRARY = 2000
# what a file's relocations are, by turns: the section that they are in, the kind, and what they may name
ALONE = [(TEXT, CALL, "called")] * 8 + [(DATA, ABS32, "any")] * 5 + [(TEXT, REL32, "called"), (DATA, REL32, "objects")]
ALONE += [(TEXT, GOTOFF32, "objects")] * 3 + [(TEXT, GOT_BREL, "any")] * 2
BOTH = [(TEXT, CALL, "called")] * 6 + [(DATA, ABS32, "any")] * 2 + [(TEXT, GOT_BREL, "any")]
PROGRAM = BOTH + [(DATA, FUNCDESC, "called"), (TEXT, GOTFUNCDESC, "called"), (TEXT, GOTOFFFUNCDESC, "local")]
PLAIN = BOTH + [(DATA, ABS32, "called"), (TEXT, GOT_BREL, "called"), (DATA, ABS32, "local")]
KINDS = {"alone": ALONE, "program": PROGRAM, "plain": PLAIN}


def function_name(file, k):
    return b"file_%d_function_%d" % (file, k)


def object_name(file, k):
    return b"file_%d_object_%d" % (file, k)


def library(number):
    symbols = [(b"library_%d_function_%d" % (number, k), 4 * k, 4, FUNCTION, TEXT) for k in range(LIBRARY)]
    return rel_file(words(BX_LR) * LIBRARY, b"", ([], []), symbols)


def outside_names(variant, file, files, functions, objects, count):
    """Names that a file takes from elsewhere: which are functions, and which objects."""
    of_functions, of_objects = {}, {}
    for k in range(count):
        other = (file + 1 + k * 7) % files
        if k % 2:
            of_functions[function_name(other, (k * 31 + file) % functions)] = None
        elif variant == "alone":
            of_objects[object_name(other, (k * 17 + file) % objects)] = None
        else:
            of_functions[b"library_%d_function_%d" % (k // 2 % 2, (k * 97 + file * 13) % LIBRARY)] = None
    return list(of_functions), list(of_objects)


def input_file(variant, file, files, count, relocations):
    turns = [KINDS[variant][k % len(KINDS[variant])] for k in range(relocations)]
    # a fifth of what is left beside the null symbol and those of the sections
    part = (count - 3) // 5
    functions, objects = count - 3 - 3 * part, part
    sizes = {TEXT: max(sum(it[0] == TEXT for it in turns), 1), DATA: max(sum(it[0] == DATA for it in turns), 1)}
    symbols = [(b"", 0, 0, 3, TEXT), (b"", 0, 0, 3, DATA)]
    symbols += [(b"local_%d" % k, 4 * (k * 5 % sizes[TEXT]), 4, LOCAL, TEXT) for k in range(part)]
    start = len(symbols)
    symbols += [(function_name(file, k), 4 * (k * 3 % sizes[TEXT]), 4, FUNCTION, TEXT) for k in range(functions)]
    if file == 0:
        symbols[start] = (b"_start", 0, 4, FUNCTION, TEXT)
    symbols += [(object_name(file, k), 4 * (k % sizes[DATA]), 4, OBJECT, DATA) for k in range(objects)]
    of_functions, of_objects = outside_names(variant, file, files, functions, objects, part)
    symbols += [(name, 0, 0, OUTSIDE, 0) for name in of_functions + of_objects]
    numbers = range(1, len(symbols) + 1)  # with the null symbol
    outside = start + functions + objects
    named = {
        "local": numbers[2:start],
        "called": [*numbers[2 : start + functions], *numbers[outside : outside + len(of_functions)]],
        "objects": [*numbers[start + functions : outside], *numbers[outside + len(of_functions) :]],
        "any": numbers[2:],
    }
    held, rels = {TEXT: [], DATA: []}, {TEXT: [], DATA: []}
    for k, (section, kind, which) in enumerate(turns):
        rels[section].append((4 * len(held[section]), named[which][k * 7919 % len(named[which])], kind))
        held[section].append(BL if kind == CALL else 0)
    bytes_of = {it: words(*held[it]).ljust(4 * sizes[it], b"\0") for it in held}
    return rel_file(bytes_of[TEXT], bytes_of[DATA], (rels[TEXT], rels[DATA]), symbols)


def main(folder, variant, files, count, relocations):
    folder, files = pathlib.Path(folder), int(files)
    for file in range(files):
        (folder / f"{file}.o").write_bytes(input_file(variant, file, files, int(count), int(relocations)))
    if variant != "alone":
        for number in range(2):
            (folder / f"lib{number}.o").write_bytes(library(number))


if __name__ == "__main__":
    sys.exit(main(*sys.argv[1:]) if len(sys.argv) == 6 else __doc__)
