#!/bin/sh
# Compares what `show` prints of the relocatable files of examples/real/obj, by both builds of `fdpic`, with what readelf says:
# sections, relocations and symbols, line by line. Where readelf isn't installed nothing is compared. Called at the project's
# top, after the gate.
command -v readelf >/dev/null && command -v python3 >/dev/null || exit 0
for program in fdpic fdpic.by-rattle; do
    FDPIC=$PWD/crates/fdpic/out/$program tests/against_readelf.py examples/real/obj >/dev/null || exit 1
done
