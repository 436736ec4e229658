#!/bin/sh
# How long `link` takes, beside GNU ld for Arm, where one is installed. 200 files of 500 symbols and 1,000 relocations are linked alone
# (static); then with half the relocations, and half the files, which shows how the time grows. 200 files of 250 symbols and 300
# relocations are linked as a program over two libraries, and as a shared object over them. A line has the median of the processor
# time, user and system, with the least and the most; each round runs each command once. Where valgrind is installed, it has the
# instructions of this computer, too, which other work doesn't change.
#
# GNU ld gets -s, since `link` writes no symbols but the loader's. Where it doesn't know FDPIC (its emulations tell), it makes ordinary
# Arm code, which needs no list of fixups, and in the files of the program a fourth of the relocations are other ones (plain): words
# and offsets of addresses in the place of descriptors. `link` is measured with these, too.
#
# The program is the one that ./build has built, or FDPIC where that is set; this script is not part of the gate.
#
# usage: benches/link.sh [ROUNDS]     (default: 7)
set -eu

top=$(cd "$(dirname "$0")/.." && pwd)
program=${FDPIC:-$top/crates/fdpic/out/fdpic}
if [ ! -x "$program" ]; then
    echo "there is no $program yet: run ./build" >&2
    exit 1
fi
exec python3 - "$top/benches" "$program" "${1:-7}" <<'END'
import os
import pathlib
import re
import resource
import shutil
import statistics
import subprocess
import sys
import tempfile

sys.path.insert(0, sys.argv[1])
sys.dont_write_bytecode = True
import link_objects

PROGRAM, ROUNDS = sys.argv[2], int(sys.argv[3])
LIBRARIES = ("lib0", "lib1")


def found_ld():
    """GNU ld for Arm, with the words that choose FDPIC where it knows that; none where it isn't installed."""
    for tool in filter(shutil.which, ("arm-uclinuxfdpiceabi-ld", "arm-linux-gnueabi-ld", "arm-none-eabi-ld")):
        emulations = subprocess.run([tool, "-V"], capture_output=True, text=True, check=True).stdout
        fdpic = re.search(r"\barmelf_\w*fdpic\w*", emulations)
        return [tool, "-s", *(["-m", fdpic[0]] if fdpic else [])], fdpic is not None
    return None, False


def milliseconds(words, folder):
    """The processor time of a command."""
    spent = lambda: sum(resource.getrusage(resource.RUSAGE_CHILDREN)[:2])
    before = spent()
    ran = subprocess.run(words, cwd=folder, capture_output=True, check=False)
    if ran.returncode:
        sys.exit(f"{words[0]}: {ran.stderr.decode()[:500]}")
    return 1000 * (spent() - before)


def instructions(words, folder):
    """What a line says of the instructions that a command takes: nothing where valgrind isn't installed."""
    if not shutil.which("valgrind"):
        return ""
    counting = ["valgrind", "--tool=callgrind", "--callgrind-out-file=/dev/null"]
    said = subprocess.run([*counting, *words], cwd=folder, capture_output=True, text=True, check=True).stderr
    counted = int(re.search(r"Collected : (\d+)", said)[1])
    return f", {counted / 1e6:.1f} million instructions"


class Bench:
    def __init__(self, top):
        self.top, self.rows = top, []
        self.ld, self.knows_fdpic = found_ld()

    def files(self, variant, count, symbols, relocations):
        """A folder with the files of a link, and their names."""
        folder = self.top / f"{variant}_{count}_{symbols}_{relocations}"
        folder.mkdir()
        link_objects.main(folder, variant, count, symbols, relocations)
        return folder, [f"{k}.o" for k in range(count)]

    def add(self, what, folder, by, words):
        self.rows.append((what, folder, by, words))

    def alone(self, count, symbols, relocations):
        folder, names = self.files("alone", count, symbols, relocations)
        what = f"{count} files of {symbols} symbols and {relocations} relocations, static"
        self.add(what, folder, "fdpic link", [PROGRAM, "link", "out", "static", *names])
        if self.ld:
            self.add(what, folder, self.ld[0], [*self.ld, "-o", "gnu", *names])

    def over_libraries(self, variant, count, symbols, relocations):
        folder, names = self.files(variant, count, symbols, relocations)
        what = f"{count} files of {symbols} symbols and {relocations} relocations" + (" (plain)" if variant == "plain" else "")
        libs = [f"lib={it}.so" for it in LIBRARIES]
        for it in LIBRARIES:
            milliseconds([PROGRAM, "link", f"{it}.so", "shared", f"{it}.o"], folder)
        self.add(f"{what}, program", folder, "fdpic link", [PROGRAM, "link", "out", "program", *libs, *names])
        self.add(f"{what}, shared", folder, "fdpic link", [PROGRAM, "link", "out.so", "shared", *libs, *names])
        if self.ld and (variant == "plain" or self.knows_fdpic):
            theirs = [f"{it}.gnu.so" for it in LIBRARIES]
            for it, out in zip(LIBRARIES, theirs):
                milliseconds([*self.ld, "-shared", "-o", out, f"{it}.o"], folder)
            self.add(f"{what}, program", folder, self.ld[0], [*self.ld, "-o", "gnu", *names, *theirs])
            self.add(f"{what}, shared", folder, self.ld[0], [*self.ld, "-shared", "-o", "gnu.so", *names, *theirs])

    def run(self):
        took = [[] for _ in self.rows]
        for _ in range(ROUNDS):
            for times, (_, folder, _, words) in zip(took, self.rows):
                times.append(milliseconds(words, folder))
        for times, (what, folder, by, words) in zip(took, self.rows):
            said = f"{statistics.median(times):.0f} ms ({min(times):.0f} to {max(times):.0f})"
            print(f"{what}: {by} {said}{instructions(words, folder)}", flush=True)


with tempfile.TemporaryDirectory() as folder:
    bench = Bench(pathlib.Path(folder))
    bench.alone(200, 500, 1000)
    bench.alone(200, 500, 500)
    bench.alone(100, 500, 1000)
    bench.over_libraries("program", 200, 250, 300)
    if not bench.knows_fdpic:
        bench.over_libraries("plain", 200, 250, 300)
    print(f"{os.cpu_count()} processors, load {os.getloadavg()[0]:.1f} before; {ROUNDS} rounds")
    bench.run()
    print(f"load {os.getloadavg()[0]:.1f} after")
END
