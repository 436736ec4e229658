#!/bin/sh
# How many megabytes a second the reader takes, beside the time that readelf takes for the same file, where it is
# installed. The file is FILE, or else a library of 60,000 functions that is made for it. The program stands in a
# folder of its own for the time of the run, beside copies of the crates that it uses, and is not part of the gate.
#
# usage: benches/reader.sh [FILE]
set -eu

top=$(cd "$(dirname "$0")/.." && pwd)
work=$(mktemp -d)
trap 'rm -rf "$work"' EXIT

mkdir -p "$work/crates/reader_bench/src" "$work/crates/reader_bench/data"
for crate in fd_base elf_model elf_read; do
    mkdir -p "$work/crates/$crate"
    cp -r "$top/crates/$crate/src" "$top/crates/$crate/specs" "$top/crates/$crate/proofs" "$work/crates/$crate/"
done
grep -E '^(fd_base|elf_model|elf_read):' "$top/crates.txt" > "$work/crates.txt"
echo 'reader_bench: elf_model elf_read fd_base' >> "$work/crates.txt"

file=$work/crates/reader_bench/data/large.so
if [ $# -gt 0 ]; then
    cp "$1" "$file"
else
    python3 - "$file" <<'END'
import struct
import sys

COUNT, BUCKETS, TABLES = 60000, 16381, 0x20000


def hashed(name):
    """The hash of the gABI's "Hash Table"."""
    h = 0
    for byte in name:
        h = (h << 4) + byte
        top = h & 0xF0000000
        h = (h ^ (top >> 24)) & 0x0FFFFFFF
    return h


def words(*values):
    return struct.pack(f"<{len(values)}I", *values)


strings, symbols = b"\0", words(0, 0, 0, 0)
heads, chain = [0] * BUCKETS, [0] * (COUNT + 1)
for k in range(1, COUNT + 1):
    name = b"function_%d" % k
    symbols += words(len(strings), 4 * (k % 1024), 4) + struct.pack("<BBH", 0x12, 0, 1)
    bucket = hashed(name) % BUCKETS
    chain[k], heads[bucket] = heads[bucket], k
    strings += name + b"\0"
hashes = words(BUCKETS, COUNT + 1, *heads, *chain)
text, data = bytes(4096), bytes(12)
dynamic_at = TABLES + len(hashes) + len(symbols)
dynamic = words(4, TABLES, 6, TABLES + len(hashes), 11, 16, 3, 0x10000)
strings_at = dynamic_at + len(dynamic) + 24
dynamic += words(5, strings_at, 10, len(strings), 0, 0)
tables = hashes + symbols + dynamic + strings


def segment(kind, offset, address, size, flags):
    return words(kind, offset, address, address, size, size, flags, 16)


first, second, third = 192, 192 + 4096, 192 + 4096 + 16
header = b"\x7fELF\x01\x01\x01\x41" + bytes(8) + struct.pack("<HH", 3, 40) + words(1, 0, 52, 0, 0x05000000)
header += struct.pack("<6H", 52, 32, 4, 40, 0, 0)
header += segment(1, first, 0, len(text), 5) + segment(1, second, 0x10000, len(data), 6)
header += segment(1, third, TABLES, len(tables), 4)
header += segment(2, third + dynamic_at - TABLES, dynamic_at, len(dynamic), 4)
image = header.ljust(first, b"\0") + text + data.ljust(16, b"\0") + tables
with open(sys.argv[1], "wb") as it:
    it.write(image)
END
fi

cat > "$work/crates/reader_bench/src/main.rt" <<'END'
//! A file, read as an object again and again.
#![tactic(auto)]

use elf_read::read_object;
use fd_base::{DirStore, Name, Store};
use std::io;
use std::time::CpuClock;

const TIMES: u32 = 20;

fn main(rt: HostRuntime) -> io::Result<()> {
    let alloc = rt.alloc();
    let mut store = DirStore::new(&rt);
    let Ok(name) = Name::new(alloc, b"data/large.so") else {
        return println!(rt; "no memory");
    };
    let Ok(Some(bytes)) = store.fetch(alloc, &name) else {
        return println!(rt; "no file");
    };
    let begin = rt.thread_cpu_time()?;
    let mut symbols = 0usize;
    for _ in 0..TIMES {
        match read_object(alloc, bytes.as_slice()) {
            Ok(object) => symbols = object.symbols.len(),
            Err(_) => return println!(rt; "refused"),
        }
    }
    let micros = rt.thread_cpu_time()?.saturating_sub(begin).as_micros();
    let count = bytes.len();
    println!(rt; "{count} bytes with {symbols} symbols, read {TIMES} times in {micros} microseconds")
}
END
cd "$work/crates/reader_bench"
rt run
echo "readelf, once:"
if command -v readelf > /dev/null; then
    time -p readelf -hlds -D --wide "$file" > /dev/null
else
    echo "not installed"
fi
