#!/bin/sh
# How long a relocatable file of 60,000 symbols and 100,000 relocations in two sections takes to be read, and to be written
# again, beside an objcopy that knows Arm, where one is installed. The program stands in a folder of its own for the time of
# the run, beside copies of the crates that it uses, and is not part of the gate.
#
# usage: benches/write_rel.sh [SYMBOLS [RELOCATIONS]]
set -eu

top=$(cd "$(dirname "$0")/.." && pwd)
work=$(mktemp -d)
trap 'rm -rf "$work"' EXIT

mkdir -p "$work/crates/write_bench/src" "$work/crates/write_bench/data"
for crate in fd_base elf_model elf_read elf_read_rel elf_write; do
    mkdir -p "$work/crates/$crate"
    cp -r "$top/crates/$crate/src" "$top/crates/$crate/specs" "$top/crates/$crate/proofs" "$work/crates/$crate/"
done
grep -E '^(fd_base|elf_model|elf_read|elf_read_rel|elf_write):' "$top/crates.txt" >"$work/crates.txt"
echo 'write_bench: fd_base elf_model elf_read_rel elf_write' >>"$work/crates.txt"

file=$work/crates/write_bench/data/large.o
python3 "$top/benches/rel_object.py" "$file" "${1:-60000}" "${2:-100000}"

cat >"$work/crates/write_bench/src/main.rt" <<'END'
//! A relocatable file, read and written again and again.
#![tactic(auto)]

use elf_read_rel::read_rel_object;
use elf_write::write_rel_object;
use fd_base::{DirStore, Name, Store};
use std::io;
use std::time::CpuClock;

const TIMES: u32 = 20;

fn main(rt: HostRuntime) -> io::Result<()> {
    let alloc = rt.alloc();
    let mut store = DirStore::new(&rt);
    let Ok(name) = Name::new(alloc, b"data/large.o") else {
        return println!(rt; "no memory");
    };
    let Ok(Some(bytes)) = store.fetch(alloc, &name) else {
        return println!(rt; "no file");
    };
    let begin = rt.thread_cpu_time()?;
    for _ in 0..TIMES {
        if read_rel_object(alloc, bytes.as_slice()).is_err() {
            return println!(rt; "refused");
        }
    }
    let read = rt.thread_cpu_time()?;
    let Ok(object) = read_rel_object(alloc, bytes.as_slice()) else {
        return println!(rt; "refused");
    };
    let again = rt.thread_cpu_time()?;
    let mut count = 0usize;
    for _ in 0..TIMES {
        match write_rel_object(alloc, &object) {
            Ok(file) => count = file.len(),
            Err(_) => return println!(rt; "not written"),
        }
    }
    let written = rt.thread_cpu_time()?;
    let (in_read, in_write) = (read.saturating_sub(begin).as_micros(), written.saturating_sub(again).as_micros());
    let length = bytes.len();
    println!(rt; "{length} bytes, read {TIMES} times in {in_read} microseconds")?;
    println!(rt; "{count} bytes, written {TIMES} times in {in_write} microseconds")
}
END
cd "$work/crates/write_bench"
rt run
for tool in arm-none-eabi-objcopy arm-linux-gnueabi-objcopy; do
    if command -v "$tool" >/dev/null; then
        echo "$tool, once:"
        time -p "$tool" "$file" "$work/copy.o"
        exit
    fi
done
echo "no objcopy for Arm is installed"
