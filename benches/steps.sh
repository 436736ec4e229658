#!/bin/sh
# How many steps a second the machine takes over words that are kept decoded, on a loop of loads, stores, sums, a multiplication and a branch. The
# program stands in a folder of its own for the time of the run, beside copies of the crates that it uses, and is not
# part of the gate.
#
# usage: benches/steps.sh [STEPS]
set -eu

steps=${1:-100000000}
top=$(cd "$(dirname "$0")/.." && pwd)
work=$(mktemp -d)
trap 'rm -rf "$work"' EXIT

bench=$work/crates/steps_bench
mkdir -p "$bench/src" "$bench/proofs/map_next"
for crate in fd_base a32_isa guest_mem a32_machine; do
    mkdir -p "$work/crates/$crate"
    cp -r "$top/crates/$crate/src" "$top/crates/$crate/specs" "$top/crates/$crate/proofs" "$work/crates/$crate/"
done
grep -E '^(fd_base|a32_isa|guest_mem|a32_machine):' "$top/crates.txt" > "$work/crates.txt"
echo 'steps_bench: a32_machine guest_mem fd_base' >> "$work/crates.txt"

# mapping two ranges is proved as in the tests of steps
sed "s/known_steps.proofs.steps.map_next/steps_bench.proofs.map_next/" \
    "$top/crates/known_steps/proofs/steps/map_next/Answers.antt" > "$bench/proofs/map_next/Answers.antt"
touch "$bench/proofs/Lib.antt"

cat > "$bench/src/main.rt" <<END
//! A loop of instructions, obeyed again and again.
#![tactic(auto)]

ghost use Rattle.std.specs.Prelude.{◌≡◌, ◌+◌, ◌≤◌, ℕ, Some, None, IfOk, length};
ghost use Rattle.guest_mem.specs.Memory.{HaveKind, kind_at};

use a32_machine::{Cpu, DecodedWords, StepEnd, step_decoded};
use fd_base::Memory;
use guest_mem::{Guest, MemKind};
use std::alloc::Global;
use std::io;
use std::time::CpuClock;

const STEPS: u32 = $steps;

const LOOP: [u32; 10] = [
    0xe591_2000, // ldr r2, [r1]
    0xe282_2001, // add r2, r2, #1
    0xe581_2000, // str r2, [r1]
    0xe093_31a2, // adds r3, r3, r2, lsr #3
    0xe5d1_4004, // ldrb r4, [r1, #4]
    0xe035_5004, // eors r5, r5, r4
    0xe1c1_50b8, // strh r5, [r1, #8]
    0xe006_0392, // mul r6, r2, r3
    0x11a0_7006, // movne r7, r6
    0xeaff_fff5, // b to the first
];

fn zeroed(alloc: Global, size: u32) -> Result<Guest, Memory>
    ensures size { IfOk result (λ g. length g.bytes ≡ size) }
    ensures free { IfOk result (λ g. (a : ℕ) → kind_at g a ≡ None) }
{
    Guest::new(alloc, size)
}

fn map_next(guest: &mut Guest, start: u32, len: u32, kind: MemKind)
    requires inside { start + len ≤ length guest.old.bytes }
    requires free { (a : ℕ) → start ≤ a → kind_at guest.old a ≡ None }
    ensures size { length guest.new.bytes ≡ length guest.old.bytes }
    ensures there { HaveKind guest.new start len (Some kind) }
    ensures free { (a : ℕ) → start + len ≤ a → kind_at guest.new a ≡ None }
{
    guest.whole();
    guest.map(start, len, kind);
}

#[derive(Drop)]
struct Board {
    guest: Guest,
    ghost size: { 0x10000 ≤ length guest.bytes },
}

impl Board {
    fn new(alloc: Global) -> Result<Board, Memory> {
        let mut guest = zeroed(alloc, 0x1_0000)?;
        map_next(&mut guest, 0x1000, 0x1000, MemKind::Code);
        map_next(&mut guest, 0x2000, 0x1000, MemKind::Data);
        Ok(Board { guest })
    }

    fn put(&mut self, addr: u32, v: u32) {
        let bytes = v.to_le_bytes();
        if addr <= 0xfffc {
            self.guest.poke(addr, bytes[0]);
            self.guest.poke(addr + 1, bytes[1]);
            self.guest.poke(addr + 2, bytes[2]);
            self.guest.poke(addr + 3, bytes[3]);
        }
    }

    fn step(&mut self, words: &mut DecodedWords, cpu: &mut Cpu) -> StepEnd {
        step_decoded(words, cpu, &mut self.guest)
    }
}

fn main(rt: HostRuntime) -> io::Result<()> {
    let Ok(mut board) = Board::new(rt.alloc()) else {
        return println!(rt; "no memory");
    };
    let Ok(mut words) = DecodedWords::new(rt.alloc()) else {
        return println!(rt; "no memory");
    };
    let mut addr = 0x1000u32;
    for word in LOOP {
        board.put(addr, word);
        addr = addr.wrapping_add(4);
    }
    let mut cpu = Cpu {
        r: [0; 16],
        n: false,
        z: false,
        c: false,
        v: false,
    };
    cpu.r[1] = 0x2000;
    cpu.r[15] = 0x1000;
    let begin = rt.thread_cpu_time()?;
    for _ in 0..STEPS {
        if !matches!(board.step(&mut words, &mut cpu), StepEnd::Next) {
            return println!(rt; "the loop stopped");
        }
    }
    let millis = rt.thread_cpu_time()?.saturating_sub(begin).as_millis();
    let rounds = cpu.r[2];
    println!(rt; "{STEPS} steps, {rounds} rounds, in {millis} ms")
}
END
cd "$bench"
rt run
