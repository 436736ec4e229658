#!/bin/sh
# How many words a second are decoded, encoded again and printed. The program stands in a folder of its own
# for the time of the run, beside copies of the crates that it uses, and is not part of the gate.
#
# usage: benches/isa.sh [WORDS]
set -eu

words=${1:-20000000}
top=$(cd "$(dirname "$0")/.." && pwd)
work=$(mktemp -d)
trap 'rm -rf "$work"' EXIT

mkdir -p "$work/crates/isa_bench/src"
for crate in fd_base a32_isa; do
    mkdir -p "$work/crates/$crate"
    cp -r "$top/crates/$crate/src" "$top/crates/$crate/specs" "$top/crates/$crate/proofs" "$work/crates/$crate/"
done
grep -E '^(fd_base|a32_isa):' "$top/crates.txt" > "$work/crates.txt"
echo 'isa_bench: a32_isa fd_base' >> "$work/crates.txt"

cat > "$work/crates/isa_bench/src/main.rt" <<END
//! Words of a sequence that visits all 32 bits: decoded, encoded again, and printed.
#![tactic(auto)]

use a32_isa::{decode, encode, print};
use std::time::{CpuClock, Duration};

const WORDS: u32 = $words;

fn report(rt: &HostRuntime, what: &str, count: u32, took: Duration) -> std::io::Result<()> {
    let millis = took.as_millis();
    println!(rt; "{what}: {count} in {millis} ms")
}

fn main(rt: HostRuntime) -> std::io::Result<()> {
    let begin = rt.thread_cpu_time()?;
    let mut instructions = 0u32;
    for k in 0..WORDS {
        if decode(k.wrapping_mul(0x9e37_79b1)).is_some() {
            instructions = instructions.wrapping_add(1);
        }
    }
    let decoded = rt.thread_cpu_time()?;
    let mut odd = 0u32;
    for k in 0..WORDS {
        if let Some(i) = decode(k.wrapping_mul(0x9e37_79b1)) {
            odd = odd.wrapping_add(encode(&i) % 2);
        }
    }
    let encoded = rt.thread_cpu_time()?;
    let mut bytes = 0usize;
    let mut printed = 0u32;
    for k in 0..WORDS / 16 {
        if let Some(i) = decode(k.wrapping_mul(0x9e37_79b1)) {
            bytes = bytes.wrapping_add(print(rt.alloc(), &i)?.len());
            printed = printed.wrapping_add(1);
        }
    }
    let all = rt.thread_cpu_time()?;
    report(&rt, "words decoded", WORDS, decoded.saturating_sub(begin))?;
    report(&rt, "words decoded and encoded again", WORDS, encoded.saturating_sub(decoded))?;
    report(&rt, "instructions decoded and printed", printed, all.saturating_sub(encoded))?;
    println!(rt; "{instructions} instructions, {odd} of them odd, {bytes} bytes of text")
}
END
cd "$work/crates/isa_bench"
rt run
