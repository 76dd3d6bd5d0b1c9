#!/usr/bin/env bash
# Times 10^8 word loads and stores of guest_ram against the same loop in C, and prints the ratio. Neither program knows the size
# of RAM before it runs.
here=$(cd "$(dirname "$0")" && pwd)
. "$here/../compare.sh"

copy_crates tb_base byte_pages guest_ram
cat > "$work/crates.txt" <<'LIST'
tb_base:
byte_pages:
guest_ram: tb_base byte_pages
bench_ram: tb_base byte_pages guest_ram anyhow
LIST
mkdir -p "$work/crates/bench_ram/src"
cat > "$work/crates/bench_ram/src/main.rt" <<'PROGRAM'
//! 10^8 turns of one word load and one word store.
#![tactic(auto)]

use guest_ram::Ram;
use std::env;
use tb_base::Width;

const BASE: u32 = 0x8000_0000;
const TURNS: u64 = 100_000_000;

fn main(rt: HostRuntime) -> Result<(), anyhow::Error> {
    // The size is not known before the program runs, as it is in an experiment.
    let words = env::args(&rt)?.skip(1).count();
    let size = if words == 0 { 65536 } else { 131_072 };
    let Ok(mut ram) = Ram::new(rt.alloc(), size) else {
        return Ok(());
    };
    let mut place = 1u32;
    let mut sum = 0u32;
    for _ in 0..TURNS {
        place = place.wrapping_mul(1_664_525).wrapping_add(1_013_904_223);
        let addr = BASE.wrapping_add((place >> 14) & 0xfffc);
        let Ok(value) = ram.load(addr, Width::Word) else {
            return Ok(());
        };
        sum = sum.wrapping_add(value).wrapping_add(1);
        let Ok(()) = ram.store(addr, Width::Word, sum) else {
            return Ok(());
        };
    }
    println!(rt; "{sum}")?;
    Ok(())
}
PROGRAM

build_both ram

compare guest_ram "$work/crates/bench_ram/out/bench_ram" "$work/ram_c" 2
