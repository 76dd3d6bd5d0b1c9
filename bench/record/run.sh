#!/usr/bin/env bash
# Times 10^7 instr lines of put_rec against snprintf of the same lines in C, and prints the ratio.
here=$(cd "$(dirname "$0")" && pwd)
. "$here/../compare.sh"

copy_crates tb_base tb_text trace_rec
cat > "$work/crates.txt" <<'LIST'
tb_base:
tb_text: tb_base itoa
trace_rec: tb_base tb_text
bench_record: tb_base trace_rec anyhow
LIST
mkdir -p "$work/crates/bench_record/src"
cat > "$work/crates/bench_record/src/main.rt" <<'PROGRAM'
//! 1,000 texts of 10,000 instr lines.
#![tactic(auto)]

use tb_base::Bytes;
use trace_rec::{Rec, What, put_rec};

fn main(rt: HostRuntime) -> Result<(), anyhow::Error> {
    let mut total = 0u64;
    for tick in 0..1000u64 {
        let mut text = Bytes::new(rt.alloc());
        for k in 0..10_000u32 {
            let what = What::Instr {
                pc: 0x8000_0000u32.wrapping_add(k),
                word: 0x6f,
            };
            let Ok(()) = put_rec(&mut text, 0, &Rec { tick, what }) else {
                return Ok(());
            };
        }
        total = total.wrapping_add(text.as_slice().len() as u64);
    }
    println!(rt; "{total}")?;
    Ok(())
}
PROGRAM

build_both record

compare put_rec "$work/crates/bench_record/out/bench_record" "$work/record_c" 3
