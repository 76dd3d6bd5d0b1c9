#!/usr/bin/env bash
# Times 10^8 steps of a hart over RAM against an interpreter in C (interp.c, gcc -O2) on the same program, and
# prints the ratio.
here=$(cd "$(dirname "$0")" && pwd)
. "$here/../compare.sh"
. "$here/../loop.sh"

mkdir -p "$work/crates/bench_hart/src" "$work/crates/bench_hart/specs"
copy_crates tb_base byte_pages guest_ram rv_word csr_file rv_arith rv_exec
{ grep -E '^(tb_base|byte_pages|guest_ram|rv_word|csr_file|rv_arith|rv_exec):' "$top/crates.txt"
  echo "bench_hart: tb_base byte_pages guest_ram rv_word csr_file rv_arith rv_exec anyhow"; } > "$work/crates.txt"
echo "pub mod RamBus" > "$work/crates/bench_hart/specs/Lib.antt"
cat > "$work/crates/bench_hart/specs/RamBus.antt" <<'SPECS'
use Rattle.std.specs.Prelude.{ℕ, List, false}
use Rattle.tb_base.specs.declared.width.Width.TheVariants.{Word}
use Rattle.guest_ram.specs.Bytes.{ram_load, ram_store}
use Rattle.rv_exec.specs.BusOf.{BusOf}

abbrev pub ram_bus : BusOf (List ℕ)
ram_bus = record {
  fetched = λ s pc. ram_load s pc Word;
  loaded = ram_load;
  stored = ram_store;
  lines_of = λ s. record { software = false; timer = false; external = false };
  now_of = λ s. 0;
  is_stopped = λ s. false }
SPECS
cat > "$work/crates/bench_hart/src/main.rt" <<PROGRAM
//! 10^8 steps of a hart over RAM.
#![tactic(auto)]

ghost use Rattle.std.specs.Prelude.{List, ℕ};
ghost use Rattle.bench_hart.specs.RamBus.{ram_bus};

use csr_file::Lines;
use guest_ram::{MemFault, Ram};
use rv_exec::{Bus, Hart, Stepped};
use tb_base::Width;

const STEPS: u64 = 100_000_000;

#[derive(Drop)]
struct RamBus {
    ram: Ram,
}

impl Bus for RamBus {
    ghost State = { List ℕ };

    ghost bus_state = { λ b. b.ram };

    ghost bus = { ram_bus };

    ghost ready = { λ _. Unit {0} };

    fn fetch(&self, pc: u32) -> Result<u32, MemFault> {
        self.ram.load(pc, Width::Word)
    }

    fn load(&mut self, addr: u32, width: Width) -> Result<u32, MemFault> {
        self.ram.load(addr, width)
    }

    fn store(&mut self, addr: u32, width: Width, value: u32) -> Result<(), MemFault> {
        self.ram.store(addr, width, value)
    }

    fn lines(&self) -> Lines {
        Lines { software: false, timer: false, external: false }
    }

    fn now(&self) -> u64 {
        0
    }

    fn stopped(&self) -> bool {
        false
    }
}

fn main(rt: HostRuntime) -> Result<(), anyhow::Error> {
    let Ok(mut ram) = Ram::new(rt.alloc(), 65536) else {
        return Ok(());
    };
    let mut at = 0x8000_0000u32;
    for word in [$words] {
        let _ = ram.store(at, Width::Word, word);
        at = at.wrapping_add(4);
    }
    let mut hart = Hart::new(0x8000_0000);
    let mut bus = RamBus { ram };
    let mut retired = 0u64;
    let mut mixed = 0u32;
    for _ in 0..STEPS {
        match hart.step(&mut bus) {
            Stepped::Retired { pc, word } => {
                retired = retired.wrapping_add(1);
                mixed = mixed.wrapping_mul(31).wrapping_add(pc).wrapping_add(word);
            }
            _ => {}
        }
    }
    println!(rt; "{retired} {mixed} {} {} {}", hart.reg(5), hart.reg(6), hart.reg(7))?;
    Ok(())
}
PROGRAM

gcc -O2 "-DPROGRAM=$words" -o "$work/interp" "$here/interp.c"
(cd "$work/crates/bench_hart" && rt run > "$work/log" 2>&1) || { grep -E 'error|no proof' "$work/log" | head -5; exit 1; }

compare hart "$work/crates/bench_hart/out/bench_hart" "$work/interp" 1.2
