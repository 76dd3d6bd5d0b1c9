#!/usr/bin/env bash
# Times 800,000 frames that net_dev sends and receives again, of 64 bytes and of 1514, against a C program that moves the
# same bytes through rings of the same shape (net.c, gcc -O2), and prints the ratios.
here=$(cd "$(dirname "$0")" && pwd)
. "$here/../compare.sh"

crates="tb_base tb_text byte_pages guest_ram csr_file trace_rec split_queue virtio_regs disk_model dev_face net_dev"
copy_crates $crates
grep -E "^(${crates// /|}):" "$top/crates.txt" > "$work/crates.txt"
echo "bench_net: tb_base guest_ram trace_rec dev_face net_dev anyhow" >> "$work/crates.txt"
for name in . bring_up ready turn run; do mkdir -p "$work/crates/bench_net/proofs/$name"; done
mkdir -p "$work/crates/bench_net/src" "$work/crates/bench_net/specs"
cat > "$work/crates/bench_net/src/main.rt" <<'PROGRAM'
//! 100,000 ticks of eight frames each. What leaves the nic in one arrives at it in the next.
#![tactic(auto)]
ghost use Rattle.std.specs.Prelude.{ℕ, ◌≡◌, ◌+◌, ◌<◌, ◌≤◌, ◌^◌, length, OnOk, IfOk};
ghost use Rattle.dev_face.specs.States.{IsSetUp, IsComing, kind_of};
ghost use Rattle.net_dev.specs.NicView.{nic_state};
ghost use Rattle.bench_net.specs.Ready.{BeginsNext};

use dev_face::{DevConfig, Device};
use guest_ram::Ram;
use net_dev::Nic;
use std::alloc::Global;
use std::env;
use tb_base::{Frame, ItemList, NoMemory, Width};
use trace_rec::Log;

const SIZE: u32 = 65536;
const RECEIVED: u32 = 0x8000_1000;
const SENT: u32 = 0x8000_0000;
const RECEIVED_DATA: u32 = 0x8000_a000;
const SENT_DATA: u32 = 0x8000_4000;
const ROOM: u32 = 2048;
const QUEUE: u32 = 8;
const TURNS: u32 = 100_000;

fn put(ram: &mut Ram, addr: u32, word: u32) {
    let _ = ram.store(addr, Width::Word, word);
}

/// A queue has its table, its available ring at 0x400 and its used ring at 0x800.
fn prepare(ram: &mut Ram, queue: u32, data: u32, len: u32, flags: u32) {
    for j in 0..QUEUE {
        let at = queue.wrapping_add(16 * j);
        put(ram, at, data.wrapping_add(ROOM * j));
        put(ram, at.wrapping_add(8), len);
        put(ram, at.wrapping_add(12), flags);
        let _ = ram.store(queue.wrapping_add(0x404 + 2 * j), Width::Half, j);
    }
}

fn bring_up(nic: &mut Nic)
    requires { IsSetUp (nic_state nic.old) }
    ensures kind { kind_of (nic_state nic.new) ≡ kind_of (nic_state nic.old) }
    ensures coming { (tick n : ℕ) → IsComing tick n (nic_state nic.old) → IsComing tick n (nic_state nic.new) }
{
    for (off, value) in [
        (0x70, 3),
        (0x20, 0x20),
        (0x24, 1),
        (0x20, 1),
        (0x70, 11),
        (0x30, 0),
        (0x38, QUEUE),
        (0x80, RECEIVED),
        (0x90, RECEIVED + 0x400),
        (0xa0, RECEIVED + 0x800),
        (0x44, 1),
        (0x30, 1),
        (0x38, QUEUE),
        (0x80, SENT),
        (0x90, SENT + 0x400),
        (0xa0, SENT + 0x800),
        (0x44, 1),
        (0x70, 15),
    ] {
        let word = off / 4;
        let _ = nic.store(0, 4 * word, Width::Word, value);
    }
}

fn ready(alloc: Global) -> Result<Nic, NoMemory>
    ensures { IfOk result (λ nic. BeginsNext 0 nic) }
{
    let mut nic = Nic::new(alloc);
    nic.set_up(&DevConfig::Net {
        guest: 0,
        nic: 0,
        slot: 0,
    })?;
    bring_up(&mut nic);
    Ok(nic)
}

fn drive(ram: &mut Ram, turn: u32) {
    for j in 0..QUEUE {
        put(ram, SENT_DATA + 12 + ROOM * j, turn.wrapping_add(j));
    }
    let count = turn.wrapping_add(1).wrapping_mul(QUEUE);
    let _ = ram.store(SENT + 0x402, Width::Half, count);
    let _ = ram.store(RECEIVED + 0x402, Width::Half, count);
}

fn turn(
    nic: &mut Nic,
    turn: u32,
    ram: &mut Ram,
    frames: &mut ItemList<Frame>,
    log: &mut Log,
) -> Result<(), NoMemory>
    requires { BeginsNext turn nic.old }
    ensures { OnOk result (BeginsNext (turn + 1) nic.new) }
{
    log.clear();
    nic.begin_tick(u64::from(turn), ram, frames, log)?;
    drive(ram, turn);
    let _ = nic.store(u64::from(turn), 0x50, Width::Word, 1);
    nic.end_tick(u64::from(turn), ram, frames, log)?;
    Ok(())
}

fn sum_of(ram: &Ram) -> u32 {
    let sent = ram.load(SENT + 0x802, Width::Half).unwrap_or(0);
    let received = ram.load(RECEIVED + 0x802, Width::Half).unwrap_or(0);
    let mut sum = sent.wrapping_add(received);
    for j in 0..QUEUE {
        let word = ram
            .load(RECEIVED_DATA + 12 + ROOM * j, Width::Word)
            .unwrap_or(0);
        sum = sum.wrapping_mul(31).wrapping_add(word);
    }
    sum
}

fn run(alloc: Global, len: u32) -> Result<u32, NoMemory> {
    let mut ram = Ram::new(alloc, SIZE)?;
    let mut log = Log::new(alloc);
    let mut frames = ItemList::new(alloc);
    prepare(&mut ram, SENT, SENT_DATA, len.wrapping_add(12), 0);
    prepare(&mut ram, RECEIVED, RECEIVED_DATA, 1526, 2);
    let mut nic = ready(alloc)?;
    'turns: for now in 0..TURNS {
        turn(&mut nic, now, &mut ram, &mut frames, &mut log)?;
    }
    Ok(sum_of(&ram))
}

fn main(rt: HostRuntime) -> Result<(), anyhow::Error> {
    let long = env::args(&rt)?.skip(1).next().is_some();
    let Ok(sum) = run(rt.alloc(), if long { 1514 } else { 64 }) else {
        return Ok(());
    };
    println!(rt; "{sum}")?;
    Ok(())
}
PROGRAM
echo 'pub mod Ready' > "$work/crates/bench_net/specs/Lib.antt"
cat > "$work/crates/bench_net/specs/Ready.antt" <<'SPEC'
use Rattle.std.specs.Prelude.{◌≡◌, ℕ}
use Rattle.dev_face.specs.States.{kind_of, IsComing}
use Rattle.dev_face.specs.declared.kind.Kind.TheVariants as kind
use Rattle.net_dev.specs.NicView.{nic_state}
use Rattle.net_dev.specs.declared.nic.Nic.{Nic}

-- this tick is the next that the nic begins
pub record BeginsNext (now : ℕ) (nic : Nic) : Type 0 where
  pub is_nic : kind_of (nic_state nic) ≡ kind.Net
  pub coming : (n : ℕ) → IsComing now n (nic_state nic)
SPEC
: > "$work/crates/bench_net/proofs/Lib.antt"
cat > "$work/crates/bench_net/proofs/bring_up/Invariants.antt" <<'PROOF'
use Rattle.std.proofs.Common.{◌≡◌, ℕ}
use Rattle.dev_face.specs.States.{IsSetUp, IsComing, kind_of}
use Rattle.net_dev.specs.NicView.{nic_state}
use Rattle.bench_net.proofs.bring_up.Given as goal

abbrev pub invariant-loop-off : goal.invariant-loop-off
invariant-loop-off l = record {
  set_up : IsSetUp (nic_state l.nic);
  kind : kind_of (nic_state l.nic) ≡ kind_of (nic_state l.fn.nic);
  coming : (tick n : ℕ) → IsComing tick n (nic_state l.fn.nic) → IsComing tick n (nic_state l.nic);
}
PROOF
cat > "$work/crates/bench_net/proofs/bring_up/Answers.antt" <<'PROOF'
use Rattle.std.proofs.Common.{◌∙◌}
use Rattle.bench_net.proofs.bring_up.Goals as goal

pub loop-off-preserved : goal.loop-off-preserved
loop-off-preserved c =
    let i = c.loop-off.invariant in
    let e = c.store.ensures in
    record { set_up = e.still; kind = e.kind ∙ i.kind; coming = λ tick n h. e.coming tick n (i.coming tick n h) }
PROOF
cat > "$work/crates/bench_net/proofs/ready/Answers.antt" <<'PROOF'
use Rattle.std.proofs.Common.{refl, sym, ◌∙◌, ap, subst}
use Rattle.dev_face.specs.States.{DevState, kind_of, IsComing}
use Rattle.bench_net.proofs.ready.Goals as goal

pub returns : goal.returns
returns c =
    let e = c.bring_up.ensures in
    let opened = c.in_ok-set_up.ensures.ok in
    record { is_nic = e.kind ∙ ap kind_of opened; coming = λ n. e.coming 0 n (subst (λ (s : DevState). IsComing 0 n s) (sym opened) (record { set_up = refl; next = refl; flies = tt })) }
PROOF
cat > "$work/crates/bench_net/proofs/turn/Answers.antt" <<'PROOF'
use Rattle.std.proofs.Common.{ℕ, length, sym, subst}
use Rattle.dev_face.specs.States.{IsComing}
use Rattle.net_dev.specs.NicView.{nic_state}
use Rattle.bench_net.proofs.turn.Goals as goal

pub begin_tick-requires-clause-coming : goal.begin_tick-requires-clause-coming
begin_tick-requires-clause-coming c =
    let size : ℕ = length c.args.ram.now in
    subst (λ (n : ℕ). IsComing n size (nic_state c.args.nic.now)) (sym c.from.ensures) (c.requires.coming size)
PROOF
cat > "$work/crates/bench_net/proofs/run/Invariants.antt" <<'PROOF'
use Rattle.bench_net.specs.Ready.{BeginsNext}
use Rattle.bench_net.proofs.run.Given as goal

abbrev pub invariant-turns : goal.invariant-turns
invariant-turns l = BeginsNext l.now l.nic
PROOF

build_both net
ours=$work/crates/bench_net/out/bench_net
printf '#!/bin/sh\nexec %s 1514\n' "$ours" > "$work/long_ours"
printf '#!/bin/sh\nexec %s 1514\n' "$work/net_c" > "$work/long_c"
chmod +x "$work/long_ours" "$work/long_c"

compare "net_dev, 64 bytes" "$ours" "$work/net_c" 4
compare "net_dev, 1514 bytes" "$work/long_ours" "$work/long_c" 4
