#!/usr/bin/env bash
# Times 400,000 requests of 4 KiB of blk_dev, reads and writes in turn, against a C program that copies the same blocks
# between two arrays through a ring of the same shape (disk.c, gcc -O2), and prints the ratio. Then the same on a disk of 512
# times as many sectors, whose pages are made as they are written, and what the requests alone cost there, as a multiple of the first.
here=$(cd "$(dirname "$0")" && pwd)
. "$here/../compare.sh"

copy_crates tb_base tb_text byte_pages guest_ram csr_file trace_rec split_queue virtio_regs disk_model dev_face blk_dev
grep -E '^(tb_base|tb_text|byte_pages|guest_ram|csr_file|trace_rec|split_queue|virtio_regs|disk_model|dev_face|blk_dev):' "$top/crates.txt" > "$work/crates.txt"
echo "bench_disk: tb_base guest_ram trace_rec dev_face disk_model blk_dev anyhow" >> "$work/crates.txt"
mkdir -p "$work/crates/bench_disk/src" "$work/crates/bench_disk/proofs/"{tell,bring_up,run}
cat > "$work/crates/bench_disk/src/main.rt" <<'PROGRAM'
//! 400,000 requests of 4 KiB each, one of which completes in each tick.
#![tactic(auto)]
ghost use Rattle.std.specs.Prelude.{◌≡◌, ◌+◌, ◌≤◌, ◌^◌, [], length, OnOk, IfOk};
ghost use Rattle.dev_face.specs.States.{IsComing};
ghost use Rattle.blk_dev.specs.BlkView.{blk_state};

use blk_dev::Blk;
use dev_face::{DevConfig, Device};
use disk_model::DiskParams;
use guest_ram::Ram;
use std::alloc::Global;
use std::env;
use tb_base::{Bytes, Frame, ItemList, NoMemory, Width};
use trace_rec::Log;

const SIZE: u32 = 98304;
const TABLE: u32 = 0x8000_0000;
const AVAILABLE: u32 = 0x8000_0400;
const USED: u32 = 0x8000_0800;
const HEADERS: u32 = 0x8000_1000;
const STATUS: u32 = 0x8000_1800;
const DATA: u32 = 0x8001_0000;
const QUEUE: u32 = 32;
const REQUESTS: u32 = 8;
const BLOCK: u32 = 4096;
const TICKS: u32 = 400_000;

fn put(ram: &mut Ram, addr: u32, word: u32)
    ensures { length ram.new ≡ length ram.old }
{
    let _ = ram.store(addr, Width::Word, word);
}

fn put_descriptor(ram: &mut Ram, at: u32, addr: u32, len: u32, flags: u32) {
    put(ram, at, addr);
    put(ram, at.wrapping_add(8), len);
    put(ram, at.wrapping_add(12), flags);
}

fn prepare(ram: &mut Ram) {
    for j in 0..REQUESTS {
        let at = TABLE + 48 * j;
        let goes_on = if j % 2 == 1 { 1 } else { 3 };
        put_descriptor(ram, at, HEADERS + 16 * j, 16, 1 + 0x1_0000 * (3 * j + 1));
        put_descriptor(ram, at + 16, DATA + BLOCK * j, BLOCK, goes_on + 0x1_0000 * (3 * j + 2));
        put_descriptor(ram, at + 32, STATUS + 4 * j, 1, 2);
        put(ram, HEADERS + 16 * j, j % 2);
    }
    for i in 0..QUEUE {
        let _ = ram.store(AVAILABLE + 4 + 2 * i, Width::Half, 3 * (i % REQUESTS));
    }
}

fn tell(disk: &mut Blk, now: u32, ram: &Ram, off: u32, value: u32)
    requires { IsComing now (length ram.now) (blk_state disk.old) }
    ensures { IsComing now (length ram.now) (blk_state disk.new) }
{
    let register = off / 4;
    let _ = disk.store(u64::from(now), 4 * register, Width::Word, value);
}

fn bring_up(disk: &mut Blk, ram: &Ram)
    requires { IsComing 0 (length ram.now) (blk_state disk.old) }
    ensures { IsComing 0 (length ram.now) (blk_state disk.new) }
{
    'words: for (off, value) in [
        (0x70, 3),
        (0x20, 0x200),
        (0x24, 1),
        (0x20, 1),
        (0x70, 11),
        (0x38, QUEUE),
        (0x80, TABLE),
        (0x90, AVAILABLE),
        (0xa0, USED),
        (0x44, 1),
        (0x70, 15),
    ] {
        tell(disk, 0, ram, off, value);
    }
}

fn ready(alloc: Global, sectors: u32, ram: &Ram) -> Result<Blk, NoMemory>
    requires { (1 ≤ sectors) × (sectors ≤ 32768) }
    ensures { IfOk result (λ disk. IsComing 0 (length ram.now) (blk_state disk)) }
{
    let mut disk = Blk::new(alloc);
    disk.set_up(&DevConfig::Blk {
        sectors,
        params: DiskParams {
            base: 1,
            seek_num: 0,
            seek_den: 1,
            per_sector: 0,
        },
        content: Bytes::new(alloc),
        disk: 0,
        slot: 0,
    })?;
    bring_up(&mut disk, ram);
    Ok(disk)
}

fn put_sector(ram: &mut Ram, turn: u32, j: u32)
    ensures { length ram.new ≡ length ram.old }
{
    let block = turn.wrapping_add(j.wrapping_mul(3)) % 8;
    put(ram, HEADERS.wrapping_add(j.wrapping_mul(16)).wrapping_add(8), 8 * block);
}

fn drive(ram: &mut Ram, turn: u32)
    ensures { length ram.new ≡ length ram.old }
{
    put_sector(ram, turn, 0);
    put_sector(ram, turn, 1);
    put_sector(ram, turn, 2);
    put_sector(ram, turn, 3);
    put_sector(ram, turn, 4);
    put_sector(ram, turn, 5);
    put_sector(ram, turn, 6);
    put_sector(ram, turn, 7);
    put(ram, DATA + BLOCK, turn);
    let _ = ram.store(AVAILABLE + 2, Width::Half, turn.wrapping_add(1).wrapping_mul(REQUESTS));
}

fn pass(
    disk: &mut Blk,
    now: u32,
    ram: &mut Ram,
    frames: &mut ItemList<Frame>,
    log: &mut Log,
) -> Result<(), NoMemory>
    requires coming { IsComing now (length ram.old) (blk_state disk.old) }
    requires early { now ≤ 2 ^ 20 }
    requires none { frames.old.items ≡ [] }
    ensures coming { OnOk result (IsComing (now + 1) (length ram.new) (blk_state disk.new)) }
    ensures none { OnOk result (frames.new.items ≡ []) }
{
    log.clear();
    disk.begin_tick(u64::from(now), ram, frames, log)?;
    if now % REQUESTS == 0 {
        drive(ram, now / REQUESTS);
        tell(disk, now + 1, ram, 0x50, 0);
    }
    disk.end_tick(u64::from(now), ram, frames, log)?;
    Ok(())
}

fn sum_of(ram: &Ram) -> u32 {
    let mut sum = ram.load(USED + 2, Width::Half).unwrap_or(0);
    for j in 0..REQUESTS {
        let word = ram.load(DATA + BLOCK * j, Width::Word).unwrap_or(0);
        sum = sum.wrapping_mul(31).wrapping_add(word);
    }
    sum
}

fn run(alloc: Global, sectors: u32, ticks: u32) -> Result<u32, NoMemory>
    requires sectors { (1 ≤ sectors) × (sectors ≤ 32768) }
    requires ticks { ticks ≤ 2 ^ 20 }
{
    let mut ram = Ram::new(alloc, SIZE)?;
    let mut log = Log::new(alloc);
    let mut frames = ItemList::new(alloc);
    prepare(&mut ram);
    let mut disk = ready(alloc, sectors, &ram)?;
    'turns: for now in 0..ticks {
        pass(&mut disk, now, &mut ram, &mut frames, &mut log)?;
    }
    // The last request completes behind the last tick.
    disk.begin_tick(u64::from(ticks), &mut ram, &mut frames, &mut log)?;
    Ok(sum_of(&ram))
}

fn main(rt: HostRuntime) -> Result<(), anyhow::Error> {
    let words = env::args(&rt)?.skip(1).count();
    let sectors = if words > 0 { 32768 } else { 64 };
    let ticks = if words > 1 { 0 } else { TICKS };
    let Ok(sum) = run(rt.alloc(), sectors, ticks) else {
        return Ok(());
    };
    println!(rt; "{sum}")?;
    Ok(())
}
PROGRAM
cat > "$work/crates/bench_disk/proofs/Lib.antt" <<'PROOF'
PROOF
cat > "$work/crates/bench_disk/proofs/tell/Answers.antt" <<'PROOF'
use Rattle.std.proofs.Common.{length}
use Rattle.bench_disk.proofs.tell.Goals as goal

pub returns : goal.returns
returns c = c.store.ensures.coming c.args.now (length c.args.ram.now) c.requires
PROOF
cat > "$work/crates/bench_disk/proofs/bring_up/Invariants.antt" <<'PROOF'
use Rattle.std.proofs.Common.{length}
use Rattle.dev_face.specs.States.{IsComing}
use Rattle.blk_dev.specs.BlkView.{blk_state}
use Rattle.bench_disk.proofs.bring_up.Given as goal

abbrev pub invariant-words : goal.invariant-words
invariant-words l = IsComing 0 (length l.ram) (blk_state l.disk)
PROOF
cat > "$work/crates/bench_disk/proofs/run/Invariants.antt" <<'PROOF'
use Rattle.std.proofs.Common.{◌≡◌, [], length}
use Rattle.dev_face.specs.States.{IsComing}
use Rattle.blk_dev.specs.BlkView.{blk_state}
use Rattle.bench_disk.proofs.run.Given as goal

abbrev pub invariant-turns : goal.invariant-turns
invariant-turns l = record {
  coming : IsComing l.now (length l.ram) (blk_state l.disk);
  none : l.frames.items ≡ [];
}
PROOF

build_both disk
ours=$work/crates/bench_disk/out/bench_disk

command_of ours_large "$ours" 32768
command_of ours_set_up "$ours" 32768 none
command_of c_large "$work/disk_c" 32768
compare "a request of blk_dev, 64 sectors" "$ours" "$work/disk_c" 4
small=$one
compare "a request of blk_dev, 32768 sectors" "$work/ours_large" "$work/c_large" 4
all=$one
best "$work/ours_set_up"
goal "a request on 32768 sectors, by one on 64" "$(awk "BEGIN { printf \"%.2f\", ($all - $least) / $small }")" 1.3
