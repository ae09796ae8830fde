#!/usr/bin/env python3
"""What the pool costs, by way of cells, beside a program in C that does the same.

Writes a small program over pp_holes and pp_pool into a temporary folder, proves and builds it there (`rt run`,
some minutes the first time), and compiles `links.c`, which does the same in C. Runs both in turn, and prints medians in
nanoseconds per call: a million touch, touch and oldest, give and take on a pool of 4,096 chunks, and their ratio to C; then a
million next_hole in the leading run, and piece, of an instance of 16 chunks and of one of 4,096, and the ratio of the two.
`oldest` is called behind a `touch`, as a call that changes nothing would be taken out of its loop. Run it while the machine is
quiet.

    bench/memory/run.py [PROGRAM]

With PROGRAM the program is left there, and taken from there where it stands: so it can be built before the machine is quiet.
"""

import pathlib
import shutil
import statistics
import subprocess
import sys
import tempfile

HERE = pathlib.Path(__file__).resolve().parent
sys.path.insert(0, str(HERE.parent.parent / "tools"))
from build import below, copied, crates  # noqa: E402

BESIDE_C = ("touch", "touch_and_oldest", "give_and_take")
OF_BOTH_LENGTHS = ("next_hole", "piece")
FEW, MANY = 16, 4096
# How far each call may be above what it is compared with.
BAR_TO_C = 5
ROUNDS = 5

PROGRAM = """#![tactic(auto)]

ghost use Rattle.std.specs.Prelude.{◌≡◌, ◌≤◌, ◌<◌, length, IfOk};

use pp_holes::Cells;
use pp_pool::{Pins, Pool};
use pp_text::OutOfMemory;
use std::alloc::Global;
use std::marker::Model;
use std::time::Instant;

const CHUNK_LEN: u64 = 4096;
const FEW: u32 = 16;
const MANY: u32 = 4096;
const CALLS: u32 = 1000000;

/// One instance of so many chunks, and a pool that has room for it.
#[derive(Drop)]
struct Held {
    pool: Pool,
    cells: Cells,
    chunks: u32,
}

impl Model for Held {
    ghost use Rattle.std.specs.Prelude.{◌≡◌, ◌≤◌, ◌<◌, ◌*◌};
    ghost use Rattle.pp_holes.specs.Cells.{Agrees, Table};

    ghost Value = { Table };

    ghost view = { λ h. h.cells };

    ghost invariant = { λ h. Agrees h.cells.owner h.cells.cells h.pool.used × (0 < h.chunks) × (h.chunks ≤ 4096) × (h.cells.total ≡ h.chunks * 4096) };
}

impl Held {
    fn new(alloc: Global, chunks: u32) -> Result<Held, OutOfMemory>
        requires some { 0 < chunks }
        requires most { chunks ≤ 4096 }
    {
        let pool = Pool::new(alloc, MANY)?;
        let cells = Cells::new(alloc, 0, u64::from(chunks) * CHUNK_LEN)?;
        Ok(Held { pool, cells, chunks })
    }

    /// Takes a chunk for this place.
    fn take(&mut self, index: u32) {
        if index < self.chunks {
            self.cells.add(&mut self.pool, u64::from(index) * CHUNK_LEN, b"a");
        }
    }

    /// Fills the chunk of this place with these bytes.
    fn fill(&mut self, index: u32, bytes: &[u8])
        requires { length bytes.now ≤ 4096 }
    {
        if index < self.chunks {
            self.cells.add(&mut self.pool, u64::from(index) * CHUNK_LEN, bytes);
        }
    }

    fn give(&mut self, index: u32) {
        self.cells.drop_chunk(&mut self.pool, index);
    }

    fn touch(&mut self, index: u32) {
        if !self.cells.piece(&self.pool, u64::from(index) * CHUNK_LEN).is_empty() {
            self.cells.touch(&mut self.pool, index);
        }
    }

    fn oldest(&self) -> u64 {
        match self.pool.oldest(&Pins::new()) {
            Some((_, index)) => u64::from(index),
            None => 0,
        }
    }

    /// A place, by a number.
    fn place(&self, seed: u64) -> u32 {
        ((seed >> 33) % u64::from(self.chunks)) as u32
    }
}

fn next(seed: u64) -> u64 {
    seed.wrapping_mul(6364136223846793005).wrapping_add(1442695040888963407)
}

fn touch_all(held: &mut Held) {
    let mut seed = 1u64;
    for _call in 0..CALLS {
        seed = next(seed);
        held.touch(held.place(seed));
    }
}

fn ask_all(held: &mut Held) -> u64 {
    let mut seed = 1u64;
    let mut sum = 0u64;
    for _call in 0..CALLS {
        seed = next(seed);
        held.touch(held.place(seed));
        sum = sum.wrapping_add(held.oldest());
    }
    sum
}

fn give_all(held: &mut Held) {
    let mut seed = 1u64;
    for _call in 0..CALLS {
        seed = next(seed);
        let index = held.place(seed);
        held.give(index);
        held.take(index);
    }
}

fn find_holes(held: &Held) -> u64 {
    let mut seed = 1u64;
    let mut sum = 0u64;
    for _call in 0..CALLS {
        seed = next(seed);
        sum = sum.wrapping_add(held.cells.next_hole(u64::from(held.place(seed)) * CHUNK_LEN).0);
    }
    sum
}

fn lend_pieces(held: &Held) -> u64 {
    let mut seed = 1u64;
    let mut sum = 0u64;
    for _call in 0..CALLS {
        seed = next(seed);
        sum = sum.wrapping_add(held.cells.piece(&held.pool, u64::from(held.place(seed)) * CHUNK_LEN).len() as u64);
    }
    sum
}

fn some_bytes(alloc: Global, count: usize) -> Result<Vec<u8>, OutOfMemory>
    ensures { IfOk result (λ bytes. length bytes.items ≡ count) }
{
    Ok(vec![in alloc; b'a'; count]?)
}

/// A whole instance of so many chunks.
fn whole(alloc: Global, chunks: u32) -> Result<Held, OutOfMemory>
    requires some { 0 < chunks }
    requires most { chunks ≤ 4096 }
{
    let bytes = some_bytes(alloc, CHUNK_LEN as usize)?;
    let mut held = Held::new(alloc, chunks)?;
    for index in 0..chunks {
        held.fill(index, bytes.as_slice());
    }
    Ok(held)
}

/// An instance that has one byte of each chunk.
fn begun(alloc: Global, chunks: u32) -> Result<Held, OutOfMemory>
    requires some { 0 < chunks }
    requires most { chunks ≤ 4096 }
{
    let mut held = Held::new(alloc, chunks)?;
    for index in 0..chunks {
        held.take(index);
    }
    Ok(held)
}

/// Prints the nanoseconds since the start.
fn tell(rt: &HostRuntime, call: &str, start: &Instant) -> anyhow::Result<()> {
    let elapsed = start.elapsed(rt)?.as_nanos();
    println!(rt; "{call} {elapsed}")?;
    Ok(())
}

fn measure_changes(rt: &HostRuntime, start: &Instant) -> anyhow::Result<()> {
    let Ok(mut held) = begun(rt.alloc(), MANY) else {
        return Err(anyhow::anyhow!("no memory"));
    };
    tell(rt, "begin", start)?;
    touch_all(&mut held);
    tell(rt, "touch", start)?;
    let sum = ask_all(&mut held);
    tell(rt, "touch_and_oldest", start)?;
    give_all(&mut held);
    tell(rt, "give_and_take", start)?;
    println!(rt; "sum {sum}")?;
    Ok(())
}

fn measure_looks(rt: &HostRuntime, start: &Instant, chunks: u32) -> anyhow::Result<()>
    requires some { 0 < chunks }
    requires most { chunks ≤ 4096 }
{
    let Ok(held) = whole(rt.alloc(), chunks) else {
        return Err(anyhow::anyhow!("no memory"));
    };
    println!(rt; "of {chunks}")?;
    tell(rt, "begin", start)?;
    let mut sum = find_holes(&held);
    tell(rt, "next_hole", start)?;
    sum = sum.wrapping_add(lend_pieces(&held));
    tell(rt, "piece", start)?;
    println!(rt; "sum {sum}")?;
    Ok(())
}

fn main(rt: HostRuntime) -> anyhow::Result<()> {
    let start = Instant::now(&rt)?;
    measure_changes(&rt, &start)?;
    measure_looks(&rt, &start, FEW)?;
    measure_looks(&rt, &start, MANY)
}
"""

# Cells with nothing in memory agree with a pool that has no used chunk.
PROOF = """use Rattle.std.proofs.Common.{◌*◌, refl, [], ap}
use Rattle.measure.proofs.Held.new.Goals as goal
use Rattle.pp_holes.proofs.Agreement.{agrees_new}

pub invariant_of-result : goal.invariant_of-result
invariant_of-result c = rw (c.in_ok-cells.ensures, c.in_ok-pool.ensures) (agrees_new 0 _ [] tt (λ i. refl), c.requires.some, c.requires.most, ap (λ n. n * 4096) c.from.ensures)
"""


def build_ours(top: pathlib.Path) -> pathlib.Path:
    """The program over the crates as they are, proved and built."""
    copied(below("pp_holes", crates()), top, without=("must-fail", "wrong"))
    with open(top / "crates.txt", "a") as lines:
        lines.write("measure: pp_holes pp_pool pp_text anyhow\n")
    crate = top / "crates" / "measure"
    for folder in ("src", "proofs/Held/new"):
        (crate / folder).mkdir(parents=True)
    (crate / "src" / "main.rt").write_text(PROGRAM)
    (crate / "proofs" / "Held" / "new" / "Answers.antt").write_text(PROOF)
    run = subprocess.run(["rt", "run", "--jobs", "1"], cwd=crate, capture_output=True, text=True, check=False)
    program = crate / "out" / "measure"
    if not program.exists():
        raise SystemExit(run.stdout[-3000:] + run.stderr[-3000:])
    return program


def lines_of(program: pathlib.Path) -> list[list[str]]:
    return [line.split() for line in subprocess.run([program], capture_output=True, text=True, check=True).stdout.splitlines()]


def c_costs(program: pathlib.Path) -> dict[str, float]:
    return {call: float(cost) for call, cost in lines_of(program)}


def our_costs(program: pathlib.Path) -> dict[tuple[str, int], float]:
    """Nanoseconds per call, by the call and the chunks of the instance: behind each million calls the program prints the time since
    its start."""
    chunks, before, costs = MANY, 0.0, {}
    for word, number in lines_of(program):
        if word == "of":
            chunks = int(number)
        elif word in BESIDE_C + OF_BOTH_LENGTHS:
            costs[word, chunks] = (float(number) - before) / 1_000_000
        before = float(number)
    return costs


def print_ratio(call: str, mine: float, other: float) -> None:
    print(f"{call:18} {mine:10.1f} {other:10.1f} {mine / other:8.1f}")


def main() -> None:
    if shutil.which("cc") is None:
        raise SystemExit("cc is missing")
    ours, links = [], []
    with tempfile.TemporaryDirectory() as folder:
        top = pathlib.Path(folder)
        program = pathlib.Path(sys.argv[1]).resolve() if sys.argv[1:] else top / "measure"
        if not program.exists():
            shutil.copy(build_ours(top), program)
        subprocess.run(["cc", "-O2", "-o", top / "links", HERE / "links.c"], check=True)
        for _ in range(ROUNDS):
            ours.append(our_costs(program))
            links.append(c_costs(top / "links"))
    mine = {key: statistics.median(costs[key] for costs in ours) for key in ours[0]}
    print(f"{'call':18} {'ours ns':>10} {'in C ns':>10} {'ratio':>8}    at most {BAR_TO_C}")
    for call in BESIDE_C:
        print_ratio(call, mine[call, MANY], statistics.median(costs[call] for costs in links))
    print(f"\n{'of so many chunks':18} {f'{MANY:,} ns':>10} {f'{FEW} ns':>10} {'ratio':>8}    about 1")
    for call in OF_BOTH_LENGTHS:
        print_ratio(call, mine[call, MANY], mine[call, FEW])


if __name__ == "__main__":
    main()
