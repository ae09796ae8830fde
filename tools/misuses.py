"""Misuses of a chunk do not compile; the last line is 'N passed, M failed'.

A chunk's handle can be given back once, and neither copied nor made by hand; and bytes that are lent from the pool stand still
while they are lent. Each misuse below is written into a small program over the crates of the cache, and the compiler has to refuse
it by the name that stands beside it. The first is no misuse, and has to compile: so the others are refused for what they do.
Nothing is proved for it.
"""

import pathlib
import shutil
import subprocess
import sys
import tempfile

sys.path.insert(0, str(pathlib.Path(__file__).resolve().parent))
from build import below, copied, crates

HEAD = """#![tactic(auto)]

use pp_client::Client;
use pp_holes::{Added, Cells};
use pp_objects::{ObjectId, Objects};
use pp_pool::{ChunkId, Pool};

fn main(_rt: HostRuntime) -> anyhow::Result<()> {
    Ok(())
}
"""

CASES = [
    (
        "a chunk is lent, and given back once; and bytes are added behind what was offered",
        None,
        """
fn once(pool: &mut Pool, chunk: ChunkId) -> usize {
    let count = pool.bytes(&chunk).len();
    pool.give(chunk);
    count
}

fn behind_a_piece(cells: &mut Cells, pool: &mut Pool) -> Added {
    let _count = cells.piece(pool, 0).len();
    cells.add(pool, 0, b"bytes")
}

fn behind_an_offer(client: &Client, objects: &mut Objects, pool: &mut Pool, id: ObjectId) -> Added {
    let _count = client.offer(objects, pool).len();
    objects.add(pool, id, 0, b"bytes")
}
""",
    ),
    (
        "a chunk is used after it was given back",
        "borrow-e0382",
        """
fn after(pool: &mut Pool, chunk: ChunkId) -> usize {
    pool.give(chunk);
    pool.bytes(&chunk).len()
}
""",
    ),
    (
        "a chunk is given back twice",
        "borrow-e0382",
        """
fn twice(pool: &mut Pool, chunk: ChunkId) {
    pool.give(chunk);
    pool.give(chunk);
}
""",
    ),
    (
        "a chunk is cloned",
        "clone",
        """
fn cloned(chunk: &ChunkId) -> ChunkId {
    chunk.clone()
}
""",
    ),
    (
        "a chunk is made by hand",
        "private",
        """
fn made() -> ChunkId {
    ChunkId { number: 0 }
}
""",
    ),
    (
        "bytes are added while a piece is lent",
        "borrow-e0502",
        """
fn while_lent(cells: &mut Cells, pool: &mut Pool) -> usize {
    let lent = cells.piece(pool, 0);
    cells.add(pool, 0, b"bytes");
    lent.len()
}
""",
    ),
    (
        "bytes are added while an offer is lent",
        "borrow-e0502",
        """
fn while_offered(client: &Client, objects: &mut Objects, pool: &mut Pool, id: ObjectId) -> usize {
    let lent = client.offer(objects, pool);
    objects.add(pool, id, 0, b"bytes");
    lent.len()
}
""",
    ),
]


def main():
    if shutil.which("rt") is None:
        print("skipped: rt is missing, and with it all misuses\n0 passed, 0 failed")
        return 0
    passed = 0
    with tempfile.TemporaryDirectory() as folder:
        room = pathlib.Path(folder)
        copied(below("pp_client", crates()), room, without=("must-fail", "wrong"))
        with open(room / "crates.txt", "a") as lines:
            lines.write("misuse: anyhow pp_client pp_holes pp_objects pp_pool\n")
        crate = room / "crates" / "misuse"
        (crate / "src").mkdir(parents=True)
        for title, refusal, code in CASES:
            (crate / "src" / "main.rt").write_text(HEAD + code)
            run = subprocess.run(["rt", "try"], cwd=crate, stdin=subprocess.DEVNULL, capture_output=True, text=True, check=False)
            said = run.stdout + run.stderr
            is_right = run.returncode == 0 if refusal is None else run.returncode != 0 and refusal in said
            print(("ok" if is_right else "FAILED") + f": {title}")
            if not is_right:
                print(said[-2_000:])
            passed += is_right
    print(f"{passed} passed, {len(CASES) - passed} failed")
    return 0 if passed == len(CASES) else 1


if __name__ == "__main__":
    sys.exit(main())
