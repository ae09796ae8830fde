"""The crates of rows: which logs stand in which, and their files."""

from pathlib import Path

import forcing
import reader
import rows

TOP = Path(__file__).resolve().parent.parent
PIECES = "pp_pieces"
LIB = """//! {head}
//!
//! All of it is in `proofs/`, and written by `transcripts/make_rows`.
#![tactic(auto)]
"""
HEADS = {
    PIECES: "What computes a state of the law to its end, so that the rows of long logs are computed in pieces.",
    "pp_rows": "Worked logs of `transcripts/`, each with the law's verdict, which the check computes.",
    "pp_rows_long": "Worked logs of thousands of happenings, each with the law's verdict, which the check computes.",
    "pp_rows_changes": "Lawful logs with one happening deleted, doubled or swapped, each with the law's verdict.",
}
LONG = 5000  # a file that has a log of so many happenings stands in pp_rows_long


def rules_of():
    """The rules, as antt names them."""
    return [name for name, _ in forcing.types_in((TOP / "crates/pp_law/specs/Lawful.antt").read_text())[1]["Rule"]]


def crate(name, modules, head):
    """The files of a crate that has these modules of proofs."""
    lines = [f"{'pub ' if name == PIECES else ''}mod {module}\n" for module in modules]
    files = {"src/lib.rt": LIB.format(head=head), "proofs/Lib.antt": "".join(lines)}
    files |= {f"proofs/{module}.antt": text for module, text in modules.items()}
    return {f"crates/{name}/{file}": text for file, text in files.items()}


def by_file(logs):
    found = {}
    for log in logs:
        found.setdefault(log.file, []).append(log)
    return found


def of_repository():
    """Each file of each crate of rows."""
    rules, folder = rules_of(), Path("transcripts")
    found = {"pp_rows": {}, "pp_rows_long": {}, "pp_rows_changes": {}}
    for file, logs in by_file(reader.read([TOP / folder])).items():
        # A log that is there to be changed stands with its changes.
        changed = {log.line for log in logs if log.change}
        plain = "pp_rows_long" if max(len(log.happenings) for log in logs) >= LONG else "pp_rows"
        found[plain] |= rows.modules([log for log in logs if log.line not in changed], folder / file, rules)
        found["pp_rows_changes"] |= rows.modules([log for log in logs if log.line in changed], folder / file, rules)
    found[PIECES] = {"Forced": forcing.module(TOP / "crates")}
    return {file: text for name, modules in found.items() for file, text in crate(name, modules, HEADS[name]).items()}


def standing():
    """The files that stand in these crates now."""
    files = [file for name in HEADS for part in ("src", "proofs") for file in (TOP / "crates" / name / part).rglob("*") if file.is_file()]
    return {str(file.relative_to(TOP)) for file in files}


def compare(written):
    """Says which files are not as written; 1 where one is not."""
    files = sorted(standing() | set(written))
    unlike = [file for file in files if not (TOP / file).is_file() or (TOP / file).read_text() != written.get(file)]
    for file in unlike:
        print(f"{file} is not what transcripts/make_rows writes")
    print(f"{len(files) - len(unlike)} passed, {len(unlike)} failed")
    return 1 if unlike else 0


def write(written):
    for file in standing() - set(written):
        (TOP / file).unlink()
    for file, text in written.items():
        (TOP / file).parent.mkdir(parents=True, exist_ok=True)
        if not (TOP / file).is_file() or (TOP / file).read_text() != text:
            (TOP / file).write_text(text)
    return 0
