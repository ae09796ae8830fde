"""Writes happenings, and logs of them, as terms of antt."""

import re

USES = """use Rattle.std.proofs.Common.{◌≡◌, refl, ℕ, List, [], ◌∷◌, ◌++◌, true, false, Bool, Option, None, Some, codes}
use Rattle.std.specs.Prelude.{replicate, is_some}
use Rattle.pp_world.specs.Log.{Log}
use Rattle.pp_world.specs.declared.happening.Happening.{Happening}
use Rattle.pp_world.specs.declared.happening.Happening.TheVariants.{Woke, Waits, Clock, Opened, CanRead, CanWrite, Heard, HungUp, Said, Shut, Dialled, Undialled, Reached, Ended, Broke, Asked, Got, Dropped, NoneYet, Began, Did, Unread, Noted, Rooted, Listed, Listens, Configured, Printed, Stopped}
use Rattle.pp_world.specs.declared.note.Decision.TheVariants.{Refuse, Hit, Part, Head, NotModified, Unsatisfiable, Relay, Validate, Fetch, Pass}
use Rattle.pp_world.specs.declared.note.Cause.TheVariants.{Superseded, Origin, Short, Idle, Memory, Stop}
use Rattle.pp_world.specs.declared.note.Remark.TheVariants.{Taken, Cut, Kept, Gone, Forgotten, Evicted, Loaded}
use Rattle.pp_world.specs.declared.op.DiskOp.TheVariants.{Draft, SyncDraft, Publish, Write, Sync, Remove}
use Rattle.pp_law.specs.Lists.{Bytes}
"""

WAIT = """abbrev wait : Bool → List ℕ → List ℕ → Happening
wait accept read write = Waits (record { accept = accept; read = record { items = read }; write = record { items = write } })
"""

PLAIN = {10: "\\n", 13: "\\r", 9: "\\t", 34: '\\"', 92: "\\\\"}
RUN = 32  # so many equal bytes are written once
SHORT = 12  # a text of fewer bytes stands where it is used
# runs of one byte, text, and other bytes, each up to where the next begins
STRETCH = re.compile(
    rb"(?s)(.)\1{31,}|[\x20-\x7e\r\n\t]+?(?=(.)\2{31,}|[^\x20-\x7e\r\n\t]|\Z)|[^\x20-\x7e\r\n\t]+?(?=(.)\3{31,}|[\x20-\x7e\r\n\t]|\Z)"
)


def numbers(ns):
    return f"({''.join(f'{n} ∷ ' for n in ns)}[])" if ns else "[]"


def literal(data):
    """Bytes, as text where they are."""
    if not data:
        return "[]"
    parts = []
    for found in STRETCH.finditer(data):
        piece = found.group(0)
        if found.group(1):
            parts.append(f"replicate {len(piece)} {piece[0]}")
        elif piece[0] in PLAIN or 0x20 <= piece[0] <= 0x7E:
            parts.append('codes "' + "".join(PLAIN.get(byte, chr(byte)) for byte in piece) + '"')
        else:
            parts.append(numbers(piece))
    return "(" + " ++ ".join(parts) + ")"


class Terms:
    """Terms, and the names of texts and logs that they speak of, in the order in which these come."""

    def __init__(self):
        self.definitions, self.names = [], {}

    def name(self, kind, type_, key, body):
        if key not in self.names:
            self.names[key] = f"{kind}{sum(it.startswith(kind) for it in self.names.values())}"
            self.definitions.append(f"abbrev {self.names[key]} : {type_}\n{self.names[key]} = {body}\n")
        return self.names[key]

    def text(self, data):
        return literal(data) if len(data) < SHORT else self.name("text", "Bytes", data, literal(data))

    def term(self, it):
        if it is None:
            return "None"
        if isinstance(it, bool):
            return "true" if it else "false"
        if isinstance(it, int):
            return str(it)
        if isinstance(it, bytes):
            return self.text(it)
        if isinstance(it, str):
            return it
        return it[0] if len(it) == 1 else f"({' '.join([it[0], *map(self.term, it[1:])])})"

    def happening(self, it):
        if it[0] == "Waits":
            return f"wait {self.term(it[1])} {numbers(it[2])} {numbers(it[3])}"
        if it[0] == "Woke":
            files = "".join(f"({self.text(name)}, {self.text(file)}) ∷ " for name, file in it[1])
            return f"Woke ({files}[])" if files else "Woke []"
        if it[0] == "Configured":
            return f"Configured {self.text(it[1])} " + ("None" if it[2] is None else f"(Some {self.text(it[2])})")
        return " ".join([it[0], *map(self.term, it[1:])])

    def log(self, happenings):
        return "".join(f"{self.happening(it)} ∷ " for it in happenings) + "[]"

    def named_log(self, happenings):
        return self.name("front", "Log", happenings, self.log(happenings))

    def lives(self, lives):
        told = [f"record {{ words = {''.join(f'{self.text(word)} ∷ ' for word in life.words)}[]; faults = {life.faults} }} ∷ " for life in lives]
        return f"({''.join(told)}[])"


def verdict(told):
    """What is written of a log."""
    if told is None:
        return "None"
    place, rule = told
    return f"Some (record {{ at = {place}; rule = {''.join(part.capitalize() for part in rule.split('-'))} }})"
