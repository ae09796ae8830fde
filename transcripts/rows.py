"""Writes logs as rows: declarations that the checker proves by computing the definitions of the law, or refuses.

    row7 : fault_from 0 (start lives) (log) ≡ Some (record { at = 10; rule = WrongReply })
    unfolding judging
    row7 = refl

A declaration may take 50 million steps, some 2,000 to 3,000 plain happenings, or 800 of a life that keeps much on the disk. So
a front of some length, and a log of more, is computed in pieces (forcing.py). A row has the number of the line where it begins
in its file; a change its name and place too.
"""

import terms

PIECE = 240  # happenings between two states that are written out
FRONT_FROM = 200  # a front of so many is computed once for all logs of a module
ROW_TO = 600  # a log of more is computed in pieces
MODULE = 64  # rows in a module

USES = terms.USES + """use Rattle.pp_law.specs.State.{State, start}
use Rattle.pp_law.specs.Lawful.{fault_from, Fault, RULES}
use Rattle.pp_pieces.proofs.Forced.{judge, arrived, judging, told, tell}
"""


def name_of(log):
    change, place = log.change or ("", "")
    return f"row{log.line}{change}{place}"


class Module:
    """Rows of logs, and what they share."""

    def __init__(self):
        self.terms, self.out, self.fronts = terms.Terms(), [], {}

    def put(self, name, type_, body, unfolds=""):
        self.out.append(f"{name} : {type_}\nunfolding judging{unfolds}\n{name} = {body}\n")

    def pieces(self, name, before, state, unfolds, happenings):
        """Computes the states behind pieces of a log; gives the last, and what unfolds it."""
        for number, at in enumerate(range(0, len(happenings), PIECE)):
            log = self.terms.log(happenings[at : at + PIECE])
            self.put(f"{name}x{number}", f"(s : State) × (arrived s ≡ judge {before + at} {state} ({log}))", "(_, refl)", unfolds)
            state, unfolds = f"{name}x{number}.0", f" {name}x{number}"
        return state, unfolds

    def marked(self, name, state, unfolds, marks):
        """The same state with other marks of eviction."""
        settings = f"record ({state}).settings {{ low = {marks}; high = {marks} }}"
        self.out.append(f"abbrev {name}marked : State\nunfolding{unfolds}\n{name}marked = record ({state}) {{ settings = {settings} }}\n")
        return f"{name}marked", f"{unfolds} {name}marked"

    def beginning(self, log):
        """The state that what is judged of a log begins with, what unfolds it, and how many happenings came before."""
        name, state, whole = name_of(log), f"(start {self.terms.lives(log.lives)})", log.happenings
        if log.marks:
            count = [it[0] for it in whole].index("Waits") + 1
            state, unfolds = self.pieces(name, 0, state, "", whole[:count])
            return *self.marked(name, state, unfolds, log.marks), count
        if len(log.front) >= FRONT_FROM:
            key = (log.lives, log.front)
            if key not in self.fronts:
                self.fronts[key] = self.pieces(f"front{len(self.fronts)}", 0, state, "", log.front)
            return *self.fronts[key], len(log.front)
        count = (len(whole) - 1) // PIECE * PIECE if len(whole) > ROW_TO else 0
        return *self.pieces(name, 0, state, "", whole[:count]), count

    def add(self, log):
        """The row of a log."""
        state, unfolds, count = self.beginning(log)
        if count == 0 and log.front:
            rest = f"{self.terms.named_log(log.front)} ++ {self.terms.log(log.back)}"
        else:
            rest = self.terms.log(log.happenings[count:])
        found = f"fault_from {count} {state} ({rest})"
        said = f"is_some ({found}) ≡ true" if log.verdict == "some" else f"{found} ≡ {terms.verdict(log.verdict)}"
        self.put(name_of(log), said, "refl", unfolds)

    def text(self, head, rules):
        return "\n".join([head + USES.replace("RULES", ", ".join(rules)), terms.WAIT, *self.terms.definitions, *self.out])


def groups(logs, stem):
    """Logs of a file by the modules that they stand in, which have this name, or it with a number."""
    count = -(-len(logs) // MODULE)
    return {stem + (str(at + 1) if count > 1 else ""): logs[at * MODULE : (at + 1) * MODULE] for at in range(count)}


def module(logs, head, rules):
    """The rows of these logs."""
    made = Module()
    for log in logs:
        made.add(log)
    return made.text(f"-- {head}\n", rules)


def modules(logs, source, rules):
    """The modules of a file's logs, by their names. `source` says where the file stands; they are named after it."""
    stem = "".join(part.capitalize() for part in source.stem.split("_"))
    head = f"The verdicts of {source}, written by transcripts/make_rows."
    return {name: module(group, head, rules) for name, group in groups(logs, stem).items()}
