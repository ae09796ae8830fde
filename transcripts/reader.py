"""Reads transcripts: logs of happenings, with the verdicts that are written of them (docs/TRANSCRIPTS.md).

    logs = read([Path("transcripts")])      a folder stands for each .log file in it
    logs = read([Path("mine.log")], known=[Path("transcripts")])      names of the known files are known; their logs are not given

`read` gives the logs as `Log`s, in the order of the files and of their lines, or raises `Refusal`, which says
'FILE:LINE: why' of the line that cannot be read. Texts and parts have their names in all files that are read together.

A happening is a tuple: its name, as in crates/pp_world/src/happening.rt, and what belongs to it. A text is `bytes`.

    ("Woke", ((name, file), ..))                  ("Configured", name, text or None)      ("Rooted", folder)
    ("Listed", done)                              ("Listens", port, done)                 ("Printed", text)
    ("Waits", accepts, reads, writes)             reads and writes are tuples of numbers
    ("Clock", seconds)                            ("Stopped",)
    ("Opened", n)  ("CanRead", n)  ("CanWrite", n)  ("HungUp", n)  ("Shut", n)  ("Reached", n)  ("Broke", n)  ("Ended", n)
    ("Dropped", n)  ("NoneYet", n)                n is the number of a client or an origin
    ("Heard", n, text)  ("Asked", n, text)  ("Got", n, text)
    ("Said", n, offered, text)                    of so many bytes that were offered
    ("Dialled", n, host, port)  ("Undialled", host, port)
    ("Began", operation)  ("Did", operation, done)  ("Unread", name)
        an operation: ("Draft", text) ("SyncDraft",) ("Publish", name) ("Write", name, offset, text) ("Sync", name) ("Remove", name)
    ("Noted", remark)
        a remark: ("Taken", n, request, decision) ("Cut", n, cause) ("Kept", key, tag, length, extent) ("Gone", key)
        ("Forgotten", key) ("Evicted", key, tag, length, chunk) ("Loaded", key, tag, length, chunk)
        a decision: ("Refuse", status) ("Hit", from, to) ("Part", from, to) ("Head",) ("NotModified",) ("Unsatisfiable",)
        ("Relay",) ("Validate",) ("Fetch",) ("Pass",); a cause: "Superseded" "Origin" "Short" "Idle" "Memory" "Stop"
"""

from dataclasses import dataclass

from lines import MOST, Refusal, Words, blocks_of

PLAIN = {"clock": "Clock", "opened": "Opened", "can-read": "CanRead", "can-write": "CanWrite", "reached": "Reached", "ended": "Ended"}
PLAIN |= {"hung-up": "HungUp", "broke": "Broke", "none-yet": "NoneYet", "shut": "Shut", "dropped": "Dropped"}
DECISIONS = {"head": "Head", "not-modified": "NotModified", "unsatisfiable": "Unsatisfiable", "relay": "Relay"}
DECISIONS |= {"validate": "Validate", "fetch": "Fetch", "pass": "Pass"}
CAUSES = ("superseded", "origin", "short", "idle", "memory", "stop")
RULES = """image-not-left opening-out-of-order event-out-of-turn read-not-asked-for failure-made-up wrong-reply wrong-ask
wrong-decision wrong-cut not-to-be-closed not-to-be-dialled not-to-be-evicted not-to-be-forgotten not-to-be-loaded not-sealed
not-gone wrong-disk-operation step-unfinished accepts-wrongly client-forgotten connection-forgotten exchange-forgotten
wants-too-much""".split()
CHANGES = ("deleted", "doubled", "swapped")


@dataclass(frozen=True)
class Life:
    """How a life is started: its words, and how often the outside fails in it."""

    words: tuple = ()
    faults: int = 0


@dataclass(frozen=True)
class Log:
    """A log, and what is written of it: `verdict` is None where it is lawful, 'some' where some happening may not be, else the
    place of the first that may not be, and its rule. `marks`: where eviction begins and ends, if that is not for the words."""

    file: str
    line: int
    title: str
    lives: tuple
    front: tuple  # what it begins with, which other logs share
    back: tuple
    verdict: object
    marks: object = None
    change: object = None  # a change of a lawful log: 'deleted', 'doubled' or 'swapped', and the place

    @property
    def happenings(self):
        return self.front + self.back


def read(paths, known=()):
    """The logs of these files."""
    scene, own, seen = Scene(), [], set()
    for path in [file for it in known for file in files_of(it)]:
        seen.add(path.resolve())
        scene.define(blocks_of(path))
    for path in [file for it in paths for file in files_of(it)]:
        blocks = blocks_of(path)
        if path.resolve() not in seen:
            scene.define(blocks)
        own.append(blocks)
    scene.check()
    return [log for blocks in own for log in scene.logs(blocks)]


def files_of(path):
    return sorted(path.glob("*.log")) if path.is_dir() else [path]


class Scene:
    """What blocks define: texts and parts, by their names."""

    def __init__(self):
        self.blocks = {"text": {}, "part": {}}  # as they are written
        self.known = {"text": {}, "part": {}}  # as they were read

    def define(self, blocks):
        for block in blocks:
            if block.word in self.blocks:
                words = Words(block.head)
                name = words.name()
                if name in self.blocks[block.word]:
                    words.fail(f"{name} is the name of another {block.word}")
                if block.word == "text" and block.body:
                    block.body[0].fail("nothing is set in below a text")
                self.blocks[block.word][name] = (words, block.body)

    def check(self):
        """Reads what is defined, also where nothing uses it."""
        for name in self.blocks["text"]:
            self.named("text", name, None)
        for name, (words, _) in self.blocks["part"].items():
            words.end()
            for line in self.named("part", name, None):
                if Words(line).takes("!"):
                    line.fail("no verdict stands in a part")
            self.happenings(self.named("part", name, None))

    def named(self, kind, name, words):
        """The text, or the lines of the part, that has this name."""
        if name not in self.blocks[kind]:
            words.fail(f"no {kind} has the name {name}")
        if name not in self.known[kind]:
            head, body = self.blocks[kind][name]
            self.known[kind][name] = None
            self.known[kind][name] = self.text(head, True) if kind == "text" else self.written_out(body)
        found = self.known[kind][name]
        if found is None:
            self.blocks[kind][name][0].fail(f"{name} stands in itself")
        return found

    # ---- texts

    def piece(self, words):
        times = words.number_if_any()
        if times is not None and not words.takes("*"):
            return str(times).encode()
        if times is not None and times > MOST:
            words.fail(f"this comes more often than {MOST} times")
        quoted, word = words.next("a text is missing")
        text = words.unquoted(word) if quoted else self.named("text", word, words)
        return text * (1 if times is None else times)

    def text(self, words, is_last=False):
        text = self.piece(words)
        while True:
            if words.takes("+"):
                text += self.piece(words)
            elif words.takes("to"):
                text = text.ljust(words.number(), b"\0")
            elif words.takes("at"):
                place = words.number()
                if place >= len(text):
                    words.fail("the text has no byte there")
                text = text[place : place + 1]
            else:
                break
        if is_last:
            words.end()
        return text

    # ---- happenings

    def operation(self, words):
        word = words.bare()
        if word == "draft":
            return ("Draft", self.text(words))
        if word == "sync-draft":
            return ("SyncDraft",)
        if word == "write":
            return ("Write", self.text(words), words.number(), self.text(words))
        if word in ("publish", "sync", "remove"):
            return (word.capitalize(), self.text(words))
        words.fail(f"no operation on the disk is {word}")

    def decision(self, words):
        word = words.bare()
        if word == "refuse":
            return ("Refuse", words.number(16))
        if word in ("hit", "part"):
            return (word.capitalize(), words.number(), words.number())
        if word not in DECISIONS:
            words.fail(f"no decision is {word}")
        return (DECISIONS[word],)

    def remark(self, word, words):
        if word == "taken":
            return ("Taken", words.number(), words.number(), self.decision(words))
        if word == "cut":
            client, cause = words.number(), words.bare()
            if cause not in CAUSES:
                words.fail(f"no cause is {cause}")
            return ("Cut", client, cause.capitalize())
        if word in ("gone", "forgotten"):
            return (word.capitalize(), self.text(words))
        if word in ("kept", "evicted", "loaded"):
            return (word.capitalize(), self.text(words), self.text(words), words.number(), words.number())
        words.fail(f"no happening is {word}")

    def image(self, words):
        files = []
        while words.takes("file"):
            name = self.text(words)
            words.expect("of")
            files.append((name, self.text(words)))
        return tuple(sorted(files, key=lambda file: file[0]))

    def opening(self, word, words):
        """What belongs to the beginning of a life, if this does."""
        if word == "woke":
            return ("Woke", self.image(words))
        if word == "configured":
            name = self.text(words)
            words.expect("as")
            return ("Configured", name, self.text(words))
        if word == "unconfigured":
            return ("Configured", self.text(words), None)
        if word in ("rooted", "printed"):
            return (word.capitalize(), self.text(words))
        if word in ("listed", "unlisted"):
            return ("Listed", word == "listed")
        if word in ("listens", "listens-not"):
            return ("Listens", words.number(16), word == "listens")
        return None

    def happening(self, words):
        word = words.bare()
        if word in PLAIN:
            return (PLAIN[word], words.number())
        if word == "stopped":
            return ("Stopped",)
        if word == "waits":
            accepts = not words.takes("shut")
            return ("Waits", accepts, words.spans("read"), words.spans("write"))
        if word in ("heard", "asked", "got"):
            return (word.capitalize(), words.number(), self.text(words))
        if word == "said":
            client, text = words.number(), self.text(words)
            return ("Said", client, words.number() if words.takes("of") else len(text), text)
        if word == "dialled":
            return ("Dialled", words.number(), self.text(words), words.number(16))
        if word == "undialled":
            return ("Undialled", self.text(words), words.number(16))
        if word == "began":
            return ("Began", self.operation(words))
        if word in ("did", "failed"):
            return ("Did", self.operation(words), word == "did")
        if word == "unread":
            return ("Unread", self.text(words))
        return self.opening(word, words) or ("Noted", self.remark(word, words))

    # ---- lines

    def parts(self, words):
        """The lines of the parts whose names these words are."""
        out = []
        while words.is_left():
            out.extend(self.named("part", words.name(), words))
        return out

    def written_out(self, body):
        """Lines, with those of parts and of what comes again in their places."""
        out, stretch = [], None
        for line in body:
            words = Words(line)
            if words.takes("with"):
                out.extend(self.parts(words))
            elif words.takes("repeat"):
                if stretch:
                    line.fail("a stretch that comes again has no end")
                stretch = (line, len(out), words.span("one"))
                words.end()
            elif words.takes("end"):
                if not stretch:
                    line.fail("no stretch ends here")
                words.end()
                once = out[stretch[1] :]
                del out[stretch[1] :]
                for number in stretch[2]:
                    out.extend(it if it.count is not None else it.counted(number) for it in once)
                stretch = None
            else:
                out.append(line)
        if stretch:
            stretch[0].fail("a stretch that comes again has no end")
        return out

    def happenings(self, lines):
        out = []
        for line in lines:
            words = Words(line)
            out.append(self.happening(words))
            words.end()
        return tuple(out)

    def row(self, lines, before):
        """The happenings of lines, and the verdict behind the last."""
        verdicts = [at for at, line in enumerate(lines) if Words(line).takes("!")]
        if not verdicts:
            return self.happenings(lines), None
        if verdicts[0] == 0:
            lines[0].fail("the verdict stands behind no happening")
        if verdicts[0] + 1 < len(lines):
            lines[verdicts[0] + 1].fail("nothing is judged behind a verdict")
        words = Words(lines[-1])
        words.expect("!")
        rule = words.bare()
        if rule not in RULES:
            words.fail(f"no rule is {rule}")
        words.end()
        return self.happenings(lines[:-1]), (before + len(lines) - 2, rule)

    # ---- blocks

    def logs(self, blocks):
        """The logs of a file."""
        lives, marks, front = (Life(),), None, ()
        for block in blocks:
            words = Words(block.head)
            if block.word == "lives":
                words.end()
                lives, marks = self.lives(block)
            elif block.word == "front":
                if block.body:
                    block.body[0].fail("nothing is set in below a front")
                front = self.happenings(self.parts(words))
            elif block.word == "row":
                back, verdict = self.row(self.written_out(block.body), len(front))
                yield Log(block.head.file, block.head.number, block.head.text, lives, front, back, verdict, marks)
            elif block.word == "changes":
                yield from self.changes(block, lives, front, marks)
            elif block.word not in self.blocks:
                block.head.fail(f"no block begins with {block.word}")

    def lives(self, block):
        lives, marks = [], None
        for line in block.body:
            words = Words(line)
            if words.takes("marks"):
                marks = words.number()
            else:
                words.expect("life")
                faults = words.number() if words.takes("faults") else 0
                told = []
                if words.takes("words"):
                    while words.is_left():
                        told.append(self.text(words))
                lives.append(Life(tuple(told), faults))
            words.end()
        if not lives:
            block.head.fail("a log has one life at least")
        return tuple(lives), marks

    def changes(self, block, lives, front, marks):
        """The log itself, which is lawful, and each change of it."""
        unnoticed, lines = {change: set() for change in CHANGES}, []
        for line in block.body:
            words = Words(line)
            if words.takes("unnoticed"):
                change = words.bare()
                if change not in CHANGES:
                    words.fail(f"no change is {change}")
                while words.is_left():
                    unnoticed[change].add(words.number())
            else:
                lines.append(line)
        lines = self.written_out(lines)
        for line in lines:
            if Words(line).takes("!"):
                line.fail("no verdict stands in changes")
        whole, at = self.happenings(lines), (block.head.file, block.head.number, block.head.text, lives, front)
        yield Log(*at, whole, None, marks)
        for change in CHANGES:
            for place in range(len(whole)):
                verdict = None if place in unnoticed[change] else "some"
                yield Log(*at, changed(whole, change, place), verdict, marks, (change, place))


def changed(whole, change, place):
    """The log without the happening at this place, with it twice, or with it behind the next."""
    front, one, rest = whole[:place], whole[place : place + 1], whole[place + 1 :]
    if change == "deleted":
        return front + rest
    if change == "doubled":
        return front + one + one + rest
    return front + rest[:1] + one + rest[1:]
