"""The lines of a transcript, their blocks and their words. What a block means is for reader.py."""

import re
from dataclasses import dataclass, replace

ESCAPES = {"r": b"\r", "n": b"\n", "t": b"\t", "0": b"\0", '"': b'"', "\\": b"\\"}
WORD = re.compile(r'[ \t]*(?:"((?:[^"\\]|\\.)*)"|([^ \t"][^ \t]*))')
MOST = 1 << 16  # nothing comes more often


class Refusal(Exception):
    """A line that cannot be read: 'FILE:LINE: why'."""


@dataclass(frozen=True)
class Line:
    file: str
    number: int
    text: str
    count: object = None  # what N stands for

    def fail(self, why):
        raise Refusal(f"{self.file}:{self.number}: {why}")

    def counted(self, count):
        return replace(self, count=count)


@dataclass
class Block:
    word: str
    head: Line
    body: list


def blocks_of(path):
    """The blocks of a file: a line at the margin, and those below it that are set in."""
    try:
        text = path.read_text()
    except (OSError, UnicodeDecodeError) as error:
        raise Refusal(f"{path}: cannot be read: {error}") from error
    blocks = []
    for number, raw in enumerate(text.split("\n"), 1):
        said = raw.strip()
        if not said or said.startswith("#"):
            continue
        line = Line(path.name, number, said)
        if not raw.startswith((" ", "\t")):
            word, _, head = said.partition(" ")
            blocks.append(Block(word, replace(line, text=head.strip()), []))
        elif not blocks:
            line.fail("no block is above this line")
        else:
            blocks[-1].body.append(line)
    return blocks


class Words:
    """The words of a line that are still to be read."""

    def __init__(self, line):
        self.line, self.rest = line, line.text

    def fail(self, why):
        self.line.fail(why)

    def is_left(self):
        return bool(self.rest.strip())

    def end(self):
        if self.is_left():
            self.fail(f"there are too many words: {self.rest.strip()}")

    def peek(self):
        """Whether the next word is quoted, the word, and what is behind it; or None."""
        if not self.is_left():
            return None
        found = WORD.match(self.rest)
        if not found:
            self.fail("a quote does not end")
        quoted, bare = found.groups()
        return quoted is not None, bare if quoted is None else quoted, self.rest[found.end() :]

    def next(self, missing):
        found = self.peek()
        if not found:
            self.fail(missing)
        self.rest = found[2]
        return found[:2]

    def takes(self, word):
        """Whether this is the next word, which is then read."""
        found = self.peek()
        if found and found[:2] == (False, word):
            self.rest = found[2]
            return True
        return False

    def expect(self, word):
        if not self.takes(word):
            self.fail(f"here stands '{word}'")

    def bare(self):
        quoted, word = self.next("a word is missing")
        if quoted:
            self.fail("a word without quotes is missing")
        return word

    def name(self):
        word = self.bare()
        if word.isdigit():
            self.fail("a number is no name")
        return word

    # ---- numbers

    def number_in(self, word):
        if word in ("N", "N-1", "N+1") and self.line.count is not None:
            return self.line.count + {"N": 0, "N-1": -1, "N+1": 1}[word]
        return int(word) if re.fullmatch("[0-9]+", word) else None

    def number_if_any(self):
        found = self.peek()
        number = None if not found or found[0] else self.number_in(found[1])
        if number is not None:
            self.rest = found[2]
        return number

    def number(self, bits=64):
        number = self.number_if_any()
        if number is None:
            self.fail("a number is missing")
        if not 0 <= number < 1 << bits:
            self.fail(f"{number} is no number of {bits} bits")
        return number

    def span_if_any(self, alone):
        """The numbers of `3..7`, or of `7`: from 1 to it where `alone` is 'one', else it alone."""
        found = self.peek()
        if not found or found[0]:
            return None
        first, dots, last = found[1].partition("..")
        last = self.number_in(last if dots else first)
        first = self.number_in(first) if dots else 1 if alone == "one" else last
        if first is None or last is None:
            return None
        if last < first:
            self.fail("a span ends before it begins")
        if last - first >= MOST:
            self.fail(f"this comes more often than {MOST} times")
        self.rest = found[2]
        return range(first, last + 1)

    def span(self, alone):
        span = self.span_if_any(alone)
        if span is None:
            self.fail("a number is missing")
        return span

    def spans(self, word):
        """The numbers behind this word, if it stands here."""
        out = []
        if self.takes(word):
            while (span := self.span_if_any("last")) is not None:
                out.extend(span)
        return tuple(out)

    # ---- texts

    def unquoted(self, quoted):
        """The bytes that a quoted text stands for."""
        out, at = bytearray(), 0
        for found in re.finditer(r"\\x([0-9a-fA-F]{2})|\\(.)|([^\\]+)", quoted):
            code, escape, plain = found.groups()
            if code:
                out += bytes([int(code, 16)])
            elif plain:
                out += plain.encode()
            elif escape in ESCAPES:
                out += ESCAPES[escape]
            else:
                self.fail(f"no byte is written \\{escape}")
            at = found.end()
        return bytes(out)
