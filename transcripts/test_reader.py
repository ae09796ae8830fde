#!/usr/bin/env python3
"""What cannot be read is refused by its line, with why. The last line is 'N passed, M failed'."""

import sys
import tempfile
import unittest
from pathlib import Path

import reader

CASES = [
    # words that are not known
    ("rows\n", 1, "no block begins with rows"),
    ("lives\n  death\n", 2, "here stands 'life'"),
    ("row a\n  wait\n", 2, "no happening is wait"),
    ("row a\n  began erase\n", 2, "no operation on the disk is erase"),
    ("row a\n  taken 1 0 guess\n", 2, "no decision is guess"),
    ("row a\n  cut 1 bored\n", 2, "no cause is bored"),
    ("row a\n  waits\n  ! wrong\n", 3, "no rule is wrong"),
    ("changes a\n  waits\n  unnoticed dropped 0\n", 3, "no change is dropped"),
    ("row a\n  heard 1 REQUEST\n", 2, "no text has the name REQUEST"),
    ("row a\n  with COMES\n", 2, "no part has the name COMES"),
    ("front COMES\n", 1, "no part has the name COMES"),
    ("row a\n  stopped 1\n", 2, "there are too many words: 1"),
    # words that are missing
    ("lives\n", 1, "a log has one life at least"),
    ('text "a"\n', 1, "a word without quotes is missing"),
    ("row a\n  opened\n", 2, "a number is missing"),
    ("text A\n", 1, "a text is missing"),
    ('row a\n  printed "never closed\n', 2, "a quote does not end"),
    ('row a\n  configured "a" "b"\n', 2, "here stands 'as'"),
    ('text A "abc" at 3\n', 1, "the text has no byte there"),
    # what is too large, or no byte
    ('text 5 "a"\n', 1, "a number is no name"),
    ("row a\n  waits read 7..3\n", 2, "a span ends before it begins"),
    ("row a\n  repeat 9..3\n", 2, "a span ends before it begins"),
    ("row a\n  repeat 0\n", 2, "a span ends before it begins"),
    ("row a\n  listens 65536\n", 2, "65536 is no number of 16 bits"),
    ("row a\n  repeat 0..65536\n  waits\n  end\n", 2, "this comes more often than 65536 times"),
    ('text A 65537 * "a"\n', 1, "this comes more often than 65536 times"),
    ('text A "\\q"\n', 1, "no byte is written \\q"),
    ('text A "\\x1"\n', 1, "no byte is written \\x"),
    ('text A "\\x1g"\n', 1, "no byte is written \\x"),
    # blocks and stretches in order
    ("  waits\n", 1, "no block is above this line"),
    ('text A "a"\n  waits\n', 2, "nothing is set in below a text"),
    ("front\n  waits\n", 2, "nothing is set in below a front"),
    ('text A "a"\ntext A "b"\n', 2, "A is the name of another text"),
    ("text A B\ntext B A\n", 1, "A stands in itself"),
    ("part A\n  waits\npart A\n  waits\n", 3, "A is the name of another part"),
    ("part A\n  with A\n", 1, "A stands in itself"),
    ("row a\n  repeat 2\n  waits\n", 2, "a stretch that comes again has no end"),
    ("row a\n  repeat 2\n  repeat 3\n", 3, "a stretch that comes again has no end"),
    ("row a\n  end\n", 2, "no stretch ends here"),
    # a verdict stands once in a row, behind what it judges
    ("row a\n  waits\n  ! wrong-reply\n  waits\n", 4, "nothing is judged behind a verdict"),
    ("row a\n  ! wrong-reply\n", 2, "the verdict stands behind no happening"),
    ("row a\n  waits\n  ! wrong-reply\n  ! wrong-ask\n", 4, "nothing is judged behind a verdict"),
    ("part A\n  waits\n  ! wrong-reply\n", 3, "no verdict stands in a part"),
    ("changes a\n  waits\n  ! wrong-reply\n", 3, "no verdict stands in changes"),
]


def logs_of(*texts):
    with tempfile.TemporaryDirectory() as folder:
        files = [Path(folder) / f"{letter}.log" for letter, _ in zip("abc", texts)]
        for file, text in zip(files, texts):
            file.write_text(text)
        return reader.read(files)


class Reader(unittest.TestCase):
    def test_refused(self):
        for text, line, why in CASES:
            with self.subTest(text):
                with self.assertRaises(reader.Refusal) as told:
                    logs_of(text)
                self.assertEqual(str(told.exception), f"a.log:{line}: {why}")

    def test_no_file(self):
        with self.assertRaisesRegex(reader.Refusal, "^/nothing.log: cannot be read"):
            reader.read([Path("/nothing.log")])

    def test_read(self):
        log, *_ = logs_of(
            'lives\n  life faults 2 words "a" "b=" + 5\n  marks 12\nfront F\n'
            'row a title\n  heard 1 T + "\\x1f\\n" to 5\n  repeat 2..3\n    opened N+1\n  end\n  waits shut read 1 3..5\n  ! wrong-ask\n',
            'text T 2 * "x"\npart F\n  said 1 T at 1 of 9\n',
        )
        self.assertEqual((log.file, log.line, log.title), ("a.log", 5, "a title"))
        self.assertEqual((log.lives, log.marks), ((reader.Life((b"a", b"b=5"), 2),), 12))
        self.assertEqual(log.front, (("Said", 1, 9, b"x"),))
        self.assertEqual(log.back, (("Heard", 1, b"xx\x1f\n\0"), ("Opened", 3), ("Opened", 4), ("Waits", False, (1, 3, 4, 5), ())))
        self.assertEqual(log.verdict, (4, "wrong-ask"))

    def test_changes(self):
        logs = logs_of("changes a\n  opened 1\n  stopped\n  unnoticed swapped 1\n")
        one, two = ("Opened", 1), ("Stopped",)
        wanted = [
            (None, (one, two), None),
            (("deleted", 0), (two,), "some"),
            (("deleted", 1), (one,), "some"),
            (("doubled", 0), (one, one, two), "some"),
            (("doubled", 1), (one, two, two), "some"),
            (("swapped", 0), (two, one), "some"),
            (("swapped", 1), (one, two), None),
        ]
        self.assertEqual([(log.change, log.back, log.verdict) for log in logs], wanted)


if __name__ == "__main__":
    result = unittest.main(exit=False).result
    bad = len(result.failures) + len(result.errors)
    print(f"{result.testsRun - bad} passed, {bad} failed")
    sys.exit(1 if bad else 0)
