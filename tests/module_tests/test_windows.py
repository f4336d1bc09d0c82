"""Tests of tests/windows.py and tests/terminals.py."""
import tempfile
import unittest

from scenes import Wrong
from terminals import Terminal
from windows import Window, fault, parts, rows_of

# What a window of 5 columns and 3 rows is given, and its rows, the column and the row of its cursor then.
FED = (
    (b"ab", [b"ab", b"", b""], 2, 0), (b"abcde", [b"abcde", b"", b""], 4, 0), (b"abcdef", [b"abcde", b"f", b""], 1, 1),
    (b"ab\r\nc", [b"ab", b"c", b""], 1, 1), (b"ab\b", [b"ab", b"", b""], 1, 0),
    (b"abcde\b", [b"abcde", b"", b""], 3, 0),
    (b"abcdef\b\b", [b"abcde", b"f", b""], 0, 1), (b"a\x1b[2C", [b"a", b"", b""], 3, 0),
    (b"ab\r\x1b[K\a", [b"", b"", b""], 0, 0),
    (b"a\r\nb\x1b[Ac", [b"ac", b"b", b""], 2, 0), (b"a\nb\nc\nd", [b" b", b"  c", b"   d"], 4, 2),
    (b"a\r\nb\x1b[A\r\x1b[J", [b"", b"", b""], 0, 0),
)


def window(given, **how):
    """A window of 5 columns and 3 rows that is given this."""
    made = Window(5, 3, **how)
    made.feed(given)
    return made


class Windows(unittest.TestCase):
    def test_what_is_shown(self):
        for given, rows, x, y in FED:
            with self.subTest(given=given):
                self.assertEqual(window(given).shown(), (rows, x, y))
                made = Window(5, 3)
                for byte in given:
                    made.feed(bytes([byte]))
                self.assertEqual(made.shown(), (rows, x, y))

    def test_other_models(self):
        self.assertEqual(window(b"abcde\b", comes_back=True).shown()[1:], (4, 0))
        self.assertEqual(window(b"abcdef\b\b", comes_back=True).shown()[1:], (4, 0))
        made = window(b"abcdefgh", flows=True)
        made.resize(4, 3)
        self.assertEqual(made.shown(), ([b"abcd", b"efgh", b""], 0, 2))

    def test_what_is_not_known(self):
        self.assertRaises(ValueError, window, b"\x1b[5m")

    def test_rows(self):
        self.assertEqual(rows_of(b"@ab\b \bc\r\nx\a"), [b"@ac", b"x"])
        self.assertEqual(parts(b"abcdef", 3, 0), [b"abc", b"def"])
        self.assertEqual(parts(b"abcdef", 3, 1), [b"abc", b"def", b""])

    def test_faults(self):
        self.assertIsNone(fault(window(b"@ab"), [b"@ab"]))
        self.assertIsNone(fault(window(b"x\r\n@ab"), [b"@ab"], False))
        for given, rows in (
            (b"@ab", [b"@ac"]), (b"x\r\n@ab", [b"@ab"]), (b"@ab\b", [b"@ab"]), (b"@a\r\nbc\x1b[A", [b"@a"]),
        ):
            self.assertIsNotNone(fault(window(given), rows), given)


class Terminals(unittest.TestCase):
    def test_a_terminal(self):
        words = ["-c", "printf @; read line; printf held >OUT; echo $line; exit 3"]
        with tempfile.TemporaryDirectory() as folder, Terminal(folder, words, "/bin/sh") as terminal:
            terminal.shows(b"@")
            self.assertFalse(terminal.is_set())
            self.assertRaises(Wrong, terminal.saves, b"held")
            terminal.types(b"log\r")
            terminal.ends(3, b"log\r\n" + b"log\r\n")
            terminal.saves(b"held")
            self.assertRaises(Wrong, terminal.ends, 0)

    def test_what_is_not_as_it_must_be(self):
        for status, text in ((0, b"@"), (3, b"@@")):
            with Terminal("/", ["-c", "printf @; exit 3"], "/bin/sh") as terminal:
                self.assertRaises(Wrong, terminal.ends, status, text)
