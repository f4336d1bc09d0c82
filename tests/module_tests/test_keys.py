"""Tests of terminal/keys.py, terminal/row.py and terminal/history.py, by what a terminal sends and a program shows."""
import unittest

from history import History
from keys import DOWN, ESC, UP, Keys
from row import Row

A, B = b"AB"
# What is sent, read by read, and the strokes of each read. What is held at the end, and whether it may be typed.
SENT = (
    ([b"AB"], [[A, B]], b"", False), ([b"A\x1b[AB"], [[A, UP, B]], b"", False), ([b"\x1bOB"], [[DOWN]], b"", False),
    ([b"\x1b[C\x1b[3~\x1b[200~A"], [[A]], b"", False), ([b"A\x1b[", b"BB"], [[A], [DOWN, B]], b"", False),
    ([b"\x1b"], [[]], b"\x1b", True), ([b"\x1b", b"A"], [[], [0x1B, A]], b"", False),
    ([b"\x1b[1;5"], [[]], b"\x1b[1;5", False),
    (["A\u00e9B".encode()], [[A, 0xC3, B]], b"", False), ([b"\xe2", b"\x82\xacA"], [[0xE2], [A]], b"", False),
    ([b"\x82A"], [[0x82, A]], b"", False),
    ([b"\xf0\x9f\x98\x80\x80A"], [[0xF0, 0x80, A]], b"", False), ([b"\t\b"], [[0x09, 0x08]], b"", False),
)
UP_A_ROW = b"\x1b[A\x1b[4C\x1b[K"
RUBOUT = b"\b \b"
# What a program writes, piece by piece, and what a terminal of 5 columns and 3 rows is given for each.
WROTE = (
    ([b"ab"], [b"ab"]), ([b"a\n"], [b"a\r\n"]), ([b"a\r", b"\nb"], [b"a", b"\r\nb"]), ([b"abcde"], [b"abcde \r"]),
    ([b"abcde\r\n"], [b"abcde\r\n"]), ([b"abcde", b"\r\n"], [b"abcde \r", UP_A_ROW + b"e\r\n"]),
    ([b"abcde", RUBOUT], [b"abcde \r", UP_A_ROW]), ([b"abcd", RUBOUT], [b"abcd", RUBOUT]),
    ([b"abcdef", RUBOUT], [b"abcdef", RUBOUT]), ([b"ab\b", b" \b"], [b"ab", RUBOUT]), ([b"a\a"], [b"a\a"]),
)


class OfKeys(unittest.TestCase):
    def test_strokes(self):
        for sent, strokes, held, may_be_typed in SENT:
            with self.subTest(sent=sent):
                keys = Keys()
                self.assertEqual([keys.strokes(each) for each in sent], strokes)
                self.assertEqual((keys.may_be_typed(), keys.released()), (may_be_typed, held))
                self.assertEqual(keys.released(), b"")

    def test_keys_alone(self):
        keys = Keys(ESC)
        self.assertEqual(keys.taken(b"A\x1b[A\tB"), b"A\x1bB")


class OfRow(unittest.TestCase):
    def test_what_is_shown(self):
        for wrote, given in WROTE:
            with self.subTest(wrote=wrote):
                row = Row(5, 3)
                self.assertEqual([row.shown(each) for each in wrote], given)

    def test_no_window(self):
        self.assertEqual(Row(0, 0).shown(b"abcdefgh\n"), b"abcdefgh\r\n")

    def test_another_width(self):
        for columns, given in ((3, b"\x1b[J\r\nabcdef \r"), (4, b"\x1b[J\r\nabcdef")):
            row = Row(5, 3)
            row.shown(b"abcdef")
            row.resize(columns, 3)
            self.assertEqual(row.shown(b""), given)
        row = Row(5, 3)
        row.shown(b"ab")
        row.resize(8, 3)
        self.assertEqual(row.shown(b"c"), b"\x1b[Jc")


class OfHistory(unittest.TestCase):
    def confirmed(self, *lines):
        """A history after these lines, each typed behind a prompt, and the row that is shown."""
        history, row = History(), Row(0, 0)
        row.shown(b"@")
        history.begin(row)
        for line in lines:
            row.shown(line)
            history.confirm(row)
            row.shown(b"\r\n" if line.endswith(b"-") else b"\r\n@")
            history.begin(row)
        return history, row

    def test_lines_come_back(self):
        for lines, wanted in (
            ([], []), ([b"inf"], [b"inf"]), ([b"inf", b"inf"], [b"inf"]), ([b"a", b"", b"b"], [b"b", b"a"]),
            ([b"remark a-", b"b"], [b"remark a b"]),
        ):
            with self.subTest(lines=lines):
                history, row = self.confirmed(*lines)
                self.assertEqual([history.move(-1, row) for _ in wanted], wanted)
                self.assertIsNone(history.move(-1, row))

    def test_what_was_typed_comes_back(self):
        history, row = self.confirmed(b"inf")
        row.shown(b"di")
        self.assertEqual(history.move(-1, row), b"\x15inf")
        row.shown(2 * RUBOUT + b"inf")
        self.assertEqual(history.move(1, row), b"\x15di")
        self.assertIsNone(history.move(1, row))

    def test_a_line_that_is_given_up(self):
        history, row = self.confirmed(b"inf")
        row.shown(b"di")
        history.give_up()
        row.shown(b"^C\r\n@")
        history.begin(row)
        self.assertEqual(history.move(-1, row), b"inf")
