"""Windows of terminals, for tests/terminal: what they show after some bytes, as far as terminal/ uses them.

A byte in the last column leaves the cursor there, and it is in the next row once another comes. Other models are made
by options, or are pyte's where that is installed. tests/module_tests tests it.
"""
import re

try:
    import pyte
except ImportError:
    pyte = None

TOKEN = re.compile(rb"\x1b\[(\d*)([ACJK])|[\r\n\x08\a]|[ -~]+")
BEGUN = re.compile(rb"\x1b(?:\[\d*)?")


class Window:
    """A window as xterm has it: its backspace stays in the first column and, where a byte stands in the last, goes one
    column to the left. With `comes_back` it goes from there to the last column of the row above that goes on, and only
    leaves the last column where no byte stands. With `flows` a new width makes other rows of those that go on."""

    def __init__(self, columns, rows, comes_back=False, flows=False):
        self.columns, self.rows = columns, rows
        self.comes_back, self.flows = comes_back, flows
        self.lines = [b""] * rows
        self.goes_on = [False] * rows
        self.x = self.y = 0
        self.is_full = False
        self.begun = b""

    def feed(self, given):
        """Shows these bytes, which have no others than are known."""
        given, self.begun = self.begun + given, b""
        place = 0
        while place < len(given):
            token = TOKEN.match(given, place)
            if token is None:
                if BEGUN.fullmatch(given, place):
                    self.begun = given[place:]
                    return
                raise ValueError(f"no terminal is given {given[place:place + 10]!r}")
            self.act(token)
            place = token.end()

    def act(self, token):
        """Shows a text, or what another token does."""
        text = token[0]
        if 0x20 <= text[0] < 0x7F:
            for byte in text:
                self.put(byte)
        elif text == b"\n":
            self.go_down()
        elif text == b"\b":
            self.go_back()
        elif text != b"\a":
            self.move(text, int(token[1] or 1))

    def put(self, byte):
        """Shows a byte."""
        if self.is_full:
            self.goes_on[self.y] = True
            self.go_down()
            self.x, self.is_full = 0, False
        line = self.lines[self.y].ljust(self.x)
        self.lines[self.y] = line[:self.x] + bytes([byte]) + line[self.x + 1:]
        self.is_full = self.x == self.columns - 1
        self.x += not self.is_full

    def go_down(self):
        """Goes to the next row, and lets the first go where there is none."""
        if self.y == self.rows - 1:
            self.lines = [*self.lines[1:], b""]
            self.goes_on = [*self.goes_on[1:], False]
        else:
            self.y += 1

    def go_back(self):
        """Goes back by a byte."""
        if self.is_full and self.comes_back:
            self.is_full = False
        elif self.x > 0:
            self.x, self.is_full = self.x - 1, False
        elif self.comes_back and self.y > 0 and self.goes_on[self.y - 1]:
            self.x, self.y = self.columns - 1, self.y - 1

    def move(self, text, count):
        """Moves as CR or a sequence does, or wipes the rest of the row, or of the window."""
        self.is_full = False
        if text == b"\r":
            self.x = 0
        elif text.endswith(b"A"):
            self.y = max(0, self.y - count)
        elif text.endswith(b"C"):
            self.x = min(self.columns - 1, self.x + count)
        else:
            below = len(self.lines) - self.y - 1 if text.endswith(b"J") else 0
            self.lines[self.y:self.y + below + 1] = [self.lines[self.y][:self.x], *[b""] * below]
            self.goes_on[self.y:self.y + below + 1] = [False] * (below + 1)

    def resize(self, columns, rows):
        """Gets another size."""
        if self.flows:
            self.flow(columns)
        self.lines = [line[:columns] for line in self.lines]
        surplus = max(0, self.y - rows + 1)
        self.lines = (self.lines[surplus:] + [b""] * rows)[:rows]
        self.goes_on = (self.goes_on[surplus:] + [False] * rows)[:rows]
        self.columns, self.rows = columns, rows
        self.x, self.y, self.is_full = min(self.x, columns - 1), self.y - surplus, False

    def flow(self, columns):
        """Makes rows of this width of those that go on. The cursor stays at its byte."""
        lines, goes_on, row = [], [], b""
        for number, line in enumerate(self.lines):
            if number == self.y:
                at = (len(lines), len(row) + self.x)
            row += line
            if not self.goes_on[number]:
                parts = [row[place:place + columns] for place in range(0, max(len(row), 1), columns)]
                lines += parts
                goes_on += [True] * (len(parts) - 1) + [False]
                row = b""
        self.lines, self.goes_on = lines, goes_on
        self.x, self.y = at[1] % columns, at[0] + at[1] // columns

    def shown(self):
        """The rows, without the blanks at their ends, and the column and the row of the cursor."""
        return [line.rstrip() for line in self.lines], self.x, self.y


class PyteWindow:
    """The window of pyte."""

    def __init__(self, columns, rows):
        self.columns, self.rows = columns, rows
        self.screen = pyte.Screen(columns, rows)
        self.stream = pyte.ByteStream(self.screen)

    def feed(self, given):
        """Shows these bytes."""
        self.stream.feed(given)

    def resize(self, columns, rows):
        """Gets another size."""
        self.columns, self.rows = columns, rows
        self.screen.resize(rows, columns)

    def shown(self):
        """The rows, without the blanks at their ends, and the column and the row of the cursor."""
        lines = [line.rstrip().encode() for line in self.screen.display]
        return lines, self.screen.cursor.x, self.screen.cursor.y


def windows(columns, rows):
    """A window of each kind."""
    made = [Window(columns, rows), Window(columns, rows, comes_back=True), Window(columns, rows, flows=True)]
    return [*made, PyteWindow(columns, rows)] if pyte else made


def parts(row, columns, end):
    """The rows of a window that show this row of a program: with an end of 1, where the cursor is after it, one more
    than where it ends, if it is full."""
    return [row[place:place + columns].rstrip() for place in range(0, max(1, len(row) + end), columns)]


def rows_of(shown):
    """The rows that a program has shown, where none is too long for its window."""
    rows = []
    for row in shown.replace(b"\a", b"").split(b"\r\n"):
        while b"\b \b" in row:
            place = row.index(b"\b \b")
            row = row[:max(0, place - 1)] + row[place + 3:]
        rows.append(row)
    return rows


def fault(window, rows, is_all=True):
    """How a window shows something else than these rows, and nothing below, or None. Those that are not in it any more
    are not asked for. Without `is_all` others may be above."""
    wanted = [part for row in rows[:-1] for part in parts(row, window.columns, 0)] + parts(rows[-1], window.columns, 1)
    lines, x, y = window.shown()
    seen = lines[:y + 1] if is_all else lines[:y + 1][-len(wanted):]
    if seen == wanted[-len(seen):] and x == len(rows[-1]) % window.columns and not any(lines[y + 1:]):
        return None
    return f"a window of {window.columns} columns shows {lines}, the cursor in {x}, {y}, and not {wanted[-len(seen):]}"
