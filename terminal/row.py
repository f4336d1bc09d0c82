"""The row that a program shows last, and how a terminal with windows of some width is to show it.

A terminal goes on in the next row where a row is full, and in most of them a backspace does not come back from there.
One that has just written into its last column waits there with the cursor. So the cursor is taken into the next row
before a key is waited for, and where the program takes back the last byte of a full row, it is moved up by a sequence
that every terminal with movement has. What else the program writes is passed on as it is, but that an LF without a CR
before it, as in its log, begins a new row as one with it does.

The screen has then what the row has: in a window of another width, too, where the row is shown again.
"""
import re
from collections import deque

EOL = b"\r\n"
RUBOUT = b"\b \b"
INTO_NEXT = b" \r"
WIPE_BELOW = b"\x1b[J"
TOKEN = re.compile(rb"[ -~]+|\r?\n|\x08 \x08|\a+|[^ -~]")
BEGUN = re.compile(rb"\r|\x08 ?")
# As many as a line can have, where each is joined to the next.
MOST_ROWS = 256


class Row:
    """The last row, in a window of so many columns and rows; without columns all is passed on as it is."""

    def __init__(self, columns, rows):
        self.columns, self.rows = columns, rows
        self.above = deque(maxlen=MOST_ROWS)  # the rows before this one, for who wants them
        self.narrowest = None  # what the window has had since its width changed
        self.begun = b""
        self.ended = 0  # how many rows were ended
        self.end()

    def end(self):
        """Begins an empty row."""
        self.ended += 1
        self.text = b""
        self.is_plain = True  # no byte in it moves the cursor in another way
        self.is_in_next = False  # the cursor has been taken out of a full row
        self.deepest = 0  # the row of the window, from the first of the text, that the cursor has been in

    def resize(self, columns, rows):
        """Takes note of the window that there is now."""
        if self.columns and columns:
            self.narrowest = min(self.narrowest or columns, self.columns, columns)
        self.columns, self.rows = columns, rows

    def shown(self, wrote):
        """What the terminal is to be given for what the program wrote."""
        wrote, self.begun = self.begun + wrote, b""
        out = [self.again()] if self.narrowest is not None else []
        for token in TOKEN.finditer(wrote):
            if BEGUN.fullmatch(wrote, token.start()):
                self.begun = wrote[token.start():]
                break
            out.append(self.add(token[0]))
        out.append(self.into_next())
        return b"".join(out)

    def add(self, token):
        """Adds what the program wrote to the row. Gives what the terminal is to be given."""
        if token[0] == EOL[-1] or token == EOL:
            given = self.back() + self.text[-1:] + EOL if self.is_in_next else EOL
            self.above.append(self.text)
            self.end()
            return given
        if token == RUBOUT:
            return self.take_back()
        if 0x20 <= token[0] < 0x7F:
            self.text += token
            self.is_in_next = False
            self.deepen(len(self.text) - 1)
        elif token[0] != 0x07:
            self.is_plain = False
        return token

    def is_full(self):
        """Whether the row ends in the last column of the window."""
        return self.is_plain and self.text != b"" and self.columns > 0 and len(self.text) % self.columns == 0

    def deepen(self, place):
        """Notes that the cursor has been at this place of the text."""
        if self.columns:
            self.deepest = max(self.deepest, place // self.columns)

    def into_next(self):
        """Takes the cursor out of a full row."""
        if self.is_in_next or not self.is_full():
            return b""
        self.is_in_next = True
        self.deepen(len(self.text))
        return INTO_NEXT

    def take_back(self):
        """Takes back the last byte."""
        if not self.is_full():
            self.text = self.text[:-1]
            self.is_in_next = self.is_full()
            return RUBOUT
        out = self.into_next()
        self.text = self.text[:-1]
        if self.deepest - len(self.text) // self.columns >= self.rows > 0:
            return out + b"\r" + self.anew()
        self.is_in_next = self.is_full()
        return out + self.back()

    def back(self):
        """Takes the cursor back to the last column of the row above, which then goes on no more and lacks that byte."""
        return b"\x1b[A" + (b"\x1b[%dC" % (self.columns - 1) if self.columns > 1 else b"") + b"\x1b[K"

    def anew(self):
        """The text, where the cursor is in the first column of an empty row."""
        self.is_in_next = False
        self.deepest = 0
        self.deepen(len(self.text) - 1)
        return self.text

    def again(self):
        """The text in a row of its own, where a change of the window may have changed how it is shown; and nothing
        below it, where blanks may be that took back bytes."""
        is_changed = len(self.text) >= self.narrowest
        self.narrowest = None
        if not self.is_plain:
            return b""
        return WIPE_BELOW + (EOL + self.anew() if is_changed else b"")
