"""The lines of a session, and of those before it, that the arrows up and down bring back.

A line is what stands behind its prompt in the rows that the program has shown, so that what ESC put in is of it. One
whose rows are joined by hyphens at their ends has a blank for each, as the program takes it. To bring one back the keys
are typed that make it: control-U where a line stands there, and its text.
"""
from collections import deque

MOST_LINES = 100
ERASE = b"\x15"
JOIN = b"-"


class History:
    """The lines that were confirmed, the last of them last, and the place among them that is shown. With a file they
    begin with its lines."""

    def __init__(self, file=None):
        self.file, self.added = file, []
        self.lines = deque(file.read() if file else (), maxlen=MOST_LINES)
        self.prompt = b""
        self.is_edited = False
        self.confirmed = b""
        self.draft = b""
        self.place = 0

    def begin(self, row):
        """What is typed now stands behind this row: a line behind a prompt or, where the row is empty, what joins a
        line that ends with a hyphen, or a text."""
        self.is_edited = row.text != b""
        if not self.is_edited and self.confirmed.endswith(JOIN):
            return
        self.add()
        self.confirmed, self.draft, self.place = b"", b"", len(self.lines)
        self.prompt = row.text
        row.above.clear()

    def add(self):
        """The line that was confirmed is one of them."""
        if self.confirmed and self.confirmed not in list(self.lines)[-1:]:
            self.lines.append(self.confirmed)
            self.added.append(self.confirmed)

    def keep(self):
        """Adds the lines of this session to the file."""
        self.add()
        if self.file and self.added:
            self.file.add(self.added)

    def line(self, row):
        """The line that stands behind the prompt, or nothing where none does."""
        rows, above = [row.text], reversed(row.above)
        while not rows[0].startswith(self.prompt):
            text = next(above, b"")
            if not text.endswith(JOIN):
                return b""
            rows.insert(0, text.removesuffix(JOIN))
        return b" ".join(rows)[len(self.prompt):] if self.prompt else b""

    def confirm(self, row):
        """The line is confirmed."""
        self.confirmed = self.line(row)

    def give_up(self):
        """The line is given up."""
        self.confirmed = b""

    def move(self, step, row):
        """The keys that bring back the line one step after the one that is shown, or None where there is none."""
        if not self.is_edited or not 0 <= self.place + step <= len(self.lines):
            return None
        line = self.line(row)
        if self.place == len(self.lines):
            self.draft = line
        self.place += step
        text = self.draft if self.place == len(self.lines) else self.lines[self.place]
        return (ERASE if line else b"") + text
