"""A file of lines that sessions leave one another: it keeps the last of them."""
import os

from image import Changed, save, stamp
from out import say


class LineFile:
    """A file with this name, of at most so many lines. Where it cannot be used this is told once, as this program's,
    and no more is asked of it."""

    def __init__(self, name, path, most):
        self.name, self.path, self.most = name, path, most

    def read(self):
        """Its lines. Where there is no file, one is made that others cannot read."""
        return self.tried(self.lines)

    def add(self, lines):
        """Adds lines, after those that another session has added meanwhile."""
        self.tried(lambda: self.put(lines))

    def tried(self, use):
        """What this use of it gives, or no lines."""
        try:
            return use() if self.path else []
        except OSError as error:
            say(f"{self.name}: {self.path} keeps no lines: {error.strerror}\r")
            self.path = None
            return []

    def lines(self):
        """The last lines that it holds."""
        with open(os.open(self.path, os.O_RDWR | os.O_CREAT, 0o600), "rb") as file:
            return [line for line in file.read().split(b"\n") if line][-self.most:]

    def put(self, lines):
        """Puts what it is to hold in its place."""
        while True:
            seen = stamp(self.path)
            kept = [*self.lines(), *lines][-self.most:]
            try:
                return save(b"".join(line + b"\n" for line in kept), self.path, seen)
            except Changed:
                pass
