"""The screen of a program: what it writes goes through a pipe to the terminal, which shows it as the row tells.

Control-S stops it, and the program waits where its pipe is full. A listing may also be dropped up to the next prompt:
what the program writes is then read and not shown, but for its last row.
"""
import fcntl
import os
import sys
import termios

from row import EOL, Row

PIECE = 1024


def window(terminal):
    """The columns and rows of a terminal's window, or 0 where they are not known or its cursor cannot be moved."""
    if terminal is None or os.environ.get("TERM") in (None, "", "dumb"):
        return 0, 0
    try:
        return os.get_terminal_size(terminal)
    except OSError:
        return 0, 0


class Screen:
    """A terminal at standard output or, with a program's log, at standard error."""

    def __init__(self):
        numbers = [number for number in (1, 2) if os.isatty(number)]
        self.terminal = numbers[0] if numbers else None
        shown = [number for number in numbers if os.fstat(number).st_rdev == os.fstat(self.terminal).st_rdev]
        self.pipe, self.end = os.pipe()
        self.actions = [(os.POSIX_SPAWN_DUP2, self.end, number) for number in shown]
        self.row = Row(*window(self.terminal))
        self.piece = b""  # what the terminal has not taken yet
        self.dropped = None  # the last row of what is not shown
        self.is_open = True
        self.is_stopped = False
        self.is_resized = False

    def begin(self):
        """Leaves the end of the pipe to the program."""
        os.close(self.end)

    def wanted(self):
        """What is waited for: the inputs, and the outputs."""
        if self.is_stopped or not (self.piece or self.is_open):
            return [], []
        return ([], [self.terminal]) if self.piece else ([self.pipe], [])

    def serve(self, came, ready):
        """Takes what came of these inputs, and writes where these outputs are ready."""
        if self.is_resized:
            self.is_resized = False
            self.row.resize(*window(self.terminal))
        if self.piece and self.terminal in ready:
            self.write()
        elif self.is_open and self.pipe in came:
            self.take()

    def note_resize(self, *_):
        """Notes that the window has another size."""
        self.is_resized = True

    def show(self, text):
        """Shows this."""
        if self.terminal is not None:
            self.piece += self.row.shown(text)

    def take(self):
        """Takes some of what the program wrote, and shows it if it isn't dropped."""
        wrote = os.read(self.pipe, PIECE)
        if not wrote:
            self.go_on()
            self.piece += self.row.begun
            self.close()
        elif self.dropped is None:
            self.show(wrote)
        else:
            if not self.dropped:
                self.dropped, self.row.begun = self.row.text, b""
                self.show(b"^C" + EOL)
            self.dropped = last_row(self.dropped + wrote)

    def write(self):
        """Gives the terminal what it has not taken yet. Where it is gone the program is told so by its own writes."""
        try:
            self.piece = self.piece[os.write(self.terminal, self.piece):]
        except OSError:
            self.piece = b""
            self.close()

    def close(self):
        """Ends the pipe."""
        if self.is_open:
            os.close(self.pipe)
        self.is_open = False

    def has_more(self):
        """Whether something is still to be shown."""
        return self.piece != b"" or self.is_open and bytes_in(self.pipe) > 0

    def drop(self):
        """Shows nothing of what comes up to the next prompt, and goes on if it was stopped."""
        self.is_stopped = False
        self.dropped = self.dropped or b""

    def go_on(self):
        """Shows again what comes, and the last row of what was dropped. Tells whether something was."""
        dropped, self.dropped = self.dropped, None
        if dropped:
            self.show(dropped)
        return bool(dropped)

    def is_gone(self):
        """Whether the terminal was there and is no more."""
        return self.terminal is not None and not os.isatty(self.terminal)


def bytes_in(pipe):
    """How many bytes stand in a pipe."""
    return int.from_bytes(fcntl.ioctl(pipe, termios.FIONREAD, bytes(4)), sys.byteorder)


def last_row(text):
    """The last row of a text that is not empty, with what ends it."""
    return text[text.rstrip(EOL).rfind(b"\n") + 1:]
