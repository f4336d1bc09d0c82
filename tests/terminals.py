"""Pseudo-terminals with a program on them, for tests/terminal and tests/saving, and what a program shows there.
tests/module_tests tests it."""
import fcntl
import os
import pty
import select
import signal
import struct
import subprocess
import termios
import time

from images import in_folder, read
from scenes import SECONDS, Wrong, waits_for, want
from tree import ROOT, program_of
from windows import fault, windows

PROGRAM = program_of("exec20")
SCRIPTS = EXEC20, LAMPS, ROUTER, MAIL = [os.path.join(ROOT, name) for name in ("exec20", "lamps", "router", "mm20")]
ANEW = ["-n", "OUT"]
SIGNALS = (signal.SIGHUP, signal.SIGINT, signal.SIGQUIT, signal.SIGTERM)
LOCAL_FLAGS, CHARACTERS = 3, 6
EOL = b"\r\n"
RUBOUT = b"\b \b"


def piped(keys, words, folder, program=PROGRAM):
    """What the program shows over these keys through a pipe."""
    done = subprocess.run(
        [program, *words], input=keys, stdout=subprocess.PIPE, cwd=folder, timeout=SECONDS, check=True
    )
    return done.stdout


def shown_by(keys):
    """What the program shows up to the last of these keys, without the end of the line that it closes with."""
    return in_folder(lambda folder: piped(keys, ANEW, folder))[:-len(EOL)]


def image_by(keys):
    """The image that it writes."""
    def run(folder):
        piped(keys, ANEW, folder)
        return read(folder)

    return in_folder(run)


def children_of(number):
    """The processes that a process has started."""
    with open(f"/proc/{number}/task/{number}/children", encoding="ascii") as children:
        return [int(child) for child in children.read().split()]


class Terminal:
    """A pseudo-terminal with a program on it, and all that it has shown. It is the terminal of a session of its own."""

    def __init__(self, folder, words, script=EXEC20, size=(0, 0), erase=None, **environment):
        self.folder = folder
        self.keyboard, self.line = pty.openpty()
        self.windows, self.seen = [], 0
        if size != (0, 0):
            self.windows = windows(*size)
            self.resize(*size)
            environment = {"TERM": "xterm", **environment}
        if erase:
            settings = termios.tcgetattr(self.line)
            settings[CHARACTERS][termios.VERASE] = erase
            termios.tcsetattr(self.line, termios.TCSANOW, settings)
        self.before = termios.tcgetattr(self.line)
        self.screen = b""
        self.expected = b""
        self.child = subprocess.Popen(
            [script, *words], stdin=self.line, stdout=self.line, stderr=self.line, cwd=folder,
            start_new_session=True, preexec_fn=self.begin, env={**os.environ, **environment},
        )
        # what is typed before is shown by the terminal too, as at any program
        if script in SCRIPTS:
            waits_for(lambda: self.is_set() or self.child.poll() is not None, "the terminal is not set")

    @staticmethod
    def begin():
        """Takes the terminal. What runs in the background may have been begun with signals ignored or blocked."""
        fcntl.ioctl(0, termios.TIOCSCTTY, 0)
        for number in SIGNALS:
            signal.signal(number, signal.SIG_DFL)
        signal.pthread_sigmask(signal.SIG_SETMASK, [])

    def __enter__(self):
        return self

    def __exit__(self, *_):
        """Ends what still runs: it is all in one session."""
        if self.child.poll() is None:
            os.killpg(self.child.pid, signal.SIGKILL)
            self.child.wait()
        for number in (self.keyboard, self.line):
            if number is not None:
                os.close(number)

    def types(self, keys):
        """Types keys at once, and takes what is shown meanwhile."""
        while keys:
            came, ready, _ = select.select([self.keyboard], [self.keyboard], [], SECONDS)
            want(came or ready, "the terminal takes no more keys")
            if came:
                self.screen += os.read(self.keyboard, 65_536)
            elif ready:
                keys = keys[os.write(self.keyboard, keys[:256]):]

    def strikes(self, key):
        """Types a key, or a few, and takes nothing of what is shown meanwhile."""
        os.write(self.keyboard, key)

    def shows(self, text):
        """Waits until all that is shown is this, and wants no other."""
        self.expected, end = text, time.monotonic() + SECONDS
        while self.screen != text and text.startswith(self.screen) and time.monotonic() < end:
            if select.select([self.keyboard], [], [], 0.1)[0]:
                self.screen += os.read(self.keyboard, 65_536)
        want(self.screen == text, f"it shows {self.screen[-400:]!r}, and not {text[-400:]!r}")

    def shows_more(self, text):
        """The same of what is shown after what was waited for before."""
        self.shows(self.expected + text)

    def resize(self, columns, rows):
        """Gives the window another size."""
        for window in self.windows:
            window.resize(columns, rows)
        fcntl.ioctl(self.line, termios.TIOCSWINSZ, struct.pack("HHHH", rows, columns, 0, 0))

    def sees(self, rows, is_all=True):
        """Waits until these rows are all that stands in each window, the last of them with the cursor; or below what
        else does."""
        end, faults = time.monotonic() + SECONDS, [None]
        while any(faults) or faults == [None]:
            want(time.monotonic() < end, next(filter(None, faults), None))
            if select.select([self.keyboard], [], [], 0 if self.seen < len(self.screen) else 0.1)[0]:
                self.screen += os.read(self.keyboard, 65_536)
            for window in self.windows:
                window.feed(self.screen[self.seen:])
            self.seen = len(self.screen)
            faults = [fault(window, rows, is_all) for window in self.windows]

    def reads(self, seconds):
        """Takes what is shown, and tells whether more was within so many seconds."""
        if not select.select([self.keyboard], [], [], seconds)[0]:
            return False
        self.screen += os.read(self.keyboard, 65_536)
        return True

    def has_shown(self, text):
        """Whether what is shown ends with this now."""
        self.reads(0.01)
        return self.screen.endswith(text)

    def is_set(self):
        """Whether each key is passed on at once and none is shown by the terminal."""
        flags = termios.tcgetattr(self.line)[LOCAL_FLAGS]
        return flags & (termios.ICANON | termios.ECHO | termios.ISIG) == 0

    def is_as_before(self):
        """Whether the settings are those of before."""
        return termios.tcgetattr(self.line) == self.before

    def is_taken(self):
        """Whether all that was typed has been read from the terminal."""
        size = fcntl.ioctl(self.line, termios.FIONREAD, struct.pack("i", 0))
        return struct.unpack("i", size)[0] == 0

    def types_in_parts(self, *parts):
        """Types each part when the one before has been read."""
        for part in parts:
            self.types(part)
            waits_for(self.is_taken, "what is typed is not read")

    def program(self):
        """The number of the program itself: of what the script has started the one that is not Python too."""
        script = os.readlink(f"/proc/{self.child.pid}/exe")
        for number in children_of(self.child.pid):
            if os.readlink(f"/proc/{number}/exe") != script:
                return number
        raise Wrong("the program does not run")

    def ends(self, status, text=b""):
        """Waits for the end with this status and with this text after what was waited for, and wants the settings of
        before, and that nothing runs at the terminal any more."""
        try:
            got = self.child.wait(SECONDS)
        except subprocess.TimeoutExpired:
            got = None
        want(got == status, f"it ends with {got}, and not with {status}")
        want(self.is_as_before(), "the settings are not those of before")
        os.close(self.line)
        self.line = None
        wanted, end = self.expected + text, time.monotonic() + SECONDS
        while time.monotonic() < end:
            try:
                if select.select([self.keyboard], [], [], 0.1)[0]:
                    self.screen += os.read(self.keyboard, 65_536)
            except OSError:
                break
        else:
            raise Wrong("something still runs at the terminal")
        want(self.screen == wanted, f"it shows {self.screen[-400:]!r} in all, and not {wanted[-400:]!r}")

    def saves(self, image, name="OUT"):
        """Wants this image in the file."""
        saved = read(self.folder, name)
        want(saved == image, f"the file {name} holds {saved!r}, and not {image!r}")


def told(text):
    """A line of the scripts, on a terminal with its own settings."""
    return text.encode() + EOL
