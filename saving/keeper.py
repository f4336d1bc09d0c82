"""A second process that waits for the end of this one, KILL too, so that nothing is lost by that.

It brings the terminal's settings back. What the program writes at its end goes through a pipe to it; it gives that on to
this process, or, where this process is gone, does with it what is to be done.
"""
import contextlib
import os
import select
import signal
import termios

SIGNALS = (signal.SIGHUP, signal.SIGINT, signal.SIGQUIT, signal.SIGTERM)
KEYBOARD = 0
READ_LIMIT = 65_536
DONE = b"."
# How many bytes tell how long an image is that is given on.
LENGTH_BYTES = 8


def restore(settings):
    """Gives the terminal these settings, where it is still there."""
    quiet = [(os.POSIX_SPAWN_OPEN, 2, os.devnull, os.O_WRONLY, 0)]
    os.waitpid(os.posix_spawnp("stty", ["stty", settings], os.environ, file_actions=quiet), 0)


def fill_standard_numbers():
    """Sees that no pipe gets the number of a standard file that is closed. To the program it stays closed."""
    for number in range(3):
        try:
            os.fstat(number)
        except OSError:
            os.open(os.devnull, os.O_RDWR)


class Keeper:
    """That process, and the pipes to it."""

    def __init__(self, settings, save=None):
        """Of a terminal these are the settings of before, else there are none. What is to be done with what the program
        wrote, where this process is gone, is `save`."""
        fill_standard_numbers()
        life, self.life = os.pipe()
        written, self.program_end = os.pipe()
        self.written, given = os.pipe()
        ours = termios.tcgetattr(KEYBOARD) if settings else None
        self.number = os.fork()
        if self.number == 0:
            for number in (*SIGNALS, signal.SIGTTOU):
                signal.signal(number, signal.SIG_IGN)
            for number in (self.life, self.program_end, self.written):
                os.close(number)
            for number in (1,) if settings else (0, 1):
                os.dup2(os.open(os.devnull, os.O_RDWR), number)
            try:
                outlive(life, written, given, ours, settings, save)
            finally:
                os._exit(0)
        for number in (life, written, given):
            os.close(number)

    def word(self):
        """The name by which the program opens what it writes at its end."""
        os.set_inheritable(self.program_end, True)
        return f"/dev/fd/{self.program_end}"

    def leave(self):
        """Leaves the pipe to the program alone, which has been started."""
        os.close(self.program_end)
        self.program_end = None

    def all_written(self):
        """What the program has written at its end, once it has ended, or None where the other process has ended before
        it gave all of it on."""
        pieces = []
        while not pieces or pieces[-1]:
            pieces.append(os.read(self.written, READ_LIMIT))
        given = b"".join(pieces)
        length, image = given[:LENGTH_BYTES], given[LENGTH_BYTES:]
        return image if len(length) == LENGTH_BYTES and int.from_bytes(length, "big") == len(image) else None

    def end(self, is_done):
        """Tells it whether all is done, and waits for its end."""
        if self.program_end is not None:
            self.leave()
        with contextlib.suppress(BrokenPipeError):
            os.write(self.life, DONE if is_done else b"")
        os.close(self.life)
        os.close(self.written)
        os.waitpid(self.number, 0)


def outlive(life, written, given, ours, settings, save):
    """Waits for the end of the other process and of the program, and does what is left to be done."""
    pieces, waited, is_alone = [], [life, written], False
    while waited:
        came = select.select(waited, [], [])[0]
        if life in came:
            if os.read(life, 1) == DONE:
                return
            is_alone = True
            waited.remove(life)
            with contextlib.suppress(termios.error):
                if settings and termios.tcgetattr(KEYBOARD) == ours:
                    restore(settings)
        elif written in came:
            pieces.append(os.read(written, READ_LIMIT))
            if not pieces[-1]:
                waited.remove(written)
                if not is_alone:
                    give(given, b"".join(pieces))
    if save is not None and any(pieces):
        save(b"".join(pieces))


def give(pipe, image):
    """Gives the other process all of it, after its length, where that is still there."""
    rest = len(image).to_bytes(LENGTH_BYTES, "big") + image
    with contextlib.suppress(BrokenPipeError):
        while rest:
            rest = rest[os.write(pipe, rest):]
    os.close(pipe)
