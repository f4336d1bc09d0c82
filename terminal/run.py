"""A program that runs over keys of a terminal.

The program reads its keys from a pipe. They end where the terminal is closed, and at HUP, INT, QUIT or TERM, to this
process or to the program. The program can't take such a signal; it waits there, blocked, and this process looks for it
some times a second. Where this process ends, by KILL too, the pipe is closed. So whatever comes but KILL to the
program, it sees the end of its keys, and ends as it does there.

A key after one that may have ended a line is given only once the program waits for it. So what the program has shown
then ends in a prompt, if a line is to come; and while it does not wait, its listing may be dropped. It waits where it
sleeps, as the system tells, and both pipes are empty: it sleeps for nothing else than a pipe, or a file from afar.
"""
import os
import re
import select
import signal
import time
from collections import deque

from keeper import KEYBOARD, SIGNALS
from keys import DOWN, UP
from screen import Screen, bytes_in

READ_LIMIT = 4096
# As many strokes are taken from the terminal, and as many given one line at a time.
MOST_TAKEN, MOST_TYPED = 65_536, 8192
LOOK_SECONDS = 0.2
# How long it is first waited, and at most, between two looks whether the program waits.
SHORTEST, LONGEST = 0.0002, 0.02
CONTROL_C, LF, CR, CONTROL_Q, CONTROL_S, CONTROL_Z, HELP = b"\x03\n\r\x11\x13\x1a?"
STEPS = {UP: -1, DOWN: 1}
# A control-C that came while a line acted: a key if nothing more is shown.
DROP = 258
# After these a prompt may come, and after these much else before it.
ENDS = (CR, LF, CONTROL_Z, CONTROL_C)
LISTS = (CR, LF, CONTROL_Z, HELP)
SINGLE = frozenset((*ENDS, *LISTS, *STEPS))


class Run:
    """A program that is started with these words, the pipe to it, its screen, and the lines that are brought back."""

    def __init__(self, words, history):
        self.signal = None  # that ended the keys
        self.strokes = deque()  # that the program is to have, in their time
        self.waiting = b""  # keys that the pipe has not taken yet
        self.last = CONTROL_C  # the key, at first this, after which the program has not yet been seen to wait, or None
        self.ended = 0  # the rows that had been ended before it
        self.pause = SHORTEST
        self.look_at = self.release_at = 0.0
        self.history = history
        self.screen = Screen()
        self.woken, wake = os.pipe()
        os.set_blocking(wake, False)
        signal.set_wakeup_fd(wake, warn_on_full_buffer=False)
        signal.signal(signal.SIGCHLD, lambda *_: None)
        signal.signal(signal.SIGWINCH, self.screen.note_resize)
        keys, self.pipe = os.pipe()
        os.set_blocking(self.pipe, False)
        for number in SIGNALS:
            signal.signal(number, self.end_by)
        # Python ignores a broken pipe, and so does the program then: it is a fault of its screen, and no signal
        self.status = None
        actions = [(os.POSIX_SPAWN_DUP2, keys, KEYBOARD), *self.screen.actions]
        self.program = os.posix_spawn(words[0], words, os.environ, file_actions=actions, setsigmask=SIGNALS)
        os.close(keys)
        self.screen.begin()

    def relay(self, keys, typed, seconds):
        """Passes on what was typed already and what the terminal sends, as these keys, until either ends. What is held
        is a key after so many seconds. Gives the exit status."""
        keys.take_erase(KEYBOARD)
        self.strokes.extend(keys.strokes(typed))
        is_open = True
        while is_open and self.is_running() and self.signal is None:
            self.give()
            is_open = self.turn(keys, seconds)
            self.look()
        self.end(keys)
        return self.status if self.status >= 0 else 128 - self.status

    def end(self, keys):
        """Gives the program all the keys that are left, and waits until it ends and all is shown that it wrote."""
        self.screen.is_stopped = False
        if self.screen.is_gone():
            self.screen.close()
        self.waiting += bytes(stroke for stroke in self.strokes if stroke < UP) + keys.released()
        while self.waiting and self.is_running():
            self.wait([], None)
        self.waiting = b""
        os.close(self.pipe)
        while self.screen.is_open or self.screen.piece:
            self.wait([], None)
        while self.is_running(0):
            pass

    def is_running(self, how=os.WNOHANG):
        """Whether the program has not ended, now or, with 0, once it has."""
        if self.status is None:
            number, status = os.waitpid(self.program, how)
            self.status = os.waitstatus_to_exitcode(status) if number else None
        return self.status is None

    def turn(self, keys, seconds):
        """Waits for what comes next, and takes it. Tells whether the terminal goes on."""
        inputs = [KEYBOARD] if len(self.strokes) < MOST_TAKEN else []
        if KEYBOARD in self.wait(inputs, self.limit(keys)):
            sent = read_some()
            self.take(keys, sent)
            self.release_at = time.monotonic() + seconds
            return sent != b""
        if keys.may_be_typed() and time.monotonic() >= self.release_at:
            self.strokes.extend(keys.released())
        return True

    def limit(self, keys):
        """How long nothing is to be done of itself."""
        limit = LOOK_SECONDS
        if keys.may_be_typed():
            limit = max(0, self.release_at - time.monotonic())
        if self.strokes or self.screen.dropped is not None:
            limit = min(limit, self.pause)
        return limit

    def wait(self, inputs, seconds):
        """Waits, at most so long, for inputs, for a signal, for the screen, or until the pipe takes more keys; it is
        then given them. Gives the inputs that came."""
        wanted, outputs = self.screen.wanted()
        outputs = [*outputs, self.pipe] if self.waiting else outputs
        came, ready, _ = select.select([self.woken, *inputs, *wanted], outputs, [], seconds)
        if self.woken in came:
            os.read(self.woken, READ_LIMIT)
        self.pause = SHORTEST if came or ready else min(2 * self.pause, LONGEST)
        self.screen.serve(came, ready)
        if self.pipe in ready:
            self.write()
        return came

    def take(self, keys, sent):
        """Takes what the terminal has sent."""
        for stroke in keys.strokes(sent):
            if stroke in (CONTROL_S, CONTROL_Q):
                self.screen.is_stopped = stroke == CONTROL_S
            else:
                self.strokes.append(stroke)
        if self.last in LISTS and sent.endswith(b"\x03") and not self.is_awaiting():
            self.strokes[-1] = DROP
            self.screen.drop()

    def give(self):
        """Gives the program the keys that it may have now."""
        if len(self.strokes) > MOST_TYPED and not self.waiting:
            self.give_pasted()
        if self.last is not None and self.is_awaiting():
            self.begin()
        while self.strokes and not self.waiting and self.last is None:
            if self.strokes[0] in (CR, LF, *STEPS) and not self.is_awaiting():
                return
            if self.strokes[0] in STEPS:
                self.bring(STEPS[self.strokes.popleft()])
            elif self.strokes[0] in SINGLE:
                self.give_single(self.strokes.popleft())
            else:
                self.give_others()

    def give_pasted(self):
        """Gives the program at once the first lines of very many, none of which is to be brought back."""
        strokes = list(self.strokes)[:-MOST_TYPED]
        ends = [place for place, stroke in enumerate(strokes) if stroke in (CR, LF)]
        if ends and max(strokes) < UP:
            self.waiting = bytes(self.strokes.popleft() for _ in range(ends[-1] + 1))
            self.last, self.ended = CR, -1
            self.history.give_up()
            self.write()

    def bring(self, step):
        """Types what brings back a line, or rings."""
        typed = self.history.move(step, self.screen.row)
        if typed is None:
            self.screen.show(b"\a")
        else:
            self.strokes.extendleft(reversed(typed))

    def give_single(self, key):
        """Gives the program a key after which the next one waits."""
        if key in (CR, LF):
            self.history.confirm(self.screen.row)
        elif key == CONTROL_C:
            self.history.give_up()
        self.last, self.ended = key, self.screen.row.ended
        self.waiting = bytes([key])
        self.write()

    def give_others(self):
        """Gives the program the keys up to the next such one."""
        others = bytearray()
        while self.strokes and self.strokes[0] not in SINGLE:
            others.append(self.strokes.popleft())
        self.waiting = bytes(others)
        self.write()

    def write(self):
        """Gives the pipe as many keys as it takes."""
        try:
            self.waiting = self.waiting[os.write(self.pipe, self.waiting):]
        except BlockingIOError:
            pass
        except BrokenPipeError:
            self.waiting = b""

    def is_awaiting(self):
        """Whether the program waits for a key, and all is shown that it wrote before."""
        is_asleep = re.search(rb"^State:\s*S", self.told() or b"State: S", re.MULTILINE)
        return bool(is_asleep) and not (self.waiting or bytes_in(self.pipe) or self.screen.has_more())

    def begin(self):
        """Begins with the keys that come after the last one, which has done all."""
        if self.screen.dropped is not None:
            has_dropped = self.screen.go_on()
            self.strokes = deque(
                CONTROL_C if stroke == DROP else stroke for stroke in self.strokes if stroke != DROP or not has_dropped
            )
        if self.last in ENDS and self.screen.row.ended > self.ended:
            self.history.begin(self.screen.row)
        self.last = None

    def told(self):
        """What the system tells of the program, or nothing."""
        try:
            with open(f"/proc/{self.program}/status", "rb") as told:
                return told.read()
        except OSError:
            return b""

    def look(self):
        """Looks, where it is time, for a signal that waits at the program."""
        if time.monotonic() < self.look_at:
            return
        self.look_at = time.monotonic() + LOOK_SECONDS / 2
        masks = re.findall(rb"^S(?:ig|hd)Pnd:\s*(\w+)", self.told(), re.MULTILINE)
        for number in SIGNALS:
            if any(int(mask, 16) >> (number - 1) & 1 for mask in masks):
                self.end_by(number)

    def end_by(self, number, _frame=None):
        """Notes a signal that ends the keys."""
        self.signal = self.signal or signal.Signals(number)


def read_some():
    """What the terminal has sent, or nothing where it is closed."""
    try:
        return os.read(KEYBOARD, READ_LIMIT)
    except OSError:
        return b""
