"""What is asked at a terminal about the file OUT: whether it may be written over, and in which file else it is saved."""
import os
import select
import signal

from image import Changed, fault_of, is_stream, save, stamp
from keys import BACK, DEL, Keys
from out import FAULT, NOT_RUN, say
from row import RUBOUT
from run import CONTROL_C, CONTROL_Z, KEYBOARD, read_some

CONTROL_D = 0x04


class Gone(Exception):
    """Nobody is there to be asked: the terminal is closed, or a signal came."""


def refusal(out):
    """Why the program is not to be run: a status and lines, or None; and what was typed meanwhile."""
    if out.source is not None and not os.path.exists(out.source):
        return None, b""
    fault = fault_of(out.path)
    if fault:
        return (FAULT, [f"{out.name}: {out.path} cannot be written: {fault}"]), b""
    if out.is_source() or out.seen is None or is_stream(out.path) or os.path.getsize(out.path) == 0:
        return None, b""
    try:
        line, typed = ask(f"{out.name}: {out.path} is there already. Write over it at the end (y or n)? ")
    except Gone:
        line, typed = None, b""
    return (None if is_yes(line) else (NOT_RUN, [f"{out.name}: {out.path} stays as it is"])), typed


def save_at_terminal(out, image):
    """Saves it, in another file if it must be, for which is asked. Tells whether it is saved; where nobody is there to
    be asked, it is kept beside."""
    path, seen = out.path, out.seen
    try:
        while True:
            fault = save_or_ask(out.name, image, path, seen, path == out.path)
            if fault is None:
                break
            line = ask(f"{out.name}: {path} {fault}. Which file instead (control-C: none)? ")[0]
            if line is None:
                say(f"{out.name}: the image of this session is in no file, and is lost\r")
                return False
            if line.strip():
                path, seen = os.path.expanduser(os.fsdecode(line.strip())), None
    except Gone:
        return out.save(image)
    if path != out.path:
        say(f"{out.name}: the image is in {path}\r")
    return True


def save_or_ask(name, image, path, seen, is_first):
    """Saves it, where that is another file than was seen only if that is to be written over. Gives the fault, or None."""
    try:
        try:
            save(image, path, seen)
        except Changed:
            change = "has changed since this session began" if is_first else "is there already"
            found = stamp(path)
            if not is_yes(ask(f"{name}: {path} {change}. Write over it (y or n)? ")[0]):
                return "stays as it is"
            save(image, path, found)
    except Changed:
        return "has changed again"
    except OSError as error:
        return f"cannot be written: {error.strerror}"
    return None


def is_yes(line):
    """Whether an answer is yes."""
    return line is not None and line.strip().lower() in (b"y", b"yes")


def ask(question):
    """Asks at the terminal, whose keys it shows itself. What was typed before is no answer to it. Gives the line that is
    answered, or None where it is given up, and all else that was typed."""
    typed = b""
    while select.select([KEYBOARD], [], [], 0)[0]:
        sent = read_some()
        if not sent:
            raise Gone
        typed += sent
    try:
        screen = os.open(os.ttyname(KEYBOARD), os.O_WRONLY | os.O_NOCTTY)
        woken, waker = os.pipe2(os.O_NONBLOCK | os.O_CLOEXEC)
        signal.set_wakeup_fd(waker)
        os.write(screen, question.encode(errors="surrogateescape"))
        line, rest = answer(screen, woken)
        signal.set_wakeup_fd(-1)
        os.write(screen, b"\r\n")
    except OSError:
        raise Gone from None
    for file in (screen, woken, waker):
        os.close(file)
    return line, typed + rest


def answer(screen, woken):
    """A line that is typed, or None where it is given up, and what was sent after it. A signal makes `woken` readable,
    so that one that comes just before the wait ends it too."""
    keys, line = Keys(), b""
    while True:
        select.select([KEYBOARD, woken], [], [])
        sent = read_some()
        if not sent:
            raise Gone
        taken = keys.taken(sent)
        for place, key in enumerate(taken):
            if key in b"\r\n":
                return line, taken[place + 1:]
            if key in (CONTROL_C, CONTROL_D, CONTROL_Z):
                return None, b""
            if key in BACK + DEL:
                os.write(screen, RUBOUT if line else b"")
                line = line[:-1]
            elif 0x20 <= key < 0x7F:
                os.write(screen, bytes([key]))
                line += bytes([key])
