"""Runs a program at a terminal, so that no session is lost: python3 terminal [-o] SETTINGS PROGRAM WORD..

`start` calls it, and has set the terminal at standard input to pass on every key at once; SETTINGS are those of before,
as `stty -g` tells them. They come back however the run ends.

With -o the program is one that writes a file at its end, as saving/ has it. Before it is started it is told where the
file cannot be written, and asked where it holds something; at its end another file is asked for where it must be.

The exit status is the program's, or 128 and the number of the signal that ended it; 3 where the file is not written; and
125 where it is not to be written over, or where the program cannot be started.

Needs: python3 with its own modules alone, stty, /proc. Leaves out: nothing.
"""
import os
import signal
import sys

sys.path.insert(1, os.path.join(os.path.dirname(os.path.dirname(os.path.abspath(__file__))), "saving"))

from ask import Gone, refusal, save_at_terminal  # noqa: E402
from history import MOST_LINES, History  # noqa: E402
from keeper import SIGNALS, Keeper, restore  # noqa: E402
from keys import ESC, Keys  # noqa: E402
from lines import LineFile  # noqa: E402
from out import FAULT, NOT_RUN, out_of, say  # noqa: E402
from run import Run  # noqa: E402

# How long what a person may have typed is held, in milliseconds: a person does not feel it.
DELAY = "50"


def give_up(_number, _frame):
    """Ends what is asked."""
    ignore_signals()
    raise Gone


def ignore_signals():
    """Lets nothing but KILL end what is left to be done."""
    for number in SIGNALS:
        signal.signal(number, signal.SIG_IGN)


def run_program(words, typed, keeper, file):
    """Runs the program. Gives its exit status, and the signal that ended its keys, or None."""
    run = Run(words, History(file))
    keeper.leave()
    keys = Keys(ESC if os.environ.get("EXEC20_TAB") == "complete" else b"\t")
    delay = os.environ.get("ESCDELAY", DELAY)
    status = run.relay(keys, typed, int(delay if delay.isdecimal() else DELAY) / 1000)
    run.history.keep()
    return status, run.signal


def run_and_save(words, out, keeper):
    """Asks about OUT, runs the program, and saves what it wrote. Gives the exit status and lines that are to be told."""
    for line in out.describe_left() if out else ():
        say(line + "\r")
    refused, typed = refusal(out) if out else (None, b"")
    if refused:
        return refused
    name, words = os.path.basename(words[0]), [words[0], *out.words(keeper.word())] if out else words
    # a program that writes a file has texts that are typed in, too
    file = None if out else LineFile(name, os.environ.get("LINE_HISTORY"), MOST_LINES)
    status, ended_by = run_program(words, typed, keeper, file)
    told = [f"{name}: the keys ended by {ended_by.name}"] if ended_by and os.isatty(2) else []
    if not out:
        return status, told
    image = keeper.all_written()
    told += out.describe(status, image)
    if ended_by:
        ignore_signals()
        return out.finish(image, status, out.save), told
    for number in SIGNALS:
        signal.signal(number, give_up)
    return out.finish(image, status, lambda image: save_at_terminal(out, image)), told


def main(words):
    """Runs the program, and brings the settings back."""
    writes = words[0] == "-o"
    settings, *words = words[1:] if writes else words
    name = os.path.basename(words[0])
    for number in SIGNALS:
        signal.signal(number, lambda number, _: sys.exit(128 + number))
    out = out_of(name, words[1:]) if writes else None
    keeper, is_done, told = Keeper(settings, out and out.save_alone), False, []
    try:
        status, told = run_and_save(words, out, keeper)
        is_done = True
    except OSError as error:
        status, told = NOT_RUN, [f"{name}: {error}"]
    except Gone:
        status = FAULT
    finally:
        ignore_signals()
        restore(settings)
        keeper.end(is_done)
    for line in told:
        say(line)
    return status


if __name__ == "__main__":
    sys.exit(main(sys.argv[1:]))
