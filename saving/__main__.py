"""Runs a program that writes a file at its end, over the keys of this process: python3 saving PROGRAM WORD..

`start` calls it where no terminal is between. The file is the second name of WORD.., or that after -n; one name alone is
IN and OUT. The program writes into a pipe, and what it has written takes the place of the file whole, or not at all.

The exit status is the program's, or 128 and the number of the signal that ended it, or 3 where the file is not written.
"""
import os
import signal
import sys

from keeper import SIGNALS, Keeper
from out import NOT_RUN, out_of, say


def run(words, keeper):
    """Runs the program, and hands on a signal. Gives its exit status."""
    awaited = [number for number in SIGNALS if signal.getsignal(number) is not signal.SIG_IGN]
    signal.signal(signal.SIGCHLD, signal.SIG_DFL)
    signal.pthread_sigmask(signal.SIG_BLOCK, [*awaited, signal.SIGCHLD])
    program = os.posix_spawn(words[0], words, os.environ, setsigmask=())
    keeper.leave()
    ended, status = 0, 0
    while not ended:
        number = signal.sigwait([*awaited, signal.SIGCHLD])
        if number != signal.SIGCHLD:
            os.kill(program, number)
        ended, status = os.waitpid(program, os.WNOHANG)
    for number in SIGNALS:
        signal.signal(number, signal.SIG_IGN)
    signal.pthread_sigmask(signal.SIG_UNBLOCK, [*awaited, signal.SIGCHLD])
    status = os.waitstatus_to_exitcode(status)
    return status if status >= 0 else 128 - status


def main(program, *words):
    """Runs the program, and saves what it wrote."""
    name = os.path.basename(program)
    out = out_of(name, list(words))
    if out is None:
        os.execv(program, [program, *words])
    for line in out.describe_left():
        say(line)
    keeper, is_done = Keeper(None, out.save_alone), False
    try:
        status = run([program, *out.words(keeper.word())], keeper)
        image = keeper.all_written()
        for line in out.describe(status, image):
            say(line)
        status = out.finish(image, status, out.save)
        is_done = True
    except OSError as error:
        say(f"{name}: {error}")
        status = NOT_RUN
    finally:
        keeper.end(is_done)
    return status


if __name__ == "__main__":
    sys.exit(main(*sys.argv[1:]))
