"""Scenes that a script plays, each in a folder of its own, and what they want. tests/module_tests tests it."""
import subprocess
import sys
import tempfile
import time

from checks import Sums

SECONDS = 60


class Wrong(Exception):
    """What is not as it must be."""


class LeftOut(Exception):
    """A scene that cannot be played here."""


def want(holds, what):
    """Wants that something holds."""
    if not holds:
        raise Wrong(what)


def waits_for(holds, what):
    """Waits until something holds, with a limit."""
    end = time.monotonic() + SECONDS
    while not holds():
        want(time.monotonic() < end, what)
        time.sleep(0.005)


class Scenes(dict):
    """Scenes by their names, in their order."""

    def scene(self, name):
        """Enters a scene."""
        def enter(function):
            self[name] = function
            return function

        return enter

    def chosen(self, words):
        """The names that begin with all words, as one name, or where none does with one of the words."""
        whole = [name for name in self if name.startswith(" ".join(words))]
        return whole or [name for name in self if any(map(name.startswith, words))]

    def play(self, words):
        """Plays the scenes that are chosen by the words of a script, and says how many passed. With -l it lists them.
        Gives the status."""
        if words == ["-l"]:
            print("\n".join(self))
            return 0
        names, sums = self.chosen(words), Sums()
        if not names:
            print(f"no scene has a name that begins with: {' '.join(words)}", file=sys.stderr)
            return 2
        for name in names:
            with tempfile.TemporaryDirectory() as folder:
                sums.check(*self.outcome(name, folder))
        return sums.end()

    def outcome(self, name, folder):
        """Whether a scene passes in this folder, or is left out, and what is said where it does not."""
        try:
            self[name](folder)
        except LeftOut as why:
            print(f"left out: {name}: {why}", flush=True)
        except (Wrong, OSError, subprocess.SubprocessError) as error:
            return False, f"{name}: {error}"
        return True, name
