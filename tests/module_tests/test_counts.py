"""Tests of tests/checks.py and tests/scenes.py."""
import contextlib
import io
import os
import unittest

from checks import Sums
from scenes import LeftOut, Scenes, want, waits_for

NAMES = ("mail", "mail, a signal", "a lone ESC", "a line", "router")
CHOICES = (
    ([], list(NAMES)), (["mail"], ["mail", "mail, a signal"]), (["a", "lone", "ESC"], ["a lone ESC"]),
    (["router", "mail"], ["mail", "mail, a signal", "router"]), (["a l"], ["a lone ESC", "a line"]), (["none"], []),
)


def said_by(do, *words):
    """What this gives, shows and complains of."""
    with contextlib.redirect_stdout(io.StringIO()) as shown, contextlib.redirect_stderr(io.StringIO()) as told:
        given = do(*words)
    return given, shown.getvalue(), told.getvalue()


def played():
    """Scenes of each outcome."""
    scenes = Scenes()

    @scenes.scene("good")
    def good(folder):
        want(os.listdir(folder) == [], "the folder is not empty")
        waits_for(lambda: True, "never")

    @scenes.scene("wrong")
    def wrong(_folder):
        want(False, "this")

    @scenes.scene("gone")
    def gone(folder):
        os.unlink(os.path.join(folder, "NONE"))

    @scenes.scene("absent")
    def absent(_folder):
        raise LeftOut("there is none")

    return scenes


class Counts(unittest.TestCase):
    def test_sums(self):
        for checks, shown, status in (
            ((True, True), "2 passed, 0 failed\n", 0), ((), "0 passed, 0 failed\n", 1),
            ((True, False), "failed: 1\n1 passed, 1 failed\n", 1),
        ):
            sums = Sums()
            given = said_by(lambda: [sums.check(holds, number) for number, holds in enumerate(checks)] and None)
            ended = said_by(sums.end)
            self.assertEqual((given[1] + ended[1], ended[0]), (shown, status))

    def test_scenes_are_chosen(self):
        scenes = Scenes.fromkeys(NAMES)
        for words, names in CHOICES:
            with self.subTest(words=words):
                self.assertEqual(scenes.chosen(words), names)

    def test_scenes_are_played(self):
        status, shown, told = said_by(played().play, [])
        self.assertEqual((status, told), (1, ""))
        lines = shown.splitlines()
        self.assertEqual(lines[0], "failed: wrong: this")
        self.assertRegex(lines[1], "^failed: gone: .*No such file")
        self.assertEqual(lines[2:], ["left out: absent: there is none", "2 passed, 2 failed"])

    def test_some_scenes_are_played(self):
        self.assertEqual(said_by(played().play, ["good"]), (0, "1 passed, 0 failed\n", ""))
        self.assertEqual(said_by(played().play, ["-l"]), (0, "good\nwrong\ngone\nabsent\n", ""))
        told = "no scene has a name that begins with: no such\n"
        self.assertEqual(said_by(played().play, ["no", "such"]), (2, "", told))
