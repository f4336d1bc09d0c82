"""Tests of tests/images.py, tests/measures.py and tests/drawing.py."""
import os
import unittest

from drawing import ticks
from images import image, in_folder, read, records, small_files, write
from measures import HAS_VALGRIND, instructions


class Images(unittest.TestCase):
    def test_images(self):
        files = [(b"A.CMD.1", b"INF VER\n"), (b"B..2", b"")]
        entry = b"Q OPERATOR A.CMD.1 1 NORMAL - A \n"
        for made, wanted in (
            (image(), b"EXEC20 2\nD OPERATOR 0\nC OPERATOR\nE\n"),
            (image(files), b"EXEC20 2\nD OPERATOR 0\nC OPERATOR\nF OPERATOR A.CMD.1 U 0 0 - 8\nINF VER\n\n"
                           b"F OPERATOR B..2 U 0 0 - 0\n\nE\n"),
            (image((), (b"OPERATOR", b"SMITH"), 1, entry),
             b"EXEC20 2\nD OPERATOR 1\nD SMITH 1\nC OPERATOR\n" + entry + b"E\n"),
            (image(files[1:], kept=2), b"EXEC20 2\nD OPERATOR 2\nC OPERATOR\nF OPERATOR B..2 U 2 0 - 0\n\nE\n"),
            (records(files[1:], 3), b"F OPERATOR B..2 U 3 0 - 0\n\n"),
        ):
            self.assertEqual(made, wanted)
        self.assertEqual(small_files(2, b"x"), [(b"F0000.TXT.1", b"x"), (b"F0001.TXT.1", b"x")])

    def test_folders(self):
        def look(folder):
            write(folder, "OUT", b"written")
            return folder, sorted(os.listdir(folder)), read(folder, "IN"), read(folder), read(folder, "NONE")

        for held, names in ((b"held", ["IN", "OUT"]), (b"", ["IN", "OUT"]), (None, ["OUT"])):
            folder, *seen = in_folder(look, held)
            self.assertEqual(seen, [names, held, b"written", None])
            self.assertFalse(os.path.exists(folder))


class Measures(unittest.TestCase):
    @unittest.skipUnless(HAS_VALGRIND, "there is no valgrind")
    def test_instructions(self):
        words = ["sh", "-c", "read it && [ $it = key ] && [ -e IN ] && exit 3"]
        self.assertGreater(instructions(words, b"", b"key\n", 3), 1_000)
        with self.assertRaisesRegex(SystemExit, "^/none ended with 127 under valgrind, and not with 0"):
            instructions(["/none"])


class Drawing(unittest.TestCase):
    def test_ticks(self):
        for most, wanted in (
            (5, [0, 1, 2, 3, 4, 5]), (5.1, [0, 2, 4, 6]), (240, [0, 50, 100, 150, 200, 250]),
            (0.03, [0, 0.01, 0.02, 0.03]),
        ):
            self.assertEqual(ticks(most), wanted)
