"""Tests of tests/checks.sh, by scripts of a few lines."""
import os
import shutil
import subprocess
import tempfile
import unittest

from tree import ROOT

BEGIN = 'set -u\n. "${0%/*}/checks.sh"\n'
CASES = BEGIN + """choose "$@"
need app
check_parts() {
    check "$1: one" is "$1" "$1"
    check "$1: two" is "$1" mail
}
wanted 'mail' && check_parts 'mail'
wanted 'a file' && check_parts 'a file'
if wanted 'a file of two'; then
    check 'a file of two' true
fi
wanted 'a file of two'
finish
"""
FAILED = "failed: a file: two\n"
# The words, the lines that are shown, and the status.
CHOICES = (
    ([], FAILED + "4 passed, 1 failed\n", 1), (["mail"], "2 passed, 0 failed\n", 0),
    (["a", "file"], FAILED + "2 passed, 1 failed\n", 1), (["a file of"], "1 passed, 0 failed\n", 0),
    (["a file: one"], "1 passed, 0 failed\n", 0), (["mail", "nothing"], "2 passed, 0 failed\n", 0),
    (["nothing"], "", 2), (["-l"], "mail\na file\na file of two\n", 0),
)
# What a check compares, and whether it holds. The file HELD has the bytes a, b and a line feed.
COMPARED = (
    ("has HELD $'ab\\n'", True), ("has HELD ab", False), ("has NONE ''", False), ("same HELD HELD", True),
    ("same HELD NONE", False), ("is 'a b' 'a b'", True), ("is a b", False), ("begins 'a*b' 'a*'", True),
    ("begins ab 'b'", False), ("begins ab '*'", False), ("ends ab b", True), ("ends ab a", False),
    ("ends ab '?'", False), ("contains abc b", True), ("contains abc '[b]'", False), ("not false", True),
    ("not true", False), ("[ -s HELD ]", True),
)


class Shell(unittest.TestCase):
    def setUp(self):
        made = tempfile.TemporaryDirectory()
        self.addCleanup(made.cleanup)
        self.top = made.name
        os.makedirs(os.path.join(self.top, "crates/app/out"))
        os.mkdir(os.path.join(self.top, "tests"))
        shutil.copy(os.path.join(ROOT, "tests/checks.sh"), os.path.join(self.top, "tests"))

    def write(self, name, text):
        path = os.path.join(self.top, name)
        with open(path, "w", encoding="utf-8") as file:
            file.write(text)
        os.chmod(path, 0o755)
        return path

    def run_script(self, text, *words):
        path = self.write("tests/script", "#!/usr/bin/env bash\n" + text)
        done = subprocess.run([path, *words], capture_output=True, text=True, timeout=60, check=False)
        return done.stdout, done.stderr, done.returncode

    def test_cases_are_chosen(self):
        self.write("crates/app/out/app", "")
        for words, shown, status in CHOICES:
            with self.subTest(words=words):
                told = f"tests/script: no case has a name that begins with: {words[0]}\n" if status == 2 else ""
                self.assertEqual(self.run_script(CASES, *words), (shown, told, status))

    def test_a_program_is_needed(self):
        shown, told, status = self.run_script(CASES)
        self.assertEqual((shown, status), ("", 1))
        self.assertTrue(told.startswith("tests/script: there is no built program app;"), told)
        self.assertEqual(self.run_script(CASES, "-l")[2], 0)

    def test_what_is_compared(self):
        lines = ['cd "$folder"', "printf 'ab\\n' >HELD", *(f"check '{number}' {command}" for number, (command, _)
                                                         in enumerate(COMPARED)), "finish"]
        failed = [number for number, (_, holds) in enumerate(COMPARED) if not holds]
        shown = "".join(f"failed: {number}\n" for number in failed)
        last = f"{len(COMPARED) - len(failed)} passed, {len(failed)} failed\n"
        self.assertEqual(self.run_script(BEGIN + "\n".join(lines)), (shown + last, "", 1))

    def test_the_folder_goes(self):
        shown, _, status = self.run_script(BEGIN + 'echo "$root $folder"\n[ -d "$folder" ]\n')
        root, folder = shown.split()
        self.assertEqual((status, os.path.realpath(root)), (0, os.path.realpath(self.top)))
        self.assertFalse(os.path.exists(folder))
