"""Counts the instructions of a run, by callgrind of valgrind. tests/module_tests tests it, where there is valgrind."""
import os
import shutil
import subprocess

from images import in_folder, write

HAS_VALGRIND = shutil.which("valgrind") is not None


def instructions(words, held=None, keys=b"", status=0):
    """The instructions of a run with these words, over the image IN, if there is one, and keys, its start and its end
    included. It must end with this status."""
    def count(folder):
        report = os.path.join(folder, "report")
        tool = ["valgrind", "--tool=callgrind", f"--callgrind-out-file={folder}/costs", f"--log-file={report}"]
        with open(write(folder, "keys", keys), "rb") as given:
            run = subprocess.run([*tool, *words], stdin=given, stdout=subprocess.DEVNULL, stderr=subprocess.DEVNULL,
                                 cwd=folder, check=False)
        if run.returncode != status:
            raise SystemExit(f"{words[0]} ended with {run.returncode} under valgrind, and not with {status}")
        with open(report, encoding="utf-8") as file:
            return next(int(line.split()[-1]) for line in file if "Collected" in line)

    return in_folder(count, held)
