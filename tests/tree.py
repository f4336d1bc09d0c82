"""The repository, for the scripts beside: its top, its texts, its crates and their built programs. tests/module_tests
tests it."""
import os
import re

ROOT = os.path.dirname(os.path.dirname(os.path.abspath(__file__)))


def read(path):
    """The text of a file, by its path from the top."""
    with open(os.path.join(ROOT, path), encoding="utf-8", errors="replace") as file:
        return file.read()


def crates_of(text):
    """The crates that a text like crates.txt tells, in its order, each with those that it is given there."""
    lines = re.findall(r"^ *(\w+) *:([^#\n]*)", text, re.MULTILINE)
    return {name: given.split() for name, given in lines}


def crates():
    """The crates of crates.txt."""
    return crates_of(read("crates.txt"))


def below(crate, given):
    """All that a crate stands on."""
    return {each for nearer in given.get(crate, ()) for each in {nearer} | below(nearer, given)}


def is_library(crate):
    """Whether a crate is no crate of tests, and no program of main.rt alone."""
    return not crate.endswith("_tests") and not set(os.listdir(os.path.join(ROOT, "crates", crate, "src"))) <= {"main.rt"}


def program_of(crate, folder=os.path.join(ROOT, "crates")):
    """The place of the program of a crate, in the folder of all crates or in one that is like it."""
    return os.path.join(os.path.abspath(folder), crate, "out", crate)


def need(script, *programs):
    """Ends a script where one of these programs is not built."""
    for program in programs:
        if not os.access(program, os.X_OK):
            raise SystemExit(f"{script}: there is no {program}; rt ci builds it, or the script that runs it")
