"""Programs in which one allocation of a run fails, and what stands after a run of them."""
import os
import re
import subprocess

from images import in_folder, read

# The number of the allocation that `rt try` is told to let fail: one that no run reaches, and that stands in the program
# nowhere else than in its two tests, of a first allocation and of one that grows.
NUMBER = 1_592_631_580
TESTS = 2
SECONDS = 60
STAMP = re.compile(rb"^(F \S+ \S+ [DU] \d+) \d+ (\d+|-) ", re.MULTILINE)


def compiled(crate, folder):
    """The program of a crate as `rt try` compiles it, kept in this folder."""
    name, start = os.path.basename(crate), os.path.join(os.path.dirname(os.path.dirname(crate)), "start")
    kept = os.path.join(folder, name)
    if not os.path.exists(kept):
        subprocess.run([start, "--keep", kept, name, "--fail-alloc", str(NUMBER)], stdin=subprocess.DEVNULL, check=True)
    return kept


def is_whole(held):
    """Whether these are the bytes of a program with both of its tests."""
    return held[:4] == b"\x7fELF" and held.count(NUMBER.to_bytes(4, "little")) == TESTS


class Program:
    """A program that is run with any one allocation failing, in a folder of its own."""

    def __init__(self, path, folder):
        self.folder, self.path = folder, os.path.join(folder, "failing")
        with open(path, "rb") as file:
            self.held = file.read()
        if not is_whole(self.held):
            raise SystemExit(f"{path} does not let an allocation fail as rt try does")

    def run(self, words, keys, image, failing=0):
        """The status, the screen and the image of a run over these keys, and over this image if there is one."""
        with open(self.path, "wb") as file:
            file.write(self.held.replace(NUMBER.to_bytes(4, "little"), failing.to_bytes(4, "little")))
        os.chmod(self.path, 0o755)

        def run_in(here):
            done = subprocess.run([self.path, *words], input=keys, stdout=subprocess.PIPE, stderr=subprocess.PIPE, cwd=here,
                                  env={}, timeout=SECONDS, check=False)
            others = sorted(set(os.listdir(here)) - {"IN", "OUT"})
            if others or (image is not None and read(here, "IN") != image):
                return done.returncode, done.stdout, b"other files are changed"
            return done.returncode, done.stdout, unstamped(read(here))

        return in_folder(run_in, image)


def unstamped(image):
    """An image with each moment made alike, whether a file was read being left to be seen."""
    if image is None:
        return None
    return STAMP.sub(lambda found: found[1] + b" WHEN " + (b"-" if found[2] == b"-" else b"READ") + b" ", image)
