"""Images of the EXEC, as docs/IMAGE.md has them, for sessions that begin from one. tests/module_tests tests it."""
import os
import tempfile

OPERATOR = b"OPERATOR"


def records(files, kept=0):
    """The records of files of OPERATOR, each by its name and its bytes, which ascend. So many generations are kept."""
    return b"".join(b"F OPERATOR %b U %d 0 - %d\n%b\n" % (name, kept, len(held), held) for name, held in files)


def image(files=(), directories=(OPERATOR,), kept=0, queue=b""):
    """An image of these files, of directories that each keep so many generations, and of these entries of the queue."""
    places = b"".join(b"D %b %d\n" % (name, kept) for name in directories)
    return b"EXEC20 2\n" + places + b"C OPERATOR\n" + records(files, kept) + queue + b"E\n"


def small_files(count, held=b"text"):
    """So many files of these bytes."""
    return [(b"F%04d.TXT.1" % number, held) for number in range(count)]


def write(folder, name, held):
    """Writes a file to a folder, and gives its path."""
    path = os.path.join(folder, name)
    with open(path, "wb") as file:
        file.write(held)
    return path


def read(folder, name="OUT"):
    """The bytes of a file of a folder, or None where it is not there."""
    try:
        with open(os.path.join(folder, name), "rb") as file:
            return file.read()
    except FileNotFoundError:
        return None


def in_folder(do, held=None):
    """What this does in a folder of its own, where the file IN has these bytes, if there are any."""
    with tempfile.TemporaryDirectory() as folder:
        if held is not None:
            write(folder, "IN", held)
        return do(folder)
