"""An image, and the file that it is to stand in: that is whole, or as it was.

An image is first written beside the file, as NAME.unfinished-CODE, and brought onto the disk; then that takes the
file's name, in one step. So whatever comes meanwhile, a full disk, KILL or a power cut, the file is the old one or the
new one. Where the image can't take its place, it is kept as NAME.kept-CODE. What has such a name is of a session that
has ended.

A link is followed. A device or a pipe is written as it is, and so is what is named by a descriptor, as /dev/stdout.
"""
import contextlib
import errno
import fcntl
import os
import stat

UNFINISHED, KEPT = "unfinished", "kept"
# No other session has it.
CODE = os.urandom(4).hex()
# What is put to a name makes it longer, and a name has at most 255 bytes.
NAME_BYTES = 220
DESCRIPTORS = ("/dev/fd/", "/dev/std", "/proc/")


class Changed(Exception):
    """The file is another than it was when the session began."""


def stamp(path):
    """What tells a file from another, or None where there is none."""
    try:
        found = os.stat(path)
    except OSError:
        return None
    return found.st_dev, found.st_ino, found.st_size, found.st_mtime_ns


def is_stream(path):
    """Whether what is written there goes on at once."""
    try:
        mode = os.stat(path).st_mode
    except OSError:
        return False
    return os.path.abspath(path).startswith(DESCRIPTORS) or not (stat.S_ISREG(mode) or stat.S_ISDIR(mode))


def is_whole(image):
    """Whether these bytes are an image up to its end: records, and after one of a file its bytes."""
    at, words = 0, []
    while words != [b"E"]:
        end = image.find(b"\n", at)
        if end < 0:
            return False
        words, at = image[at:end].split(b" "), end + 1
        if words[0] == b"F" and words[-1].isdigit():
            at += int(words[-1]) + 1
    return at == len(image)


def name_beside(path, kind):
    """The beginning of the names beside this file that say what is there."""
    folder, name = os.path.split(path)
    return os.path.join(folder, f"{os.fsdecode(os.fsencode(name)[:NAME_BYTES])}.{kind}-")


def left_beside(path):
    """What ended sessions have left of this file: names, and of each whether it is a whole image."""
    left = []
    with contextlib.suppress(OSError):
        target = os.path.realpath(path)
        beginnings = tuple(name_beside(target, kind) for kind in (UNFINISHED, KEPT))
        for name in sorted(os.listdir(os.path.dirname(target))):
            found = os.path.join(os.path.dirname(target), name)
            if found.startswith(beginnings):
                with open(found, "rb") as file:
                    left.append((found, is_whole(file.read())))
    return left


def write_all(file, image):
    """Writes all of it, and closes the file."""
    try:
        rest = memoryview(image)
        while rest:
            rest = rest[os.write(file, rest):]
        if stat.S_ISREG(os.fstat(file).st_mode):
            os.fsync(file)
    finally:
        os.close(file)


def take_permissions(file, like):
    """Gives a file the permissions of another, and its owner as far as that is allowed."""
    found = os.stat(like)
    with contextlib.suppress(OSError):
        os.fchown(file, found.st_uid, found.st_gid)
    os.fchmod(file, found.st_mode & 0o777)
    with contextlib.suppress(OSError):
        for name in os.listxattr(like):
            os.setxattr(file, name, os.getxattr(like, name))


@contextlib.contextmanager
def removed_at_fault(path):
    """Removes a file where what is done with it fails."""
    try:
        yield
    except BaseException:
        with contextlib.suppress(OSError):
            os.unlink(path)
        raise


def open_beside(path, kind, mode):
    """Makes an empty file beside another. Gives its name, and its descriptor."""
    made = name_beside(path, kind) + CODE
    with contextlib.suppress(FileNotFoundError):
        os.unlink(made)
    return made, os.open(made, os.O_WRONLY | os.O_CREAT | os.O_EXCL, mode)


def write_beside(path, kind, image, like=None):
    """Makes a file beside another, of these bytes and with the permissions of a third, and brings it onto the disk.
    Gives its name."""
    made, file = open_beside(path, kind, 0o600 if like else 0o666)
    with removed_at_fault(made):
        if like:
            take_permissions(file, like)
        write_all(file, image)
    return made


def holds(path, image):
    """Whether a file has these bytes."""
    with open(path, "rb") as file:
        return file.read(len(image) + 1) == image


def sync(folder):
    """Brings the names in a folder onto the disk, where its file system has that."""
    try:
        os.fsync(folder)
    except OSError as error:
        if error.errno != errno.EINVAL:
            raise


def save(image, path, seen):
    """Writes a file whole, or leaves it as it was, with an OSError, or with Changed where it is another than was seen
    and holds another image."""
    if is_stream(path):
        write_all(os.open(path, os.O_WRONLY | os.O_CREAT | os.O_TRUNC | os.O_NOCTTY), image)
        return
    target = os.path.realpath(path)
    old = target if os.path.exists(target) else None
    if old:
        os.close(os.open(old, os.O_WRONLY))
    beside = write_beside(target, UNFINISHED, image, old)
    with removed_at_fault(beside):
        folder = os.open(os.path.dirname(target), os.O_RDONLY | os.O_DIRECTORY)
        try:
            # no other session ends between the look and the new name; not every file system has that
            with contextlib.suppress(OSError):
                fcntl.flock(folder, fcntl.LOCK_EX)
            if stamp(target) not in (None, seen) and not holds(target, image):
                raise Changed
            os.rename(beside, target)
            sync(folder)
        finally:
            os.close(folder)


def keep(image, path):
    """Writes an image that cannot take its place under a new name, which it gives, or None where no folder takes it."""
    folders = [".", os.path.expanduser("~"), os.environ.get("TMPDIR", "/tmp"), "/dev/shm"]
    with contextlib.suppress(OSError):
        if not is_stream(path):
            folders.insert(0, os.path.dirname(os.path.realpath(path)))
    for folder in folders:
        with contextlib.suppress(OSError):
            return os.path.realpath(write_beside(os.path.join(folder, os.path.basename(path)), KEPT, image))
    return None


def fault_of(path):
    """Why a file could not be saved now, or None. Nothing is changed; what is made for that is removed at once."""
    try:
        if is_stream(path):
            return None if os.access(path, os.W_OK) else os.strerror(errno.EACCES)
        target = os.path.realpath(path)
        if os.path.exists(target):
            os.close(os.open(target, os.O_WRONLY))
        made, file = open_beside(target, UNFINISHED, 0o600)
        os.close(file)
        os.unlink(made)
    except OSError as error:
        return error.strerror
    return None
