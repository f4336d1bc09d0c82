"""The file OUT of a program: which word names it, and what becomes of what the program wrote."""
import os

from image import Changed, is_whole, keep, left_beside, save, stamp

FAULT, NO_IMAGE, NOT_RUN, BY_SIGNAL = 3, 8, 125, 128
# At these an image was written, or was to be.
ENDS = (0, FAULT, 4, 5, 6, 7, 10)


def say(text):
    """Tells this on standard error, where that can be written."""
    try:
        os.write(2, text.encode(errors="surrogateescape") + b"\n")
    except OSError:
        pass


def place_of(words):
    """Where OUT stands in these words of a program, or None where they are of no such form."""
    first = 1 if words[:1] == ["-w"] else 0
    names = words[first:]
    if len(names) not in (2, 3) or not all(names) or any(name.startswith("-") for name in names[1:]):
        return None
    return first + 1 if names[0] == "-n" or not names[0].startswith("-") else None


def out_of(name, words):
    """The file that a program with these words writes at its end, or None. One name alone is IN and OUT."""
    names = words[1:] if words[:1] == ["-w"] else words
    words = [*words, *names] if len(names) == 1 else words
    place = place_of(words)
    return None if place is None else Out(name, words, place)


class Out:
    """A file that a program writes at its end, the one that its words have at this place."""

    def __init__(self, name, words, place):
        self.name, self.path, self.given, self.place = name, words[place], words, place
        self.source = None if words[place - 1] == "-n" else words[place - 1]
        self.seen = stamp(self.path)

    def words(self, written):
        """The program's words, with this one for OUT."""
        return [*self.given[:self.place], written, *self.given[self.place + 1:]]

    def is_source(self):
        """Whether the session goes on from this very file."""
        return self.source is not None and self.seen is not None and self.seen == stamp(self.source)

    def describe_left(self):
        """What ended sessions have left of it, in lines."""
        ended = "is left of a session that has ended, and holds"
        return [f"{self.name}: {left} {ended} {'a' if is_image else 'no'} whole image"
                for left, is_image in left_beside(self.path)]

    def describe(self, status, image):
        """What the program's status says of the file that it began with, and of its image, None where the process that
        keeps that has ended; in lines."""
        if self.source is not None and status in (FAULT, NO_IMAGE):
            try:
                with open(self.source, "rb") as file:
                    file.read(1)
            except OSError as error:
                return [f"{self.name}: {self.source} cannot be read: {error.strerror}"]
        if image is None and status in ENDS:
            return [f"{self.name}: the process that keeps the image has ended, and the session is lost"]
        return []

    def finish(self, image, status, save_image):
        """Puts what the program wrote in its place, where its status says that it is whole. Gives the exit status."""
        if image is None and status in ENDS:
            return FAULT
        if not image or status == FAULT or status > BY_SIGNAL:
            return status
        return status if save_image(image) else FAULT

    def save(self, image):
        """Saves it, or keeps it beside. Tells what became of it, and whether it is saved."""
        try:
            save(image, self.path, self.seen)
            return True
        except Changed:
            self.keep(image, "has changed since this session began")
        except OSError as error:
            self.keep(image, f"cannot be written: {error.strerror}")
        return False

    def save_alone(self, image):
        """Saves it, where it is not known how the program has ended: what is no whole image is kept beside."""
        if is_whole(image):
            self.save(image)
        else:
            self.keep(image, "stays as it is")

    def keep(self, image, fault):
        """Keeps it under another name, and tells that."""
        kept = keep(image, self.path)
        stands = f"the image is kept in {kept}" if kept else "no folder takes the image, and the session is lost"
        say(f"{self.name}: {self.path} {fault}; {stands}")
