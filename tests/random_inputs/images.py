"""Images: a small one of each version with every kind of record, ones at random up to the limits, and damage to them."""

NAME_BYTES = "ABCDEFGHIJKLMNOPQRSTUVWXYZ0123456789-$_"
ODD_BYTES = (0, 9, 10, 13, 32, 45, 46, 48, 49, 57, 63, 65, 68, 69, 70, 127, 255)

SMALL = {
    1: b"EXEC20 1\nD OPERATOR 1\nD SMITH.SRC 0\nC OPERATOR\nL S SMITH.SRC\n"
       b"F OPERATOR A.CTL.1 U 86400 9\n@INF VER\n\nF OPERATOR A.TXT.2 D 0 0\n\nF SMITH.SRC B..131071 U 1 3\nHI\n\n"
       b"Q OPERATOR A.TXT.2 2 NARROW - A as said\nQ SMITH.SRC B..131071 1 WIDE 47481 B \nE\n",
    2: b"EXEC20 2\nD OPERATOR 1\nD SMITH.SRC 0\nC OPERATOR\nL S SMITH.SRC\n"
       b"F OPERATOR A.CTL.1 U 1 86400 978307200 9\n@INF VER\n\nF OPERATOR A.TXT.2 D 63 0 - 0\n\n"
       b"F SMITH.SRC B..131071 U 0 1 - 3\nHI\n\n"
       b"Q OPERATOR A.TXT.2 2 NARROW - A as said\nQ SMITH.SRC B..131071 1 WIDE 47481 B \nE\n",
}


def at_every_byte(image):
    """The image cut before each byte, and with each byte left out, doubled, and one more and one less than it is."""
    for place in range(len(image)):
        yield f"cut before byte {place}", image[:place]
        yield f"without byte {place}", image[:place] + image[place + 1:]
        yield f"byte {place} twice", image[:place + 1] + image[place:]
        for more in (1, 255):
            changed = bytes([(image[place] + more) % 256])
            yield f"byte {place} as {changed!r}", image[:place] + changed + image[place + 1:]


def damaged(chance, image):
    """The image with a few faults at random bytes."""
    image = bytearray(image)
    for _ in range(chance.choice((1, 1, 1, 2, 5))):
        place = chance.randrange(len(image) + 1)
        kind = chance.randrange(6)
        if kind == 0:
            del image[place:]
        elif kind == 1:
            del image[place:place + chance.choice((1, 1, 2, 10))]
        elif kind == 2:
            image[place:place] = bytes([chance.choice(ODD_BYTES)])
        elif kind == 3 and place < len(image):
            image[place] = chance.choice(ODD_BYTES)
        elif kind == 4 and place < len(image):
            image[place] ^= 1 << chance.randrange(8)
        else:
            start = chance.randrange(len(image) + 1)
            image[place:place] = image[start:start + chance.randrange(64)]
        if not image:
            return b""
    return bytes(image)


def word(chance, most, least=1):
    """A name of so many bytes, most often a short one."""
    size = chance.choice((least, 1, 2, 3, most, chance.randint(least, most)))
    return "".join(chance.choice(NAME_BYTES) for _ in range(max(size, least)))


def directory(chance):
    """A directory, of one part or of two."""
    name = word(chance, 39)
    return name if chance.random() < 0.7 or len(name) > 35 else name + "." + word(chance, 39 - len(name) - 1)


def content(chance, size):
    """So many bytes of a file: text, lines of commands, or any bytes."""
    if chance.random() < 0.3:
        return chance.randbytes(size)
    line = chance.choice((b"INF VER\n", b"@INF VER\r\n", b"TAKE A.CMD\n", b"x" * 255 + b"\n", b"\n", b"DIR\n"))
    return (line * (size // len(line) + 1))[:size]


def files(chance, names, count, bytes_left):
    """The records of so many files of these directories, in order, with at most so many bytes."""
    keys = set()
    for _ in range(count):
        keys.add((chance.choice(names), word(chance, 39), word(chance, 39, 0), chance.choice((1, 2, 9, 10, 131_071))))
    for place, name, kind, generation in sorted(keys, key=lambda key: (key[0].encode(), key[1], key[2], key[3])):
        size = min(bytes_left, chance.choice((0, 1, 4, 2_559, 2_560, 65_536, chance.randrange(65_537))))
        bytes_left -= size
        yield place, f"{name}.{kind}.{generation}", content(chance, size)


class Image:
    """An image: its bytes before the print queue, the entries of that, and the files by the names that one may type."""

    def __init__(self, version, head, entries, names):
        self.version, self.head, self.entries, self.names = version, head, entries, names

    def whole(self, entries=None):
        """The bytes of the image, with these entries in its queue."""
        return b"".join([self.head, *(self.entries if entries is None else entries), b"E\n"])

    def printed(self):
        """The bytes that the spooler leaves: the entries of the last day stay."""
        return self.whole([entry for entry in self.entries if b" 47481 " in entry])

    def with_file(self, name, held):
        """The same with this file in the directory OPERATOR, and no other, so that the name is the file's."""
        stamp = b" 0 0 -" if self.version == 2 else b" 0"
        start = self.head.index(b"\nC ")
        head = self.head[:self.head.index(b"\n", start + 1) + 1]
        head += b"F OPERATOR %b U%b %d\n%b\n" % (name, stamp, len(held), held)
        return Image(self.version, head, [], [])


def some(chance, most_files=40, most_bytes=8_388_608):
    """An image at random."""
    version = chance.choice((1, 2, 2))
    names = sorted({"OPERATOR", *(directory(chance) for _ in range(chance.choice((0, 1, 3, 63))))})
    records = [f"EXEC20 {version}\n", *(f"D {name} {chance.choice((0, 1, 2, 63))}\n" for name in names)]
    records.append(f"C {chance.choice(names)}\n")
    logical = {chance.choice("ABXZ") + word(chance, 38, 0) for _ in range(chance.choice((0, 1, 64)))}
    records += [f"L {name} {chance.choice(names)}\n" for name in sorted(logical)]
    made = [record.encode() for record in records]
    typed = []
    for place, name, held in files(chance, names, chance.randint(0, most_files), most_bytes):
        stamp = f" {chance.choice((0, 1, 63))}" if version == 2 else ""
        read = chance.choice((" -", " 0", " 4102444799")) if version == 2 else ""
        moment = chance.choice((0, 86_400, 1_796_000_000, 4_102_444_799))
        made.append(f"F {place} {name} {chance.choice('UUUD')}{stamp} {moment}{read} {len(held)}\n".encode() + held + b"\n")
        typed.append(f"<{place}>{name}")
    entries = []
    for _ in range(chance.choice((0, 1, 5, 64)) if typed else 0):
        place, _, name = chance.choice(typed)[1:].partition(">")
        days = chance.choice(("-", "0", "20000", "47481"))
        note = chance.choice(("", "as said", "  two  ", "\ttab", "~" * 39))
        form = chance.choice(("NARROW", "NORMAL", "WIDE"))
        copies = chance.choice((1, 2, 63))
        entries.append(f"Q {place} {name} {copies} {form} {days} {word(chance, 39)} {note}\n".encode())
    return Image(version, b"".join(made), entries, typed)


def fullest():
    """An image with each limit reached that an image has: of all kinds as many as may be, and 8 MiB of files."""
    names = [f"D{number:02}".ljust(39, "X") for number in range(63)] + ["OPERATOR"]
    records = ["EXEC20 2\n", *(f"D {name} 63\n" for name in names), f"C {names[0]}\n"]
    records += [f"L L{number:02} {names[0]}\n" for number in range(64)]
    made = [record.encode() for record in records]
    name, kind = "F".ljust(39, "Y"), "T".ljust(39, "Z")
    for number in range(4_096):
        head = f"F {names[number // 64]} {name}.{kind}.{131_008 + number % 64} U 63 4102444799 4102444799 2048\n"
        made.append(head.encode() + b"2" * 2_047 + b"\n\n")
    entry = f"Q {names[0]} {name}.{kind}.131008 63 NARROW - {name} {'n' * 39}\n".encode()
    return b"".join([*made, entry * 64, b"E\n"])
