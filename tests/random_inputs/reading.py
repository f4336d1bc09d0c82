"""Reads bytes as an image, by docs/IMAGE.md alone: `fault_of` gives where the first wrong record begins and its fault."""
import re

MOST_BYTES = 16_777_216
NUMBER = rb"(?:0|[1-9][0-9]{0,9})"
NAME = rb"[A-Z0-9$_-]{1,39}"
DIRECTORY = rb"(?=[^ ]{1,39}(?: |$))[A-Z0-9$_-]+(?:\.[A-Z0-9$_-]+)*"
LOGICAL = rb"(?!(?:PS|DSK|TTY) )[A-Z][A-Z0-9$_-]{0,38}"
FILE = rb"(%b\.[A-Z0-9$_-]{0,39})\.(%b)" % (NAME, NUMBER)
NOTE = rb"[\t -~]{0,39}"
FORMS = {
    b"D": re.compile(rb"D (%b) (%b)" % (DIRECTORY, NUMBER)),
    b"C": re.compile(rb"C (%b)" % DIRECTORY),
    b"L": re.compile(rb"L (%b) (%b)" % (LOGICAL, DIRECTORY)),
    b"Q": re.compile(rb"Q (%b) %b (%b) (NARROW|NORMAL|WIDE) (%b|-) (%b) (%b)"
                     % (DIRECTORY, FILE, NUMBER, NUMBER, NAME, NOTE)),
    b"E": re.compile(rb"E"),
}
FILE_FORMS = {
    1: re.compile(rb"F (%b) %b [DU] (%b) (%b)" % (DIRECTORY, FILE, NUMBER, NUMBER)),
    2: re.compile(rb"F (%b) %b [DU] (%b) (%b) (%b|-) (%b)" % (DIRECTORY, FILE, NUMBER, NUMBER, NUMBER, NUMBER)),
}
HEADS = {b"EXEC20 1": 1, b"EXEC20 2": 2}
NEXT = {b"": b"D", b"D": b"DC", b"C": b"LFQE", b"L": b"LFQE", b"F": b"FQE", b"Q": b"QE"}
MOST = {b"D": 64, b"L": 64, b"F": 4_096, b"Q": 64}
FILE_LIMIT, STORE_LIMIT, LAST_MOMENT, LAST_DAY = 65_536, 8_388_608, 4_102_444_799, 47_481
LAST_GENERATION, RETENTION, COPIES = 131_071, 63, 63


class Fault(Exception):
    """What is wrong with a record."""


class Reading:
    """The records that were read so far."""

    def __init__(self, version):
        self.version, self.last, self.size = version, b"", 0
        self.directories, self.names, self.count = {}, {b"D": None, b"L": None, b"F": None}, {}

    def form(self, line):
        """The fields of a line, where it may stand here."""
        kind = line[:1]
        if not kind or kind not in [bytes([it]) for it in NEXT[self.last]]:
            raise Fault("Form")
        form = FILE_FORMS[self.version] if kind == b"F" else FORMS[kind]
        fields = form.fullmatch(line)
        if fields is None or (kind == b"Q" and b"?" in fields[8]):
            raise Fault("Form")
        return kind, fields

    def take(self, kind, fields):
        """Takes a record whose form is right, or says which of the other faults it has first."""
        if not all(low <= number <= high for number, low, high in ranges(kind, fields, self.version)):
            raise Fault("Range")
        if kind in b"CLFQ" and fields[2 if kind == b"L" else 1] not in self.directories:
            raise Fault("Name")
        if kind in self.names:
            name = order_of(kind, fields)
            if self.names[kind] is not None and not self.names[kind] < name:
                raise Fault("Order")
            self.names[kind] = name
        self.count[kind] = self.count.get(kind, 0) + 1
        self.size += int(fields[fields.re.groups]) if kind == b"F" else 0
        if self.count[kind] > MOST.get(kind, 1) or self.size > STORE_LIMIT:
            raise Fault("Limit")
        if kind == b"D":
            self.directories[fields[1]] = fields[2]
        self.last = kind


def ranges(kind, fields, version):
    """The numbers of a record, each with the least and the greatest that it may be."""
    if kind == b"D":
        return [(int(fields[2]), 0, RETENTION)]
    if kind == b"F":
        numbers = [int(field) for field in fields.groups()[3:] if field != b"-"]
        keep = [(numbers[0], 0, RETENTION)] if version == 2 else []
        moments = [(number, 0, LAST_MOMENT) for number in numbers[len(keep):-1]]
        return [(int(fields[3]), 1, LAST_GENERATION), *keep, *moments, (numbers[-1], 0, FILE_LIMIT)]
    if kind == b"Q":
        days = [] if fields[6] == b"-" else [(int(fields[6]), 0, LAST_DAY)]
        return [(int(fields[3]), 1, LAST_GENERATION), (int(fields[4]), 1, COPIES), *days]
    return []


def order_of(kind, fields):
    """What the records of a kind ascend by."""
    if kind != b"F":
        return fields[1]
    name, _, type_of = fields[2].partition(b".")
    return fields[1], name, type_of, int(fields[3])


def fault_of(image):
    """The place and the fault of the first wrong record, or None where the bytes are an image."""
    reading, place = None, 0
    while True:
        try:
            reading, after = record_at(image, place, reading)
        except Fault as fault:
            return place, str(fault)
        if after is None:
            return None
        place = after


def record_at(image, place, reading):
    """Reads the record that begins there, and gives what is read then and where the next begins, if one may."""
    if reading is not None and reading.last == b"E":
        if place < len(image):
            raise Fault("Form")
        return reading, None
    end = image.find(b"\n", place)
    if end < 0:
        raise Fault("Cut")
    line = image[place:end]
    if reading is None:
        if line not in HEADS:
            raise Fault("Form")
        return Reading(HEADS[line]), end + 1
    kind, fields = reading.form(line)
    after = end + 1
    if kind == b"F":
        after = end + 2 + int(fields[fields.re.groups])
        if after > len(image):
            raise Fault("Cut")
        if image[after - 1] != 10:
            raise Fault("Form")
    reading.take(kind, fields)
    return reading, after
