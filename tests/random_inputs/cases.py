"""The cases of tests/random: those that are run each time, and those at random."""
import random_inputs.images as images
import random_inputs.keys as keys
from random_inputs.reading import MOST_BYTES, fault_of
from random_inputs.running import Case

USAGE = {
    "exec20": b"Usage: exec20 [-w] IN OUT | exec20 [-w] -n OUT | exec20 -g N\r\n", "spool20": b"Usage: spool20 IN OUT\r\n",
    "batch20": b"Usage: batch20 IN OUT FILE\r\n", "mm20": b"Usage: mm20 IN OUT\r\n",
}
FROM_IMAGE = {
    "exec20": ["IN", "OUT"], "spool20": ["IN", "OUT"], "batch20": ["IN", "OUT", "A.CTL"], "mm20": ["IN", "OUT"],
}
TYPED = ("exec20", "lamps", "tt_program", "mm20")
KEY_LIMIT = 16_777_216
# A key of each class: what is printed, blanks, what begins a comment or joins lines, the ends of a line, each editing key,
# and others.
CLASSES = b"A1 \t-;!(\"/<*\r\n\x7f\x17\x15\x12\x08\x03\x1b\x06?\x1a\x01\x80\xff"
FEW_KEYS = 8_192
NO_FILE = b"?No such file\r\n"


def over(program, name, image):
    """A run with no keys over what may be an image: what is none is told, by the page on images."""
    fault = (0, "") if len(image) > MOST_BYTES else fault_of(image)
    if fault is None:
        statuses = (0, 10) if program == "batch20" else (0,)
        second = image.startswith(b"EXEC20 2") and program in ("exec20", "mm20")
        return Case(name, program, FROM_IMAGE[program], b"", {"IN": image}, statuses, out=image if second else None)
    status, shown = 2, b"?Image is bad at %d: %b\r\n" % (fault[0], fault[1].encode())
    if len(image) > MOST_BYTES:
        status, shown = 9, b"?Image too large\r\n"
    return Case(name, program, FROM_IMAGE[program], b"", {"IN": image}, (status,), shown)


def alike(program, key, count):
    """A run over so many keys that are all this one."""
    status = 7 if count >= KEY_LIMIT and program != "lamps" else 0
    words, files = (["-n", "OUT"], {}) if program == "exec20" else ([], {})
    if program == "mm20":
        words, files = FROM_IMAGE["mm20"], {"IN": images.SMALL[2]}
    return Case(f"{count} times the key {key}", program, words, bytes([key]) * count, files, (status,))


def each_time(programs, is_long):
    """The cases of every run: the small images with a fault at each byte, each single key many times, the largest image
    and what is too large. In a long run a key of each class comes until the limit."""
    for version, image in images.SMALL.items():
        for place, (name, broken) in enumerate(images.at_every_byte(image)):
            for program in programs:
                if program == "exec20" or (program in FROM_IMAGE and (name.startswith("cut") or place % 7 == version)):
                    yield over(program, f"the small image of version {version}, {name}", broken)
    for key in range(256):
        for program in programs:
            if program in TYPED:
                yield alike(program, key, FEW_KEYS)
        held = bytes([key]) * (66_000 if is_long else FEW_KEYS)
        yield Case(f"a file of the key {key}", "exec20", ["-n", "OUT"], b"COPY TTY: A\r" + held + b"\x1a", {}, (0,))
    full = images.fullest()
    for program in programs:
        if program in FROM_IMAGE:
            yield over(program, "the fullest image", full)
            for byte in (0, 10, 69, 255):
                yield over(program, f"an image that is all {byte}", bytes([byte]) * MOST_BYTES)
            yield over(program, "an image that is too large", bytes(MOST_BYTES + 1))
    for key in CLASSES if is_long else b"\x01":
        for program in programs:
            if program in TYPED:
                yield alike(program, key, KEY_LIMIT)


def typed_in(chance, programs):
    """Keys at random over no image, with the log or without."""
    words = chance.choice((["-n", "OUT"], ["-w", "-n", "OUT"]))
    return Case("keys", "exec20", words, keys.keys(chance), {}, (0,))


def over_image(chance, programs):
    """Keys at random over an image."""
    program = "mm20" if "mm20" in programs and chance.random() < 0.4 else "exec20"
    image = images.some(chance)
    words = ["-w", "IN", "OUT"] if program == "exec20" and chance.random() < 0.3 else ["IN", "OUT"]
    return Case("keys over an image", program, words, keys.keys(chance, image.names), {"IN": image.whole()}, (0,))


def taken(chance, programs):
    """A command file that is taken."""
    image = images.some(chance, 0).with_file(b"C.CMD.1", keys.command_file(chance))
    made = b"CONNECT <OPERATOR>\rTAKE C.CMD\r" + keys.keys(chance)
    return Case("a command file", "exec20", ["IN", "OUT"], made, {"IN": image.whole()}, (0,))


def controlled(chance, programs):
    """A control file."""
    image = images.some(chance, 0).with_file(b"J.CTL.1", keys.control_file(chance)).whole()
    words = ["IN", "OUT", chance.choice(("<OPERATOR>J.CTL", "<OPERATOR>J.CTL", "<OPERATOR>NONE.CTL"))]
    if "NONE" in words[2]:
        out = image if image.startswith(b"EXEC20 2") else None
        return Case("no control file", "batch20", words, b"", {"IN": image}, (10,), NO_FILE, out)
    return Case("a control file", "batch20", words, b"", {"IN": image}, (0, 10))


def printed(chance, programs):
    """A print queue, of few bytes, as each row of each copy is written by itself."""
    image = images.some(chance, 6, 4_000)
    out = image.printed() if image.version == 2 else None
    return Case("a print queue", "spool20", ["IN", "OUT"], b"", {"IN": image.whole()}, (0,), out=out)


def broken(chance, programs):
    """An image with faults at random bytes, a large one now and then."""
    program = chance.choice([it for it in programs if it in FROM_IMAGE])
    large = chance.random() < 0.02
    image = images.some(chance, 4_000 if large else 12, 8_388_608 if large else 100_000)
    whole = image.whole(image.entries[:2] if program == "spool20" else None)
    return over(program, "an image with faults", images.damaged(chance, whole))


def other_keys(chance, programs):
    """Keys of the lamps, and bytes of a plain screen."""
    program = chance.choice(("lamps", "tt_program"))
    made = keys.keys(chance, ends=False)
    if program == "tt_program" and chance.random() < 0.5:
        made = chance.randbytes(chance.choice((10, 1_000, 60_000)))
    return Case("keys", program, [], made, {}, (0,))


def worded(chance, programs):
    """Words of every shape."""
    program = chance.choice([it for it in programs if it in USAGE])
    given = keys.words(chance)
    files = {"IN": images.SMALL[chance.choice((1, 2))]}
    if keys.is_form(program, given):
        return Case(f"words {given}", program, given, b"INF VER\r", files)
    return Case(f"words {given}", program, given, b"INF VER\r", files, (1,), USAGE[program])


KINDS = (typed_in, typed_in, over_image, over_image, taken, controlled, printed, broken, broken, broken, other_keys, worded)
