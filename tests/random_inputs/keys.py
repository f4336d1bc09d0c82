"""Keys, words and the lines of command files and control files, at random, and the words that each program takes."""

VERBS = (
    "APPEND", "BUILD", "CONNECT", "COPY", "DEFINE", "DELETE", "DIRECTORY", "EXPUNGE", "INFORMATION", "PRINT", "REMARK",
    "RENAME", "SET FILE GEN", "TAKE", "TYPE", "UNDELETE", "T", "L", "INF VER", "INF DIR", "INF LOG", "INF OUT", "KJOB",
    "SET", "DIM", "NAME", "LIST", "SEND", "READ", "HEADERS", "SINCE", "BEFORE", "DELETED", "GENERATIONS", "QUIT",
)
PARTS = (
    "A.TXT", "B", "A.TXT.1", "A.TXT.-1", "*.*", "*.*.*", "A%", "A.*.-3", "<OPERATOR>", "<SMITH>A.TXT", "<SMITH>", "S:",
    "S:A", "TTY:", "PS:A.TXT.0", "(TO)", "(", "!x!", "; x", ",", "-", "/COPIES:2", "/FORMS:WIDE", "/NOTE:\"a\"", "/AFTER:",
    "1-JAN-2026", "31-FEB-1999", "63", "64", "34359738367", "34359738368", "\"text\"", "\"", "A" * 39, "A" * 40, "OPERATOR",
    "1", "KITCHEN", "SMITH",
)
EDITS = (b"\x7f", b"\x17", b"\x15", b"\x12", b"\x08", b"\x03", b"\x1b", b"\x06", b"?", b"\t", b"\x01", b"\xff", b"\x1a")


def line(chance):
    """A line as someone may type it, more or less."""
    text = " ".join([chance.choice(VERBS), *(chance.choice(PARTS) for _ in range(chance.choice((0, 1, 1, 2, 2, 3, 8))))])
    text = text.lower() if chance.random() < 0.1 else text
    return text[:chance.randrange(len(text) + 1)] if chance.random() < 0.1 else text


def typed(chance, names):
    """The keys of a line, with edits in it, or of a file that is typed in."""
    kind = chance.randrange(12)
    if kind == 0:
        return bytes(chance.randrange(256) for _ in range(chance.randrange(40)))
    if kind == 1:
        return bytes([chance.choice(b"A?\x1b\x06 \r\x7f\x17-\x12\x08")]) * chance.choice((1, 2, 256, 600))
    if kind in (2, 3):
        held = bytes(chance.choice(b"HI\r\n\t\x7f @?-\x00\x80") for _ in range(chance.choice((0, 5, 100))))
        return b"COPY TTY: %b\r%b\x1a" % (chance.choice((b"A.TXT", b"B", b"J.CTL", b"C.CMD", b"*", b"A.TXT.5")), held)
    text = line(chance)
    if names and chance.random() < 0.3:
        text += " " + chance.choice(names)
    edited = bytearray(text.encode())
    for _ in range(chance.choice((0, 0, 1, 3))):
        place = chance.randrange(len(edited) + 1)
        edited[place:place] = chance.choice(EDITS) * chance.choice((1, 1, 4))
    return bytes(edited) + chance.choice((b"\r", b"\r", b"\r", b"\n", b"\r\n", b"-\r", b""))


def keys(chance, names=(), ends=True):
    """The keys of a session. LOGOUT is rare, as nothing is looked at after it."""
    made = b"".join(typed(chance, names) for _ in range(chance.choice((1, 5, 20, 100))))
    return made + b"\rLOGOUT\r" if ends and chance.random() < 0.1 else made


def command_file(chance):
    """Lines of a command file, which may take files, itself too."""
    lines = [chance.choice((line(chance), "TAKE C.CMD", "COPY *.* <SMITH>*.*", "BUILD <SMITH>", "INF -", "DIR ,", ""))
             for _ in range(chance.choice((1, 3, 10, 50)))]
    return chance.choice((b"\n", b"\r\n")).join(text.encode() for text in lines) + chance.choice((b"", b"\n", b"\x00\n"))


def control_file(chance):
    """Lines of a control file: labels, conditions, commands, remarks, and ones that are none of these."""
    label = chance.choice(("A", "B", "END", "X" * 39, "X" * 40))
    made = []
    for _ in range(chance.choice((1, 4, 12, 60))):
        text = chance.choice((
            "", "! remark", f"{label}::", "A::", f"@GOTO {label}", "@GOTO A", "@" + line(chance), "@" + line(chance),
            "@IF (ERROR) @" + line(chance), "@IF (NOERROR) @GOTO B", "@IF (ERROR) @IF (ERROR) @X", "B::", "junk", "@TAKE C.CMD",
            "@COPY A.TXT B.TXT", "@INF VER", "@DIR ,",
        ))
        made.append(text.encode() if chance.random() > 0.05 else bytes(chance.randrange(256) for _ in range(30)))
    return chance.choice((b"\n", b"\r\n")).join(made) + chance.choice((b"", b"\n"))


def word(chance):
    """A word of a program: a name of a file, a flag, a number, or of another shape."""
    return chance.choice((
        b"IN", b"OUT", b"IN", b"OUT", b"-n", b"-w", b"-g", b"", b"-", b"--", b"-n-w", b"-W", b"ABSENT", b"FOLDER",
        b"FOLDER/OUT", b"ABSENT/OUT", b"1", b"2", b"0", b"007", b"000001", b"0000001", b"100000", b"100001", b"-1", b"+1", b"1.0",
        b"A.CTL", b"NONE.CTL",
        b"A" * 255, b"A" * 256, b"\xff", b"\xc3\xa9", b" ", b"A B", b"\n", b"<SMITH.SRC>B", b"%s%n",
    ))


def words(chance):
    """Words of every shape, from none to more than any program takes."""
    return [word(chance) for _ in range(chance.choice((0, 1, 2, 2, 3, 3, 3, 4, 5, 8)))]


def is_name(given):
    """Whether a word is a name of a file, and not one that is told apart from it."""
    return 0 < len(given) <= 255 and not given.startswith(b"-") and is_text(given)


def is_text(given):
    """Whether bytes are a text in UTF-8."""
    try:
        given.decode()
    except UnicodeDecodeError:
        return False
    return True


def is_form(program, given):
    """Whether the program takes these words; else its status is 1, and that alone."""
    if program in ("spool20", "mm20"):
        return len(given) == 2 and all(map(is_name, given)) and given[0] != given[1]
    if program == "batch20":
        return (len(given) == 3 and all(map(is_name, given[:2])) and given[0] != given[1]
                and 0 < len(given[2]) <= 255 and is_text(given[2]))
    if given[:1] == [b"-g"]:
        number = given[1] if len(given) == 2 else b""
        return 1 <= len(number) <= 6 and number.isdigit() and 1 <= int(number) <= 100_000
    rest = given[1:] if given[:1] == [b"-w"] else given
    if len(rest) != 2:
        return False
    return is_name(rest[1]) and (rest[0] == b"-n" or (is_name(rest[0]) and rest[0] != rest[1]))
