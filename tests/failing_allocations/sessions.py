"""The sessions whose allocations fail one by one, and what must stand then: computed from runs in which none fails."""
import images

END = b"\r\n"
NO_MEMORY = b"?No memory" + END
STATUS = 6
CONTROL_Z = b"\x1a"
SAID = (STATUS, NO_MEMORY, None)
# Where the program finds no memory for its words these are too many.
USAGES = {
    "exec20": b"Usage: exec20 [-w] IN OUT | exec20 [-w] -n OUT | exec20 -g N", "spool20": b"Usage: spool20 IN OUT",
    "batch20": b"Usage: batch20 IN OUT FILE", "mm20": b"Usage: mm20 IN OUT",
}


class Point:
    """What must stand where memory runs out at one place of a run, and whether memory is asked for there for sure: a
    BUILD, say, asks only where the directories have no room."""

    def __init__(self, name, stands, asks=True):
        self.name, self.stands, self.asks = name, stands, asks


def of_words(program):
    """The place before anything of a session is done: its words."""
    return Point("the words", (1, USAGES[program] + END, None))


class Step:
    """Keys of a session, up to the one that acts. Of a TAKE there are the lines that act, as they would be typed; one that is
    empty takes another file."""

    def __init__(self, keys, asks=None, lines=()):
        self.keys, self.asks, self.lines = keys, asks, lines


class Typed:
    """A session at the keys."""

    def __init__(self, name, program, words, steps, image=None):
        self.name, self.program, self.words, self.steps, self.image = name, program, words, steps, image

    def keys(self):
        return b"".join(step.keys for step in self.steps)

    def points(self, program):
        """Each place where memory may run out, in order, after those before the first prompt."""
        points = [of_words(self.program), Point("before the first prompt", SAID)]
        for number, step in enumerate(self.steps):
            if step.asks is not None:
                points += self.points_of(program, b"".join(it.keys for it in self.steps[:number]), step)
        return points

    def shown(self, program, keys):
        """The screen of a run in which no allocation fails, without the end of its last line, and its image."""
        status, screen, image = program.run(self.words, keys, self.image)
        if status != 0 or not screen.endswith(END):
            raise SystemExit(f"{self.name}: the run over {keys!r} ends with {status}")
        return screen[:-len(END)], image

    def points_of(self, program, before, step):
        """The places of one step: the key that acts, and the lines of the files that it takes."""
        image = self.shown(program, before)[1]
        screen = self.shown(program, before + step.keys[:-1])[0]
        screen += b"^Z" + END if step.keys.endswith(CONTROL_Z) else END
        points = [Point(repr(step.keys), (STATUS, screen + END + NO_MEMORY, image), step.asks)]
        keys = before
        for line, asks in step.lines:
            if asks is not None:
                points.append(Point(f"{line!r} of a file", (STATUS, screen + END + NO_MEMORY, image), asks))
            if line:
                prompt = self.shown(program, keys)[0]
                keys += line + b"\r"
                after, image = self.shown(program, keys)
                screen += after[len(prompt) + len(line) + len(END):-1]
        return points


class Controlled:
    """A control file that is run over an image."""

    def __init__(self, name, lines, files):
        self.name, self.program, self.lines, self.files = name, "batch20", lines, files
        self.words, self.image = ["IN", "OUT", "JOB.CTL"], self.image_of(lines)

    def keys(self):
        return b""

    def image_of(self, lines):
        """The image with a control file of these lines."""
        held = b"".join(line + b"\n" for line, _ in lines)
        return images.image([*self.files, (b"JOB.CTL.1", held)], kept=1)

    def points(self, program):
        """Each place where memory may run out: while IN is read, for the lines and labels, and at a line that acts."""
        control = self.image_of(self.lines).split(b"F OPERATOR JOB.CTL.1")[1].split(b"\nE\n")[0]
        points = [of_words(self.program), Point("in reading", SAID)]
        shown = b""
        for number, (line, asks) in enumerate([(b"", True), *self.lines]):
            before = self.lines[:max(number - 1, 0)]
            made = self.image_of(before)
            status, shown, image = program.run(self.words, b"", made)
            if status != 0:
                raise SystemExit(f"{self.name}: the lines before {line!r} end with {status}")
            shown += line + END if line else b""
            if asks is not None:
                own = made.split(b"F OPERATOR JOB.CTL.1")[1].split(b"\nE\n")[0]
                whole = image.replace(unstamp(own), unstamp(control))
                points.append(Point(repr(line or "the lines"), (STATUS, shown + NO_MEMORY, whole), asks))
        return points


def unstamp(record):
    """The record of the control file as it stands in an image whose moments are made alike."""
    return record.replace(b" U 1 0 - ", b" U 1 WHEN - ", 1)


class Printed:
    """A print queue that is printed: memory is asked for while the image is read, and not after that."""

    def __init__(self, name, image):
        self.name, self.program, self.words, self.image = name, "spool20", ["IN", "OUT"], image

    def keys(self):
        return b""

    def points(self, program):
        return [of_words(self.program), Point("in reading", SAID)]


SELF = b"COPY A.TXT B.TXT\nTAKE SELF.CMD\n"
LEVEL = ((b"COPY A.TXT B.TXT", True), (b"", True))
PLACES = (images.OPERATOR, b"SMITH")
QUEUE = b"Q OPERATOR A.TXT.1 2 NORMAL - A as said\nQ OPERATOR A.TXT.1 1 WIDE 47481 A \n"

SESSIONS = (
    Typed("a file that is typed in", "exec20", ["-n", "OUT"], (
        Step(b"INF VER\r"), Step(b"COPY TTY: A.TXT\r", True), Step(b"HI\rYO\r\x1a", True), Step(b"DIR\r"),
        Step(b"BUILD <SMITH>\r", False), Step(b"COPY A.TXT <SMITH>\r", True), Step(b"APPEND A.TXT B.TXT\r", True),
        Step(b"RENAME B.TXT C.TXT\r", True), Step(b"DEFINE S: <SMITH>\r", True), Step(b"PRINT A.TXT\r", True),
        Step(b"DELETE C.TXT\r"), Step(b"EXPUNGE\r"), Step(b"TYPE A.TXT\r"), Step(b"CONNECT <SMITH>\r"),
        Step(b"SET FILE GEN A.TXT 2\r"), Step(b"UNDELETE C.TXT\r"),
    )),
    Typed("a command file that takes itself", "exec20", ["IN", "OUT"], (
        Step(b"INF VER\r"),
        Step(b"TAKE SELF.CMD\r", True, (*LEVEL, *LEVEL, *LEVEL, (b"COPY A.TXT B.TXT", True), (b"", False))),
        Step(b"DIR\r"),
    ), images.image([(b"A.TXT.1", b"HI\r\n"), (b"SELF.CMD.1", SELF)], PLACES, 1)),
    Controlled("a control file", (
        (b"! A remark", None), (b"@COPY A.TXT B.TXT", True), (b"A::", None), (b"@INF VER", None),
        (b"@BUILD <SMITH>", False), (b"@COPY *.TXT <SMITH>*.*", True), (b"@PRINT A.TXT", True),
    ), [(b"A.TXT.1", b"HI\r\n")]),
    Printed("a print queue", images.image([(b"A.TXT.1", b"HI\r\n" * 200)], PLACES, 1, QUEUE)),
    Typed("mail", "mm20", ["IN", "OUT"], (
        Step(b"HEADERS\r"), Step(b"SEND OPERATOR \"HELLO\"\r", True), Step(b"HI\r\x1a", True), Step(b"READ 1\r"),
        Step(b"HEADERS\r"), Step(b"SEND SMITH \"AGAIN\"\r", True), Step(b"YO\r\x03"), Step(b"DELETE 1\r"),
    ), images.image((), PLACES, 1)),
)
