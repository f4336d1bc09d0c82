"""Which bytes of a terminal are keys of a program.

A terminal sends pieces that nobody types: ESC and more for an arrow key, Home, F1, the markers of a paste, that the
window has the focus. They are left out, but for the arrows up and down, which are strokes beside the keys. Of a letter
that is no ASCII the first byte alone is a key, so that the program answers it with one bell. A piece or a letter may
come in two reads.
"""
import re
import termios
from contextlib import suppress

ESC, DEL = b"\x1b", b"\x7f"
BACK, TAB = b"\b", b"\t"
CHARACTERS = 6
# Strokes that are no bytes.
UP, DOWN = 256, 257
ARROWS = {b"\x1b[A": UP, b"\x1bOA": UP, b"\x1b[B": DOWN, b"\x1bOB": DOWN}
# An answer to a question that some program before has asked.
ANSWER = rb"(?:\]\d|P(?:[01][$+]r|[>!]\|))[^\x00-\x1f\x7f]*"
# In their order: function keys of the Linux console, a mouse, a control sequence, a function key, an answer.
PIECE = re.compile(
    rb"\x1b{1,2}(?:\[(?:\[[A-E]|M[^\x00-\x1f]{3}|[0-?]+[ -/]*[@-~]|[ -/]*[@-LN-Z\\-~])|O[\d;]*[A-FHIMP-SXj-y]|"
    + ANSWER + rb"(?:\x07|\x1b\\))"
)
# The beginning of a piece that nobody types so fast, and one that may have been typed.
CLEAR = re.compile(rb"\x1b{1,2}(?:\[(?:\[|M[^\x00-\x1f]{0,2}|[0-?]*[ -/]*)|" + ANSWER + rb"\x1b?)")
UNCLEAR = re.compile(rb"\x1b{1,2}(?:O[\d;]*|\]|P(?:[01][$+]?|[>!])?)?")


class Keys:
    """The keys in what a terminal sends, read by read."""

    def __init__(self, tab=TAB):
        """TAB is this key."""
        self.tab = tab
        self.back = BACK
        self.held = b""
        self.letter_rest = 0

    def take_erase(self, terminal):
        """Takes control-H as DEL where this terminal does, if it is still there."""
        with suppress(termios.error):
            self.back = DEL if termios.tcgetattr(terminal)[CHARACTERS][termios.VERASE] == BACK else BACK

    def taken(self, sent):
        """The keys in what was sent. A beginning of a piece at its end is held."""
        return bytes(stroke for stroke in self.strokes(sent) if stroke < UP)

    def strokes(self, sent):
        """The same, and the arrows up and down among them: a list."""
        sent, self.held = self.held + sent, b""
        strokes = []
        while sent:
            piece = PIECE.match(sent)
            if piece:
                strokes += [ARROWS[piece[0]]] if piece[0] in ARROWS else []
                sent = sent[piece.end():]
            elif CLEAR.fullmatch(sent) or UNCLEAR.fullmatch(sent):
                self.held, sent = sent, b""
            else:
                end = sent.find(ESC, 1)
                end = len(sent) if end < 0 else end
                strokes += self.plain(sent[:end])
                sent = sent[end:]
        return strokes

    def plain(self, text):
        """The keys of bytes that are no piece."""
        keys = bytearray()
        for byte in text:
            if self.letter_rest and 0x80 <= byte < 0xC0:
                self.letter_rest -= 1
            else:
                self.letter_rest = sum(byte >= first for first in (0xC2, 0xE0, 0xF0)) if byte < 0xF5 else 0
                keys.append(byte)
        return keys.translate(bytes.maketrans(TAB + BACK, self.tab + self.back))

    def may_be_typed(self):
        """Whether something is held that may have been typed, and is a key then if no more comes soon."""
        return self.held != b"" and UNCLEAR.fullmatch(self.held) is not None

    def released(self):
        """What is held, as keys."""
        held, self.held = self.held, b""
        return held
