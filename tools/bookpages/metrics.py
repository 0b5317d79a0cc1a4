"""Metrics texts: faces with the advances of their characters and with their pairs (docs/METRICS.md)."""
import bisect
import re

from .faults import Fault, read_text

NAME = re.compile(r"[a-z0-9-]{1,32}\Z")
DECIMAL = re.compile(r"[0-9]{1,9}\Z")
CHANGE = re.compile(r"-?[0-9]{1,9}\Z")
HEXADECIMAL = re.compile(r"[0-9A-Fa-f]{4,6}\Z")
STYLES = ("normal", "italic")
WEIGHTS = tuple(str(weight) for weight in range(100, 1000, 100))
MOST = 16384
MOST_FACES = 64
LAST_CHARACTER = 0x10FFFF
# characters that take no room in a line: line feed, soft hyphen, zero width space
WITHOUT_ADVANCE = "\n\u00ad\u200b"
# characters that stand in no pair: a pair reaches over them
WITHOUT_PAIR = "\u00ad\u200b"
FONT_COMMENT = "# font "
# the first lines of the two versions, and the first words of other lines, the last of them in version 2 alone
HEADS = (["bookmetrics", "1"], ["bookmetrics", "2"])
ENTRIES = ("face", "glyph", "pair")


class Widths(dict):
    """The advances of a face's characters at one size, in units of 1/64 px, and of a character behind another one by
    the two of them as one string; each is computed once."""

    def __init__(self, face, size):
        super().__init__((character, 0) for character in WITHOUT_ADVANCE)
        self.face, self.size = face, size

    def __missing__(self, key):
        advance = self.face.advance(key[-1]) + self.face.pairs.get(key, 0)
        self[key] = 0 if key[-1] in WITHOUT_ADVANCE else advance * self.size // self.face.units
        return self[key]


class Face:
    """One face of a metrics text; `font` is the file name that a comment before it tells, or None. `pairs` has the
    change of a character's advance behind another one, by the two of them as one string."""

    def __init__(self, label, numbers, font=None):
        self.label, self.font = label, font
        self.units, self.ascent, self.descent, self.default = numbers
        self.firsts, self.lasts, self.advances = [], [], []
        self.pairs, self.last_pair = {}, None
        self.sizes = {}

    def range_of(self, character):
        """The number of the range that has the character, or None."""
        code = ord(character)
        k = bisect.bisect_right(self.firsts, code) - 1
        return k if k >= 0 and code <= self.lasts[k] else None

    def has(self, character):
        return self.range_of(character) is not None

    def advance(self, character):
        """The character's advance in units of the em: that of its range, else the default one."""
        k = self.range_of(character)
        return self.default if k is None else self.advances[k]

    def widths(self, size):
        if size not in self.sizes:
            self.sizes[size] = Widths(self, size)
        return self.sizes[size]

    def rooms(self, string, size, before=None):
        """Each character of a text in one span with the left end of its glyph and the right end of its room, both from
        the text's beginning; `before` is the character before the text in its span and line.

        A pair's change counts in the room of its second character, and so in the width of the line from there on. The
        second glyph itself is as wide as ever: a change that closes up lets it begin left of its room."""
        widths = self.widths(size)
        end = 0
        for character in string:
            plain = width = widths[character]
            if self.pairs and before is not None:
                width = widths[before + character]
            end += width
            yield character, end - plain, end
            if character not in WITHOUT_PAIR:
                before = character

    def width(self, string, size, before=None):
        """How wide a text in one span is, with its pairs, in units of 1/64 px; `before` as in `rooms`."""
        if not self.pairs:
            return sum(map(self.widths(size).__getitem__, string))
        end = 0
        for _, _, end in self.rooms(string, size, before):
            pass
        return end


def paired_last(string, before=None):
    """The last character of a text, or of `before` it, that may stand in a pair with the next one."""
    return string.rstrip(WITHOUT_PAIR)[-1:] or before


class Reader:
    """Reads a metrics text line by line; faults name the file, the line, and what is wrong there."""

    def __init__(self, path):
        self.path, self.line, self.faces, self.font = path, 0, {}, None

    def fault(self, what):
        return Fault(f"{self.path} line {self.line}: {what}")

    def numbers(self, words):
        for word in words:
            if not DECIMAL.match(word):
                raise self.fault(f"`{word}` is no number of 1 to 9 digits")
        return [int(word) for word in words]

    def codes(self, words):
        for word in words:
            if not HEXADECIMAL.match(word):
                raise self.fault(f"`{word}` is no number of 4 to 6 hexadecimal digits")
        return [int(word, 16) for word in words]

    def face(self, words):
        if len(words) != 8 or not NAME.match(words[1]) or words[2] not in STYLES:
            raise self.fault("a face is `face NAME STYLE WEIGHT UNITS ASCENT DESCENT DEFAULT`")
        numbers = self.numbers(words[3:])
        if words[3] not in WEIGHTS or numbers[1] == 0 or max(numbers[1:]) > MOST:
            raise self.fault("a weight is 100, 200, up to 900, and the other numbers are at most 16384")
        label = "/".join(words[1:4])
        if label in self.faces:
            raise self.fault(f"the face {label} stands twice")
        if len(self.faces) == MOST_FACES:
            raise self.fault(f"there are more than {MOST_FACES} faces")
        self.faces[label] = Face(label, numbers[1:], self.font)
        self.font = None

    def glyph(self, words):
        if len(words) != 4:
            raise self.fault("a range is `glyph FIRST LAST ADVANCE`")
        first, last = self.codes(words[1:3])
        (advance,) = self.numbers(words[3:])
        if first > last or last > LAST_CHARACTER or advance > MOST:
            raise self.fault("FIRST is at most LAST, LAST at most 10FFFF and ADVANCE at most 16384")
        face = self.last_face()
        if face is None or face.lasts and first <= face.lasts[-1] or face.pairs:
            raise self.fault("ranges follow a face, ascend, and stand before its pairs")
        face.firsts.append(first)
        face.lasts.append(last)
        face.advances.append(advance)

    def last_face(self):
        return next(reversed(self.faces.values()), None)

    def pair(self, words):
        if len(words) != 4:
            raise self.fault("a pair is `pair FIRST SECOND CHANGE`")
        codes = self.codes(words[1:3])
        if not CHANGE.match(words[3]):
            raise self.fault(f"`{words[3]}` is no number of 1 to 9 digits, with or without a `-` before it")
        change = int(words[3])
        if max(codes) > LAST_CHARACTER or abs(change) > MOST:
            raise self.fault("FIRST and SECOND are at most 10FFFF and CHANGE is from -16384 to 16384")
        face = self.last_face()
        if face is None or face.last_pair is not None and codes <= face.last_pair:
            raise self.fault("pairs follow a face and ascend")
        first, second = map(chr, codes)
        if not 0 <= face.advance(second) + change <= MOST:
            raise self.fault("the advance of SECOND and CHANGE together are from 0 to 16384")
        face.pairs[first + second] = change
        face.last_pair = codes

    def read(self, text):
        lines = text.split("\n")
        for self.line, line in enumerate(lines, 1):
            line = line.removesuffix("\r")
            words = line.replace("\t", " ").split(" ")
            words = [word for word in words if word]
            if self.line == 1:
                if words not in HEADS:
                    raise self.fault("a metrics text begins with `bookmetrics 1` or `bookmetrics 2`")
                entries = ENTRIES[: HEADS.index(words) + 2]
            elif line.startswith("#"):
                if line.startswith(FONT_COMMENT):
                    self.font = line.removeprefix(FONT_COMMENT).strip()
            elif words and words[0] in entries:
                getattr(self, words[0])(words)
            elif words:
                names = "`, `".join(entries[:-1])
                raise self.fault(f"`{words[0]}` is neither `{names}` nor `{entries[-1]}`")
        if not self.faces:
            raise self.fault("there is no face")
        return self.faces


def read_metrics(path):
    """The faces of a metrics text by their labels NAME/STYLE/WEIGHT, in order."""
    return Reader(path).read(read_text(path))
