"""Where the words of a listing's texts stand, and which texts belong to which line."""
import re
from itertools import dropwhile

from .listing import Line, Text
from .metrics import paired_last

SPACES = " \n\u00a0\u2002\u2003\u2009"
PARTS = re.compile(f"[{SPACES}]+|[^{SPACES}]+")
UNSEEN = str.maketrans("", "", "\u00ad\u200b\n")
HANGING = " \n"


def face_of(text, faces, fault):
    """The face of a text; it is a fault where the metrics text lacks it."""
    face = faces.get(text.face)
    if face is None:
        raise fault(f"the listing has texts in {text.face}, and the metrics text has no such face")
    return face


def words_of(text, face):
    """Each word of a text: where its first glyph begins, its visible characters, and whether a space follows it."""
    x, before = text.x, text.before
    word = None
    for part in PARTS.findall(text.string):
        if part[0] in SPACES:
            if word:
                yield *word, True
            word = None
        else:
            shown = part.translate(UNSEEN)
            if shown:
                _, left, _ = next(face.rooms(shown, text.size, before))
                word = (x + left, shown)
        x += face.width(part, text.size, before)
        before = paired_last(part, before)
    if word:
        yield *word, False


def end_of(text, face):
    """Where a text ends, without the spaces and the line feed at its end."""
    return text.x + face.width(text.string.rstrip(HANGING), text.size, text.before)


def lines_of(page):
    """The lines of a page, each with its texts from left to right, and then the texts of the margin boxes.

    A listing doesn't say where the texts of a line end and those of the margin boxes begin. A text belongs to the
    line before it where its baseline stands in the line's height, and no text before it on the page has left its
    line."""
    lines, loose = [], []
    for item in page.items:
        if isinstance(item, Line):
            lines.append((item, []))
            loose = []
        elif isinstance(item, Text):
            if lines and not loose and belongs(item, *lines[-1]):
                lines[-1][1].append(item)
            else:
                loose.append(item)
    return lines, loose


def join_texts(pages, faces):
    """Tells each text that goes on the span of the text before it the character that stands before it.

    A justified line's texts are cut after spaces, and a pair of a space and the next letter reaches over the cut. A
    listing doesn't tell spans: two texts of one look are taken for one."""
    if not any(face.pairs for face in faces.values()):
        return
    for page in pages:
        numbers = {id(item): k for k, item in enumerate(page.items)}
        for line, texts in lines_of(page)[0]:
            texts = without_markers(line, texts, faces)
            if is_cut(texts, faces):
                for text, after in zip(texts, texts[1:]):
                    if text.string.endswith(" ") and look_of(text) == look_of(after):
                        page.items[numbers[id(after)]] = after._replace(before=" ")


def without_markers(line, texts, faces):
    """The texts of a line without the markers before it, which end where the line begins or left of there."""
    return list(dropwhile(lambda text: reach_of(text, faces) <= line.x, texts))


def is_cut(texts, faces):
    """Whether a line's texts are cut after its spaces. Where they are, the first space has a share of the slack, and
    after it a text begins right of the end of the one before."""
    return any(
        text.string.endswith(" ") and after.x > reach_of(text, faces) for text, after in zip(texts, texts[1:])
    )


def reach_of(text, faces):
    """Where a text ends with its spaces, whether it goes on a span or not."""
    face = faces.get(text.face)
    return text.x + max(face.width(text.string, text.size, before) for before in (None, " ")) if face else text.x


def look_of(text):
    return text.face, text.size, text.color, text.y, text.hyphen


def belongs(text, line, before):
    """Whether a text stands on the line and not left of the texts that stand on it already."""
    return line.y <= text.y <= line.y + line.height and (not before or text.x >= before[-1].x)
