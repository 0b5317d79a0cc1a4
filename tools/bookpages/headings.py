"""Headings of a listing, for a PDF's outline. A listing knows no elements, so they are found by the sizes of texts."""
from collections import Counter, namedtuple

from .places import lines_of

Heading = namedtuple("Heading", "level text page x y")
MOST_LEVELS = 6


def usual_size(pages):
    """The size in which most of the characters are set."""
    sizes = Counter()
    for page in pages:
        for _, texts in lines_of(page)[0]:
            for text in texts:
                sizes[text.size] += len(text.string)
    return sizes.most_common(1)[0][0] if sizes else 0


def size_of(texts):
    """The one size in which a line is set, or None; its markers and calls don't matter where they are smaller."""
    shown = [text for text in texts if text.string.strip()]
    return max((text.size for text in shown), default=None)


def headings_of(pages, sizes=None):
    """The lines in the given sizes, by default those larger than most of the text; the largest are of level 1.

    Lines that follow one another in one size, with no more than half a line between, are one heading; a line at the head
    of the next column follows none."""
    if sizes is None:
        usual = usual_size(pages)
        larger = {size_of(texts) for page in pages for _, texts in lines_of(page)[0]} - {None}
        sizes = sorted((size for size in larger if size * 10 >= usual * 11), reverse=True)[:MOST_LEVELS]
    levels = {size: level for level, size in enumerate(sizes, 1)}
    found = []
    for page in pages:
        before = None
        for line, texts in lines_of(page)[0]:
            size = size_of(texts)
            if size in levels:
                text = "".join(it.string for it in texts if it.size == size).replace("\u00ad", "").replace("\n", " ")
                text = " ".join(text.split())
                if before and before[0] == size and abs(line.y - before[1]) <= line.height // 2:
                    found[-1] = found[-1]._replace(text=f"{found[-1].text} {text}")
                else:
                    found.append(Heading(levels[size], text, page.index, line.x, line.y))
            before = (size, line.y + line.height)
    return found
