"""Parts of an SVG picture: elements and their numbers, how wide text is, text that wraps, and the whole document. What a picture shows is not known here.

No font is measured: a width is what a wide sans-serif font takes, so that text keeps its room with any other.
"""
from xml.sax.saxutils import escape

WIDTH = 1000
# How wide a character is, in hundredths of the font's size: of these, and of capitals and all others. Whole numbers have the same sum with each version of Python; fractions have not.
WIDTHS = {**dict.fromkeys("ijl'|", 30), **dict.fromkeys(' .,:;!()[]-', 40), **dict.fromkeys('ftr', 42), **dict.fromkeys('mwMW%', 98)}


def plain(number):
    """A number with two decimals at most."""
    digits = f'{number:.2f}'.rstrip('0').rstrip('.')
    return '0' if digits == '-0' else digits


def element(name, *inside, **given):
    """An element with what is inside, and attributes: class_ stands for class, and text_anchor for text-anchor."""
    attributes = ''
    for key, it in given.items():
        if it is not None:
            attributes += f' {key.rstrip("_").replace("_", "-")}="{escape(it) if isinstance(it, str) else plain(it)}"'
    return f'<{name}{attributes}>{"".join(inside)}</{name}>\n' if inside else f'<{name}{attributes}/>\n'


def title(words):
    """What is shown of an element when one points at it."""
    return element('title', escape(words)).rstrip('\n')


def text(x, y, words, kind, anchor=None):
    return element('text', escape(words), x=x, y=y, class_=kind, text_anchor=anchor)


def line(x1, y1, x2, y2, kind, *inside):
    return element('line', *inside, x1=x1, y1=y1, x2=x2, y2=y2, class_=kind)


def rect(x, y, width, height, kind, *inside, **given):
    return element('rect', *inside, x=x, y=y, width=width, height=height, class_=kind, **given)


def circle(x, y, radius, kind, *inside):
    return element('circle', *inside, cx=x, cy=y, r=radius, class_=kind)


def path(steps, kind, *inside):
    return element('path', *inside, d=steps, class_=kind)


def through(points):
    """The steps of a path through points, one decimal each; a point where the path is already is left out."""
    found = []
    for x, y in points:
        it = f'{plain(round(x, 1))} {plain(round(y, 1))}'
        if not found or found[-1] != it:
            found.append(it)
    return 'M' + 'L'.join(found) if found else ''


def width_of(words, size):
    """How wide words are in a font of this size, at most."""
    return size * sum(WIDTHS.get(it, 74 if it.isupper() else 64) for it in words) / 100


def wrapped(pieces, width, size):
    """The pieces in lines, none of them wider than this where a single piece is not; a line is a list of its pieces."""
    lines, used = [], 0
    for it in pieces:
        wide = width_of(f'{it} ', size)
        if not lines or used + wide > width:
            lines.append([])
            used = 0
        lines[-1].append(it)
        used += wide
    return lines


def longest_fitting(choices, width, size):
    """The first of the texts that is no wider than this, or none."""
    return next((it for it in choices if width_of(it, size) <= width), '')


def document(height, heading, told, style, parts):
    """The whole picture, with what it is and what it tells in words for those who do not see it."""
    return ''.join([
        '<?xml version="1.0" encoding="UTF-8"?>\n',
        f'<svg xmlns="http://www.w3.org/2000/svg" version="1.1" width="{WIDTH}" height="{plain(height)}" viewBox="0 0 {WIDTH} {plain(height)}" role="img" aria-labelledby="heading told">\n',
        f'<title id="heading">{escape(heading)}</title>\n<desc id="told">{escape(told)}</desc>\n<style>\n{style}</style>\n',
        rect(0, 0, WIDTH, height, 'page'),
        *parts,
        '</svg>\n',
    ])
