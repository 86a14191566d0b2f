"""What the pictures of commands and of takes have in common: their colours, the plot with its axes and the zero line, the line of the values, labels that do not overlap, spans in lanes, and
the text below. It draws what it is given, and works out no answer.
"""
from typing import NamedTuple

from replies import decibels
from svg import WIDTH, circle, line, longest_fitting, path, rect, text, through, title, width_of, wrapped

SMALL = 11
SIZE = 12
# Of the picture: the edges, and where the plot ends at the right. Behind that the zero line is named.
EDGE = 16
RIGHT = WIDTH - 76
PLOT_HEIGHT = 320
# How wide a line of the text below the plot is.
ROW = WIDTH - 2 * EDGE - 12

# What stays by light and in the dark.
FIXED = f"""text {{ font-family: system-ui, sans-serif; font-size: {SIZE}px }}
.heading {{ font-size: 17px; font-weight: 600 }}
.small, .quiet, .dip-words, .flag-words {{ font-size: {SMALL}px }}
.strong, .dip-words, .flag-words {{ font-weight: 600 }}
.grid, .block, .pole {{ stroke-width: 1 }}
.zero {{ stroke-width: 2 }}
.values {{ fill: none; stroke-width: 1.5; stroke-linejoin: round }}
.faint {{ fill: none; stroke-width: 1; stroke-linejoin: round }}
.exact {{ fill: none; stroke-width: 2 }}
.span, .open, .stretch, .rough {{ stroke-width: 1 }}
.stretch {{ stroke-dasharray: 3 2 }}
.rough {{ stroke-dasharray: 1 2 }}
.band {{ shape-rendering: crispEdges; fill-opacity: 0.75 }}
.open-band {{ fill-opacity: 1 }}
.dip {{ stroke-width: 1.5 }}
.dip-words {{ stroke-width: 4; stroke-linejoin: round; paint-order: stroke }}
.thin {{ stroke-width: 0.5; stroke-dasharray: none }}
.figure {{ stroke-width: 1.5 }}
.column {{ fill: none; pointer-events: all }}
.cross {{ fill: none; stroke-width: 2 }}
"""

# Of each class: the property, and its colour by light and in the dark.
COLOURS = [
    ('.page', 'fill', '#ffffff', '#0d1117'),
    ('text', 'fill', '#1f2328', '#e6edf3'),
    ('text.quiet', 'fill', '#57606a', '#9aa4af'),
    ('.grid', 'stroke', '#dfe4ea', '#2a313a'),
    ('.block', 'stroke', '#818b98', '#6e7986'),
    ('.zero', 'stroke', '#1f2328', '#e6edf3'),
    ('.clipping', 'fill', '#fdf1ec', '#21171a'),
    ('.values', 'stroke', '#0a5fb4', '#58a6ff'),
    ('.sample', 'fill', '#0a5fb4', '#58a6ff'),
    ('.faint', 'stroke', '#5f90c3', '#4377ab'),
    ('.far', 'fill', '#0a5fb4', '#58a6ff'),
    ('.pole', 'stroke', '#818e9d', '#5f6c7a'),
    ('.flag', 'fill', '#3d5a80', '#a5bfdd'),
    ('text.flag-words', 'fill', '#3d5a80', '#a5bfdd'),
    ('.span, .open', 'fill', '#dde8f4', '#1c2f45'),
    ('.stretch', 'fill', '#ffffff', '#0d1117'),
    ('.rough', 'fill', '#fdeedd', '#33230f'),
    ('.rough.thin', 'fill', '#b0702c', '#b98550'),
    ('.span, .open, .stretch, .thin', 'stroke', '#57789c', '#7d9cc0'),
    ('.rough', 'stroke', '#a8672a', '#b98550'),
    ('.span.thin, .open.thin', 'fill', '#57789c', '#7d9cc0'),
    ('.dip', 'fill', '#b84a00', '#ffa657'),
    ('.dip, .dip-words', 'stroke', '#ffffff', '#0d1117'),
    ('text.dip-words', 'fill', '#a84300', '#ffb77a'),
    ('.band', 'fill', '#fbd3a4', '#5a3917'),
    ('.open-band', 'fill', 'url(#hatch)', 'url(#hatch)'),
    ('.hatch', 'stroke', '#bd8344', '#86602f'),
    ('.figure', 'stroke', '#b0702c', '#b98550'),
    ('.exact, .leader', 'stroke', '#b84a00', '#ffa657'),
    ('.looks', 'fill', '#57789c', '#7d9cc0'),
    ('.cross', 'stroke', '#b3202f', '#ff8a80'),
]

HATCH = '<defs><pattern id="hatch" width="9" height="9" patternUnits="userSpaceOnUse"><path d="M0 9L9 0" class="hatch"/></pattern></defs>\n'


def style():
    """The rules of all classes: by light, and the other colours in the dark."""
    light = ''.join(f'{name} {{ {kind}: {colour} }}\n' for name, kind, colour, _ in COLOURS)
    dark = ''.join(f'  {name} {{ {kind}: {colour} }}\n' for name, kind, _, colour in COLOURS)
    return f'{FIXED}{light}@media (prefers-color-scheme: dark) {{\n{dark}}}\n'


def step_of(span, most, steps):
    """The least of the steps that a span has no more than so many of."""
    return next(it for it in steps if span <= it * most)


def round_steps(of_values):
    """Round steps of an axis, rising: of values, which count in quarter decibels, 0.25, 0.5, 1, 2, 5, 10 dB and so on; of places 1, 2, 5, 10 and so on."""
    if of_values:
        yield from (1, 2)
    unit = 4 if of_values else 1
    while True:
        yield from (unit, 2 * unit, 5 * unit)
        unit *= 10


def shown_range(values):
    """From which value to which the plot goes: zero and all values, but for the few that are so far off that the others would look like one line."""
    least, greatest = min(values + [0]), max(values + [0])
    few = len(values) // 20
    most = sorted(values)[few:len(values) - few] + [0]
    near = max(max(most) - min(most), 8)
    if greatest - least > max(20 * near, 4000):
        values = [it for it in values if min(most) - near <= it <= max(most) + near]
        least, greatest = min(values + [0]), max(values + [0])
    span = max(greatest - least, 8)
    return least - span * 0.12, greatest + span * 0.08


class Plot:
    """Where places and values stand in the picture."""

    def __init__(self, first, last, values, top, labels=()):
        self.first, self.last = first, max(last, first)
        self.low, self.high = shown_range(values)
        self.step = step_of(self.high - self.low, 8, round_steps(of_values=True))
        self.ticks = range(-int(-self.low // self.step) * self.step, int(self.high) + 1, self.step)
        words = [value_words(it) for it in self.ticks] + list(labels)
        self.left = EDGE + 10 + max(width_of(it, SIZE) for it in words)
        self.top, self.bottom = top, top + PLOT_HEIGHT

    def x(self, place):
        return self.left + (place - self.first + 0.5) * self.unit()

    def unit(self):
        """How wide a place is."""
        return (RIGHT - self.left) / (self.last - self.first + 1)

    def y(self, value):
        """How high a value stands: one that is far off stands at the edge."""
        value = min(max(value, self.low), self.high)
        return self.top + (self.high - value) / (self.high - self.low) * PLOT_HEIGHT

    def is_far(self, value):
        return not self.low <= value <= self.high


def value_words(value):
    """A round value in decibels, without the decimals where they are zero."""
    return decibels(value).replace('.00 ', ' ').replace('.50 ', '.5 ')


def headed(heading, under):
    """The heading, and the line under it."""
    return [text(EDGE, 30, heading, 'heading'), text(EDGE, 50, under, 'quiet')]


def ground(plot):
    """Where values clip."""
    zero = plot.y(0)
    return [rect(plot.left, zero, RIGHT - plot.left, plot.bottom - zero, 'clipping')]


def grid(plot):
    """The lines of round values with these values, and the zero line with its name."""
    zero, parts = plot.y(0), []
    for value in plot.ticks:
        y = plot.y(value)
        parts.append(line(plot.left, y, RIGHT, y, 'zero' if value == 0 else 'grid'))
        parts.append(text(plot.left - 8, y + 4, value_words(value), 'strong' if value == 0 else 'quiet', 'end'))
    return parts + [text(RIGHT + 8, zero + 4, 'zero line', 'small strong'), text(RIGHT + 8, zero + 18, 'clipping', 'quiet')]


def places(plot, name, length):
    """The axis of places under the plot, with so many of them."""
    parts = []
    step = step_of(plot.last - plot.first + 1, (RIGHT - plot.left) // 70, round_steps(of_values=False))
    shown = [it for it in range(plot.first, plot.last + 1) if it % step == 0] if length else []
    if length and (not shown or plot.x(shown[0]) - plot.x(plot.first) > 40):
        shown.insert(0, plot.first)
    for place in shown:
        x = plot.x(place)
        parts.append(line(x, plot.bottom, x, plot.bottom + 5, 'block'))
        parts.append(text(x, plot.bottom + 18, str(place), 'quiet', 'middle'))
    parts.append(line(plot.left, plot.bottom, RIGHT, plot.bottom, 'block'))
    if not length:
        parts.append(text((plot.left + RIGHT) / 2, plot.top + 60, 'no values', 'quiet', 'middle'))
    parts.append(text(plot.left - 8, plot.bottom + 18, name, 'quiet', 'end'))
    return parts


def values_line(plot, values, first, kind='values'):
    """The line of the values from a place on; where there are few, each has a dot with its value, and those that are far off have an arrow at the edge."""
    spots = [(plot.x(at), plot.y(value)) for at, value in enumerate(values, start=first)]
    parts = [path(through(spots), kind)] if len(values) > 1 else []
    for (x, y), (at, value) in zip(spots, enumerate(values, start=first)):
        told = title(f'{at}: {decibels(value)}')
        if plot.is_far(value):
            down = 1 if value < 0 else -1
            parts.append(path(f'{through([(x - 5, y - 8 * down), (x + 5, y - 8 * down), (x, y)])}Z', 'far', told))
        elif plot.unit() >= 7:
            parts.append(circle(x, y, 2.5, 'sample', told))
    return parts


def beyond(plot, values, first):
    """The text below the plot that says which values are far off."""
    far = [f'{decibels(value)} at {at}' for at, value in enumerate(values, start=first) if plot.is_far(value)]
    return [Group('Values beyond the edge of the plot, where an arrow stands:', far)] if far else []


class Entry(NamedTuple):
    """What the legend says of a sign: how it is drawn, from a place of the picture on, how wide it is, and in words."""

    drawn: object
    width: float
    words: str


def legend(top, entries):
    """The signs in rows, and where the rows end."""
    parts, x, y = [], EDGE, top
    for it in entries:
        width = it.width + 6 + width_of(it.words, SMALL)
        if x > EDGE and x + width > WIDTH - EDGE:
            x, y = EDGE, y + 20
        parts += [it.drawn(x, y), text(x + it.width + 6, y + 4, it.words, 'small')]
        x += width + 14
    return parts, y + 12


class Room:
    """The boxes in a part of the picture that are taken, sorted by columns."""

    COLUMN = 64

    def __init__(self, left, top, right, bottom):
        self.left, self.top, self.right, self.bottom = left, top, right, bottom
        self.columns = {}

    def columns_of(self, box):
        return range(int(box[0] // self.COLUMN), int(box[2] // self.COLUMN) + 1)

    def take(self, box):
        for column in self.columns_of(box):
            self.columns.setdefault(column, []).append(box)

    def free(self, box):
        if box[0] < self.left or box[1] < self.top or box[2] > self.right or box[3] > self.bottom:
            return False
        return not any(box[0] < it[2] and it[0] < box[2] and box[1] < it[3] and it[1] < box[3]
                       for column in self.columns_of(box) for it in self.columns.get(column, ()))


class Dot(NamedTuple):
    """A least value at its place, and who was told it: each of these is shown when one points at it."""

    place: int
    value: int
    told: list


def boxes_beside(x, y, width, room):
    """Where words of this width may stand beside a dot: under it, over it, at its sides and its corners, and then a line farther off."""
    middle = min(max(x - width / 2, room.left), room.right - width)
    for left, base in [(middle, y + 18), (middle, y - 9), (x + 9, y + 4), (x - 9 - width, y + 4),
                       (x + 5, y + 17), (x - 5 - width, y + 17), (x + 5, y - 9), (x - 5 - width, y - 9),
                       (middle, y + 33), (x + 16, y + 30), (x - 16 - width, y + 30), (middle, y - 24), (x + 16, y - 21), (x - 16 - width, y - 21)]:
        yield left, base - 10, left + width, base + 3


def crosses_values(plot, values, first, box):
    """Whether the line of the values runs through a box."""
    start = max(int((box[0] - plot.left) / plot.unit()) + plot.first - 1 - first, 0)
    end = int((box[2] - plot.left) / plot.unit()) + plot.first + 2 - first
    part = values[start:max(end, 0)]
    return bool(part) and plot.y(max(part)) < box[3] and plot.y(min(part)) > box[1]


def leader(x, y, box):
    """A line from a dot to its words, where they stand farther off."""
    to_x, to_y = min(max(x, box[0]), box[2]), min(max(y, box[1]), box[3])
    return [line(x, y, to_x, to_y, 'leader')] if max(abs(to_x - x), abs(to_y - y)) > 12 else []


def dots_drawn(plot, dots, values, first, taken=(), poles=()):
    """The dots with their values beside them, the lowest first, and those dots that had no room for it. Some boxes are taken already, and the zero line is; where it can be, the words stand
    clear of the line of the values and of poles.
    """
    room = Room(plot.left + 3, plot.top + 2, RIGHT - 3, plot.bottom - 2)
    zero = plot.y(0)
    for box in [(plot.left, zero - 1, RIGHT, zero + 1), *taken]:
        room.take(box)
    leaders, parts, words, left_out = [], [], [], []
    for dot in dots:
        x, y = plot.x(dot.place), plot.y(dot.value)
        room.take((x - 6, y - 6, x + 6, y + 6))
        parts.append(circle(x, y, 5, 'dip', title(f'{decibels(dot.value)} at {dot.place}: ' + '; '.join(dot.told))))
    for dot in sorted(dots, key=lambda it: (it.value, it.place)):
        x, y, said = plot.x(dot.place), plot.y(dot.value), decibels(dot.value)
        boxes = (it for it in boxes_beside(x, y, width_of(said, SMALL) + 4, room) if room.free(it))
        box = min(boxes, key=lambda it: crosses_values(plot, values, first, it) + any(it[0] < pole < it[2] for pole in poles), default=None)
        if box is None:
            left_out.append(dot)
            continue
        room.take(box)
        leaders += leader(x, y, box)
        words.append(text(box[0] + 2, box[3] - 3, said, 'dip-words'))
    return leaders + parts + words, left_out


class Span(NamedTuple):
    """A span from a place to another: its class; what is written in it, the first of the words that fit or else of the names; and what is shown when one points at it. One that is open
    goes on.
    """

    first: int
    last: int
    kind: str
    words: list
    names: list
    told: str


def lanes_of(ends):
    """Of spans, sorted, with their ends in the picture: the lane of each, the first one that is free."""
    taken, found = [], []
    for start, end in ends:
        lane = next((at for at, it in enumerate(taken) if it + 0.5 <= start), len(taken))
        taken[lane:lane + 1] = [end]
        found.append(lane)
    return found


def span_drawn(it, start, end, y, height):
    kind = it.kind if height > 3 else f'{it.kind} thin'
    if it.kind == 'open':
        # An arrow's head says that it goes on.
        return path(f'M{start:.1f} {y}H{end:.1f}l5 {height / 2}l-5 {height / 2}H{start:.1f}Z', kind, title(it.told))
    return rect(start, y, end - start, height, kind, title(it.told))


def spans_drawn(plot, spans, top, most=10**9, half=0):
    """The spans in lanes from a height on, each with so much at both ends, but for those that find none of so many lanes; where the lanes end; and what was told of the spans that had no
    room for their words.
    """
    in_order, spans = spans, sorted(spans, key=lambda it: (it.first, it.last))
    ends = [(plot.x(it.first) - half, max(plot.x(it.last) + half - 1, plot.x(it.first) - half + 3)) for it in spans]
    lanes = lanes_of(ends)
    count = min(max(lanes, default=-1) + 1, most)
    pitch, height = (20, 16) if count <= 8 else (9, 6) if count <= 24 else (6, 3)
    parts, unsaid = [], set()
    for it, (start, end), lane in zip(spans, ends, lanes):
        y = top + lane * pitch
        words = longest_fitting(it.words + it.names, end - start - 8, SMALL) if height > SMALL else ''
        if lane < most:
            parts.append(span_drawn(it, start, end, y, height))
        if words:
            parts.append(text(start + 5, y + 12, words, 'small'))
        if words not in it.words:
            unsaid.add(it.told)
    return parts, top + count * pitch, [it.told for it in in_order if it.told in unsaid]


def cross(x, y, told=None):
    return path(f'M{x - 4:.1f} {y - 4:.1f}l8 8m0-8l-8 8', 'cross', *([title(told)] if told else []))


class Group(NamedTuple):
    """Text below the plot: a heading, and items, which a comma ends or another mark."""

    heading: str
    items: list
    mark: str = ','


def shortened(lines, most):
    """So many of the lines at most: where there are more, the last says how many more pieces there are."""
    if len(lines) <= most:
        return lines
    kept, left = lines[:most], sum(map(len, lines[most:]))
    while width_of(' '.join(kept[-1] + [f'.. and {left} more']), SIZE) > ROW:
        kept[-1].pop()
        left += 1
    kept[-1].append(f'.. and {left} more')
    return kept


def notes(top, groups, most=12):
    """The groups in lines below one another, and where they end. Of a group with more lines than so many the others are only counted."""
    parts, y = [], top
    for it in groups:
        lines = [(words, EDGE, 'strong') for words in wrapped(it.heading.split(), WIDTH - 2 * EDGE, SIZE)]
        pieces = [item + it.mark for item in it.items[:-1]] + it.items[-1:]
        lines += [(words, EDGE + 12, None) for words in shortened(wrapped(pieces, ROW, SIZE), most)]
        for words, x, kind in lines:
            parts.append(text(x, y, ' '.join(words), kind))
            y += 17
        y += 8
    return parts, y


def counted(count, one, many=None):
    return f'{count} {one if count == 1 else many or one + "s"}'


def few(items, most=20):
    """The first of the items, and how many there are more."""
    items = list(items)
    return ', '.join(items[:most]) + (f' and {len(items) - most} more' if len(items) > most else '')
