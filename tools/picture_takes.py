"""The picture of a stored take: its values as a line, and what each request was told: a search as a span and a dot, a stretch as a span, a rough reading as a band with the looks it took. A
long take is drawn from rough readings too: for each of its columns the exact least value, the band, and the looks.

All answers are those of `lookup`. The columns' requests go before those of the file, so that the index is then that of the take.
"""
from typing import NamedTuple, Optional

import takes
from chart import (HATCH, PLOT_HEIGHT, RIGHT, Dot, Entry, Group, Plot, Span, beyond, counted, cross, dots_drawn, few, grid, ground, headed, legend, notes, places, spans_drawn, style,
                   values_line)
from lines import four_bytes
from replies import REPLIES, decibels
from svg import circle, document, line, path, rect, text, title

LOOKS_HEIGHT = 36
MOST_LANES = 60
NOTHING_KNOWN = -2**31


class Reading(NamedTuple):
    """What a rough reading told: the looks it took, a high figure, which may be unknown, and a low one."""

    looks: int
    high: Optional[int]
    low: int

    def low_known(self):
        # The least value that there is means that nothing is known, but where the high figure is the same.
        return self.low != NOTHING_KNOWN or self.high == NOTHING_KNOWN

    def figures(self):
        """The figures that are known, each once."""
        return sorted({*([] if self.high is None else [self.high]), *([self.low] if self.low_known() else [])})

    def words(self):
        if self.high == self.low:
            return f'exactly {decibels(self.low)}'
        if self.high is None:
            return f'{decibels(self.low)} or more' if self.low_known() else 'nothing known'
        return f'{decibels(self.low)[:-3]} to {decibels(self.high)}' if self.low_known() else f'{decibels(self.high)} or less'


class Request(NamedTuple):
    """A request: its running number in the file, its name and numbers, and what `lookup` printed of it."""

    number: int
    name: str
    numbers: list
    said: list

    def __str__(self):
        return ' '.join([self.name, *map(str, self.numbers)])

    def named(self):
        return f'request {self.number} ({self})'

    def reply(self):
        """A stretch has no reply: it is empty where a search would get 14."""
        return int(self.said[0]) if self.name in ('search', 'rough') else 0

    def is_empty(self):
        return self.name == 'stretch' and self.said[0] == '0'

    def found(self):
        return int(self.said[1]), int(self.said[2])

    def reading(self):
        looks, high, low = self.said[1:]
        return Reading(int(looks), None if high == '-' else int(high), int(low))


def request(number, data, line):
    """The request of these bytes, and of what was printed of it."""
    name, bounds = next((name, bounds) for name, (kind, *bounds) in takes.REQUESTS.items() if kind == data[0])
    numbers = [int.from_bytes(data[at:at + 4], 'little', signed=bound[0] < 0) for at, bound in zip((1, 5, 9), bounds)]
    return Request(number, name, numbers, line.split()[2:])


class Column(NamedTuple):
    """A column of a long take: its first and last place."""

    first: int
    last: int

    def requests(self, budget):
        search, rough = (takes.REQUESTS[name][0] for name in ('search', 'rough'))
        return [bytes([kind]) + b''.join(map(four_bytes, [self.first, self.last, last])) for kind, last in ((search, 0), (rough, budget))]


def columns_of(take, most):
    """The columns of a take, so many at most: no more than it has values, and than there is room for beside its own requests."""
    length = len(take.values)
    count = min(most, length, (takes.MOST_BYTES - take.length()) // 26)
    return [Column(at * length // count, (at + 1) * length // count - 1) for at in range(count)]


class Told:
    """What the lines of `lookup` tell of a take: of its index, of its columns, a search and a reading each, and of its requests. Where no columns are asked for, they are None."""

    def __init__(self, values, own, lines, columns):
        self.values = values
        self.no_room = columns == [] and values != []
        columns = columns or []
        self.build = int(lines[0].split()[1])
        self.entries = len(lines[1].split()) - 1
        rest = lines[2:-1]
        given = [(it, *(request(0, data, line) for data, line in zip(it.requests(0), rest[2 * at:]))) for at, it in enumerate(columns)]
        self.columns = [it for it in given if it[1].reply() == 0]
        self.requests = [request(number, data, line) for number, (data, line) in enumerate(zip(own, rest[2 * len(columns):]), start=1)]
        self.refused = [it for it in self.requests if it.reply() != 0]
        self.empty = [it for it in self.requests if it.is_empty()]
        self.answered = [it for it in self.requests if it.reply() == 0 and not it.is_empty()]

    def named(self, name):
        return [it for it in self.answered if it.name == name]


def span_of(it):
    """The span of a request that was answered."""
    first, last = it.numbers[:2]
    if it.name == 'search':
        value, place = it.found()
        said, kind = f'{decibels(value)} at {place}', 'span'
    elif it.name == 'stretch':
        said, kind = counted(int(it.said[0]), 'value'), 'stretch'
    else:
        said, kind = f'{it.reading().words()}, {counted(it.reading().looks, "look")}', 'rough'
    return Span(first, last, kind, [f'{it}: {said}', f'{it.name}: {said}', said], [it.name], f'request {it.number}, {it}: {said}')


def dots_of(searches):
    """A dot for each place at which a search found a least value; searches that found the same have one dot."""
    found = {}
    for it in searches:
        value, place = it.found()
        found.setdefault((place, value), []).append(f'request {it.number}, {it}')
    return [Dot(place, value, told) for (place, value), told in sorted(found.items())]


def band(plot, it, reading, kind, told=None):
    """What a reading of a range knows: the band between both figures or, where one is not known, hatched up or down to the edge of the plot. A figure that is known has a line."""
    left, right = edges(plot, it)
    top = plot.top if reading.high is None else plot.y(reading.high)
    bottom = plot.y(reading.low) if reading.low_known() else plot.bottom
    known = reading.high is not None and reading.low_known()
    inside = [title(told)] if told else []
    # Over an altered index the low figure may be above the high one.
    parts = [rect(left, min(top, bottom), right - left, abs(bottom - top), kind if known else f'{kind} open-band', *inside)]
    for figure in reading.figures():
        if not plot.is_far(figure):
            parts.append(line(left, plot.y(figure), right, plot.y(figure), 'figure'))
    return parts


def edges(plot, it):
    """Where a column begins and ends in the picture."""
    return plot.x(it.first) - plot.unit() / 2, plot.x(it.last) + plot.unit() / 2


def bands(plot, told):
    """The bands of the columns."""
    return [part for it, _, rough in told.columns for part in band(plot, it, rough.reading(), 'band')]


def leasts(plot, told):
    """The exact least value of each column as a line with steps, and what both requests told of it, shown when one points at it."""
    steps, parts = '', []
    for it, search, rough in told.columns:
        (left, right), (value, place), reading = edges(plot, it), search.found(), rough.reading()
        steps += f'{"V" if steps else f"M{left:.1f} "}{plot.y(value):.1f}H{right:.1f}'
        words = f'{it.first} to {it.last}: least value {decibels(value)} at {place}; rough reading {reading.words()}, {counted(reading.looks, "look")}'
        parts.append(rect(left, plot.top, right - left, PLOT_HEIGHT, 'column', title(words)))
    return [path(steps, 'exact'), *parts] if steps else []


def steps_taken(plot, told):
    """Boxes along the steps of the columns: words close to a step would read as if a minus stood before them."""
    before = None
    for it, search, _ in told.columns:
        (left, right), y = edges(plot, it), plot.y(search.found()[0])
        yield left - 6, y - 2, right + 6, y + 2
        if before is not None:
            yield left - 1, min(before, y), left + 1, max(before, y)
        before = y


def looks_drawn(plot, told, budget, top):
    """A bar for each column, as high as the looks that were used, with an axis from 0 to the budget, or to the most that were used where the budget is far above."""
    used = [(it, rough.reading().looks) for it, _, rough in told.columns]
    most = max(looks for _, looks in used)
    end = max(budget if budget <= 2 * most else most, 1)
    foot = top + LOOKS_HEIGHT
    parts = [text(plot.left - 8, top + LOOKS_HEIGHT / 2 + 4, 'looks', 'quiet', 'end')]
    for it, looks in used:
        left, right = edges(plot, it)
        height = LOOKS_HEIGHT * looks / end
        gap = 1 if right - left > 4 else 0
        parts.append(rect(left, foot - height, right - left - gap, height, 'looks', title(f'{it.first} to {it.last}: {counted(looks, "look")}')))
    for y, words in ((top, end), (foot, 0)):
        parts.append(line(plot.left, y, RIGHT, y, 'grid' if words else 'block'))
        parts.append(text(RIGHT + 8, y + 4, str(words), 'quiet'))
    return parts, foot + 20


def blocks(plot, length):
    """A tick at the beginning of each block."""
    starts = [plot.x(at) - plot.unit() / 2 for at in range(takes.BLOCK, length, takes.BLOCK)]
    return [line(x, plot.bottom - 6, x, plot.bottom, 'block') for x in starts]


def crosses(plot, told, y):
    """A cross for each refused request and each empty stretch, at the first place of its range or, where that lies beyond the take, at the end."""
    found = {}
    for it in told.refused + told.empty:
        why = 'empty, as the range does not lie inside the take' if it.is_empty() else f'refused with {it.reply()}: {": ".join(REPLIES[it.reply()])}'
        found.setdefault(min(it.numbers[0], plot.last), []).append(f'{it.named()}, {why}')
    return [text(plot.left - 8, y + 4, 'refused', 'quiet', 'end'), *(cross(plot.x(at), y, '\n'.join(words)) for at, words in found.items())]


def signs(told, dots):
    """What the legend has: the signs that are in this picture."""
    of_columns, own = [rough.reading() for _, _, rough in told.columns], [it.reading() for it in told.named('rough')]
    yield Entry(lambda x, y: line(x, y, x + 18, y, 'faint' if told.columns else 'values'), 18, 'values')
    if told.columns:
        yield Entry(lambda x, y: path(f'M{x} {y + 3}h9v-6h9', 'exact'), 18, 'least value of each column')
    if any(len(it.figures()) == 2 for it in of_columns):
        yield Entry(lambda x, y: rect(x, y - 5, 18, 10, 'band'), 18, 'where a rough reading puts it')
    if own:
        yield Entry(lambda x, y: rect(x, y - 5, 18, 10, 'rough'), 18, 'rough reading: the least lies in here')
    if any(it.high is None or not it.low_known() for it in of_columns + own):
        yield Entry(lambda x, y: rect(x, y - 5, 18, 10, 'open-band'), 18, 'a figure is not known')
    if told.named('search'):
        yield Entry(lambda x, y: rect(x, y - 5, 18, 10, 'span'), 18, 'search')
    if told.named('stretch'):
        yield Entry(lambda x, y: rect(x, y - 5, 18, 10, 'stretch'), 18, 'stretch')
    if dots:
        yield Entry(lambda x, y: circle(x + 5, y, 5, 'dip'), 10, 'least value that a search found')
    if told.refused or told.empty:
        yield Entry(lambda x, y: cross(x + 4, y), 8, 'refused request or empty stretch' if told.empty else 'refused request')
    if len(told.values) > takes.BLOCK:
        yield Entry(lambda x, y: line(x, y - 3, x, y + 3, 'block') + line(x + 16, y - 3, x + 16, y + 3, 'block'), 16, f'block of {takes.BLOCK}')


def groups(told, left_out, unsaid):
    """The text below the plot: what had no room beside its sign, the index, and refused requests by their replies."""
    if left_out:
        yield Group('Least values that had no room beside their dots:', [f'{decibels(it.value)} at {it.place}' for it in left_out])
    if unsaid:
        yield Group('What was told, where there was no room in a span:', unsaid, ';')
    if told.no_room:
        yield Group(f'There are no columns: the program reads {takes.MOST_BYTES} bytes, and the requests leave no room for more.', [])
    if told.build != 0:
        of_take = counted(-(-len(told.values) // takes.BLOCK), 'block')
        yield Group(f'Building is refused with {told.build}: the index has {counted(told.entries, "entry", "entries")}, and the take has {of_take}.', [])
    altered = [it for it in told.named('set') if it.numbers[0] < told.entries]
    if altered:
        yield Group('The index was altered, so that later searches and readings need not be right of the take:', [it.named() for it in altered])
    missing = [it for it in told.named('set') if it.numbers[0] >= told.entries]
    if missing:
        yield Group('The index has no such entry, and was not altered:', [it.named() for it in missing])
    for reply in sorted({it.reply() for it in told.refused}):
        yield Group(f'Refused with {reply} ({": ".join(REPLIES[reply])}):', [it.named() for it in told.refused if it.reply() == reply])
    if told.empty:
        yield Group('Empty stretches, as the range does not lie inside the take:', [it.named() for it in told.empty])


def in_words(told, dots, budget):
    """What the picture shows, for those who do not see it."""
    parts = [f'A line of {counted(len(told.values), "value")} of headroom in decibels over the places of the take, with the zero line; below it lies clipping.']
    if told.columns:
        parts.append(f'In {counted(len(told.columns), "column")} the exact least value, and the band of a rough reading with a budget of {counted(budget, "look")}.')
    if dots:
        parts.append(f'Least values that searches found: {few(f"{decibels(it.value)} at {it.place}" for it in dots)}.')
    for name in ('stretch', 'rough'):
        if told.named(name):
            parts.append(f'{name}: {few(span_of(it).told for it in told.named(name))}.')
    if told.refused:
        parts.append(f'Refused: {few(f"{it.named()} with {it.reply()}" for it in told.refused)}.')
    return ' '.join(parts)


def under(told, budget):
    """The line under the heading."""
    said = f'index of {counted(told.entries, "entry", "entries")}'
    if told.requests:
        said += f'; {counted(len(told.requests), "request")}, {len(told.refused)} refused'
    if told.columns:
        looks = sum(rough.reading().looks for _, _, rough in told.columns)
        said += f'; {counted(len(told.columns), "column, with", "columns, each with")} a rough reading of {counted(budget, "look")} at most: {counted(looks, "look")} in all'
    return said


def plot_drawn(plot, told, dots):
    """All that stands in the plot, and the dots that had no room for their values. Own rough readings lie behind all, those of columns before the line of the values."""
    parts = ground(plot)
    for it in told.named('rough'):
        parts += band(plot, Column(*it.numbers[:2]), it.reading(), 'rough', span_of(it).told)
    if told.columns:
        parts += [*values_line(plot, told.values, 0, 'faint'), *bands(plot, told), *grid(plot), *leasts(plot, told)]
    else:
        parts += [*grid(plot), *values_line(plot, told.values, 0)]
    drawn, left_out = dots_drawn(plot, dots, told.values, 0, steps_taken(plot, told))
    return [*parts, *drawn, *blocks(plot, len(told.values)), *places(plot, 'place', len(told.values))], left_out


def rows_below(plot, told, budget):
    """The rows under the plot: looks, refused requests, and spans; where they end, and what was told of spans without room for it."""
    parts, y, unsaid = [], plot.bottom + 38, []
    if told.columns:
        drawn, y = looks_drawn(plot, told, budget, y - 8)
        parts += drawn
    if told.refused or told.empty:
        parts += crosses(plot, told, y)
        y += 16
    spans = [span_of(it) for it in told.answered if it.name != 'set']
    if spans:
        parts.append(text(plot.left - 8, y + 12, 'requests', 'quiet', 'end'))
        drawn, y, unsaid = spans_drawn(plot, spans, y, MOST_LANES, plot.unit() / 2)
        parts += drawn
        y += 10
    return parts, y, unsaid


def take_drawn(values, own, lines, columns, budget):
    """The picture of a take, its own requests, and its columns, for which `lookup` has printed these lines."""
    told = Told(values, own, lines, columns)
    dots = dots_of(told.named('search'))
    heading = f'A take of {counted(len(values), "value")}'
    signs_drawn, y = legend(70, signs(told, dots))
    figures = [figure for it in told.named('rough') for figure in it.reading().figures()]
    plot = Plot(0, len(values) - 1, values + figures + [it.value for it in dots], y + 8, ['refused', 'requests'])
    in_plot, left_out = plot_drawn(plot, told, dots)
    rows, y, unsaid = rows_below(plot, told, budget)
    noted, y = notes(y + 14, [*beyond(plot, values, 0), *groups(told, left_out, unsaid)])
    return document(y + 4, heading, in_words(told, dots, budget), style(), [HATCH, *headed(heading, under(told, budget)), *signs_drawn, *in_plot, *rows, *noted])
