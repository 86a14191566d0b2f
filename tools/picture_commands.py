"""The picture of a stream of commands: the values as a line, the marks as flags, each layer's span until its Close, what the Queries told as dots, and the refused commands.

All answers are those of the stream program; here they are only told apart.
"""
from typing import NamedTuple, Optional

from chart import (RIGHT, SMALL, Dot, Entry, Group, Plot, Span, beyond, counted, cross, dots_drawn, few, grid, ground, headed, legend, notes, places, spans_drawn, style, values_line)
from replies import REPLIES, decibels, refused
from svg import circle, document, line, path, rect, text, title, width_of


# With no more marks than these the pole of each flag goes through the whole plot.
MOST_POLES = 40


class Answer(NamedTuple):
    """What a Query told: the command's running number, the present position, the least value and its place."""

    number: int
    present: int
    value: int
    place: int


class Layer:
    """A layer: the position of its mark, that of its Close if there was one, the running numbers of both commands, and what was told of it."""

    def __init__(self, position, marked_by):
        self.position, self.marked_by = position, marked_by
        self.closed: Optional[int] = None
        self.closed_by: Optional[int] = None
        self.answers = []


class Refusal(NamedTuple):
    """A refused command: its running number, the command, the reply, the present position, and why it was refused."""

    number: int
    command: str
    reply: int
    present: int
    why: str


class Told:
    """What the lines of the stream program tell of the commands."""

    def __init__(self, commands, lines):
        self.values, self.layers, self.refusals = [], [], []
        self.active = {}
        self.room = int(lines[0].split()[1])
        self.counts = lines[-1].split()[1:]
        for number, (it, said) in enumerate(zip(commands, lines[1:]), start=1):
            reply, *least = map(int, said.split()[2:])
            if reply != 0:
                why = refused(reply, it.argument, len(self.values), self.room)
                self.refusals.append(Refusal(number, str(it), reply, len(self.values), why))
            else:
                self.accepted(number, it, least)

    def accepted(self, number, it, least):
        present = len(self.values)
        if it.letter == 'V':
            self.values.append(it.argument)
        elif it.letter == 'M':
            self.active[present] = Layer(present, number)
            self.layers.append(self.active[present])
        elif it.letter == 'Q':
            self.active[it.argument].answers.append(Answer(number, present, *least))
        else:
            layer = self.active.pop(it.argument)
            layer.closed, layer.closed_by = present, number


def dots_of(layers):
    """A dot for each place at which a Query told a least value; Queries that were told the same have one dot."""
    found = {}
    for layer in layers:
        for it in layer.answers:
            found.setdefault((it.place, it.value), []).append(f'command {it.number}, Query of the layer since {layer.position}, at {it.present}')
    return [Dot(place, value, told) for (place, value), told in sorted(found.items())]


def span_of(layer, end):
    """The span of a layer, which ends with it or, where it is open, goes on."""
    since = f'since {layer.position}'
    until = ', open' if layer.closed is None else f', closed at {layer.closed}'
    least = f'{decibels(layer.answers[-1].value)} at {layer.answers[-1].place}' if layer.answers else ''
    told = ''.join(f'; command {it.number} told {decibels(it.value)} at {it.place}' for it in layer.answers)
    by = f' by command {layer.closed_by}' if layer.closed_by else ' at the end'
    words = [f'layer {since}{until}, least {least}', f'layer {since}, least {least}', f'{since}: {least}', f'{layer.position}: {least}', least] if least else []
    return Span(layer.position, end if layer.closed is None else layer.closed, 'open' if layer.closed is None else 'span',
                words, [f'layer {since}{until}', f'{since}{until}', since, str(layer.position)], f'layer {since}{until}{by}{told}')


def flags(plot, layers):
    """A flag at each mark, with its position where there is room for it."""
    parts, words, end = [], [], 0
    top = plot.top - 14
    foot = plot.bottom if len(layers) <= MOST_POLES else plot.top
    for it in layers:
        x = plot.x(it.position)
        parts.append(line(x, top, x, foot, 'pole'))
        parts.append(path(f'M{x:.1f} {top:.1f}l9 4.5l-9 4.5Z', 'flag', title(f'mark at {it.position}, command {it.marked_by}')))
        width = width_of(str(it.position), SMALL)
        if x - 2 > end and x + width < RIGHT + 60:
            words.append(text(x - 1, top - 4, str(it.position), 'flag-words'))
            end = x + width + 4
    return parts + words


def crosses(plot, refusals, y):
    """A cross where commands were refused, and what they were."""
    found = {}
    for it in refusals:
        found.setdefault(it.present, []).append(f'command {it.number}, {it.command}, refused with {it.reply}: {it.why}')
    return [text(plot.left - 8, y + 4, 'refused', 'quiet', 'end'), *(cross(plot.x(at), y, '\n'.join(told)) for at, told in found.items())]


def signs(told, dots):
    """What the legend has: the signs that are in this picture."""
    yield Entry(lambda x, y: line(x, y, x + 18, y, 'values'), 18, 'headroom')
    if told.layers:
        yield Entry(lambda x, y: line(x + 2, y - 7, x + 2, y + 6, 'pole') + path(f'M{x + 2} {y - 7}l9 4.5l-9 4.5Z', 'flag'), 11, 'mark')
    if any(it.closed is not None for it in told.layers):
        yield Entry(lambda x, y: rect(x, y - 5, 22, 10, 'span'), 22, 'layer until its Close')
    if any(it.closed is None for it in told.layers):
        yield Entry(lambda x, y: path(f'M{x} {y - 5}h18l5 5l-5 5h-18Z', 'open'), 23, 'open layer')
    if dots:
        yield Entry(lambda x, y: circle(x + 5, y, 5, 'dip'), 10, 'least value that a Query told')
    if told.refusals:
        yield Entry(lambda x, y: cross(x + 4, y), 8, 'refused command')


def groups(told, left_out):
    """The text below the plot: least values that had no room beside their dots, and refused commands by their replies."""
    if left_out:
        yield Group('Least values that had no room beside their dots:', [f'{decibels(it.value)} at {it.place}' for it in left_out])
    for reply in sorted({it.reply for it in told.refusals}):
        those = [it for it in told.refusals if it.reply == reply]
        yield Group(f'Refused with {reply} ({": ".join(REPLIES[reply])}):', [f'command {it.number} ({it.command}) at {it.present}' for it in those])


def in_words(told, dots):
    """What the picture shows, for those who do not see it."""
    open_ones = [it.position for it in told.layers if it.closed is None]
    parts = [f'A line of {counted(len(told.values), "value")} of headroom in decibels over the positions, with the zero line; below it lies clipping.']
    if told.layers:
        parts.append(f'{counted(len(told.layers), "mark")}: {few(str(it.position) for it in told.layers)}.')
        parts.append(f'{counted(len(open_ones), "layer is", "layers are")} open at the end{": since " + few(map(str, open_ones)) if open_ones else ""}.')
    if dots:
        parts.append(f'Least values that Queries told: {few(f"{decibels(it.value)} at {it.place}" for it in dots)}.')
    if told.refusals:
        parts.append(f'Refused: {few(f"command {it.number} ({it.command}) with {it.reply}" for it in told.refusals)}.')
    return ' '.join(parts)


def plot_drawn(plot, told, dots):
    """All that stands in the plot and over it, and the dots that had no room for their values."""
    poles = [plot.x(it.position) for it in told.layers] if len(told.layers) <= MOST_POLES else []
    drawn, left_out = dots_drawn(plot, dots, told.values, 1, poles=poles)
    return [*ground(plot), *grid(plot), *places(plot, 'position', len(told.values)), *flags(plot, told.layers), *values_line(plot, told.values, 1), *drawn], left_out


def rows_below(plot, told):
    """The rows under the plot, refused commands and layers, and where they end."""
    parts, y = [], plot.bottom + 38
    if told.refusals:
        parts += crosses(plot, told.refusals, y)
        y += 16
    if told.layers:
        parts.append(text(plot.left - 8, y + 12, 'layers', 'quiet', 'end'))
        drawn, y, _ = spans_drawn(plot, [span_of(it, len(told.values)) for it in told.layers], y)
        parts += drawn
        y += 10
    return parts, y


def commands_drawn(commands, lines):
    """The picture of these commands, of which the stream program has printed these lines."""
    told = Told(commands, lines)
    dots = dots_of(told.layers)
    heading = f'Headroom over {counted(len(told.values), "value")}' + (f' and {counted(len(told.layers), "layer")}' if told.layers else '')
    read, accepted, active = told.counts
    under = f'{counted(int(read), "command")}, {accepted} accepted, {len(told.refusals)} refused; {counted(int(active), "mark is", "marks are")} active at the end'
    signs_drawn, y = legend(70, signs(told, dots))
    first = 0 if any(it.present == 0 for it in told.refusals) else 1
    plot = Plot(first, len(told.values), told.values, y + (32 if told.layers else 8), ['refused', 'layers'])
    in_plot, left_out = plot_drawn(plot, told, dots)
    rows, y = rows_below(plot, told)
    noted, y = notes(y + 14, [*beyond(plot, told.values, 1), *groups(told, left_out)])
    return document(y + 4, heading, in_words(told, dots), style(), [*headed(heading, under), *signs_drawn, *in_plot, *rows, *noted])
