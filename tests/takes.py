#!/usr/bin/env python3
"""Whether an output is one that `lookup` may print for some bytes, worked out by brute force from document 02, points 3, 5 and 6, and the program's description (at the head of
crates/listing/specs/Output.antt) alone: run `python3 tests/takes.py BYTES OUTPUT`.

Every search and stretch looks at its range of the take, value by value; blocks are made for the index and for rough readings alone. All looks of a rough reading are listed, and the first so
many are used. Nothing here is taken from the crates' code. All that is printed is fixed but for the value and place of a search over an index that is not the take's, since entries were
altered: there any value of 32 bits, and a place of the range, are right. A rough reading is fixed over such an index, too. Run with BYTES alone it writes the output that is stored, where such
a search shows what docs/DECISIONS.md, 50, says of ours.

  python3 tests/takes.py crates/lookup/stdin crates/lookup/stdout
  python3 tests/takes.py crates/lookup/stdin > crates/lookup/stdout

tests/lookup.txt has the take and the requests of crates/lookup/stdin; three bytes stand behind them. tests/takes has further runs, each as NAME.bytes and NAME.out, and NAME.txt where
tools/takes.py can write its bytes: takes of 64, 65, 128 and 129 values, with ranges inside one block, of one value, of exactly one block, across blocks and to the end of the shorter last
one; ties across blocks and edges; both ends of the values' range; an empty take, alone and beside an index; an index that is too short or too long; entries that were altered; 8,192 values and
one more; 256 entries and one more; bytes that end at each place up to the first request (header_00 to header_12); the kinds 00 and 05; one to twelve bytes left; the longest lines; more than
65,536 bytes, where the last request is cut off and where the last one ends there; and rough readings: of the values 1000 to 1199, over ranges of each sort, with budgets around the number of
entries and the full count (rough), over altered entries, and refused with 14 and with 15. tests/lookup.py makes long runs.
"""
import re
import sys

BYTES_READ = 65536
MOST_VALUES = 8192
MOST_ENTRIES = 256
BLOCK = 64
REQUEST = 13
LEAST = -2**31


class Shown:
    """A line that shows some value and a place of a range: the program's own choice, and what it chose."""

    def __init__(self, start, first, last, chosen):
        self.start = start
        self.first = first
        self.last = last
        self.chosen = '{} {} {}'.format(start, *chosen)

    def allows(self, line):
        found = re.fullmatch(re.escape(self.start) + r' (-[1-9][0-9]*|0|[1-9][0-9]*) (0|[1-9][0-9]*)', line)
        return bool(found) and -2**31 <= int(found[1]) < 2**31 and self.first <= int(found[2]) <= self.last

    def __str__(self):
        return f'{self.start}, a value, and a place from {self.first} to {self.last}'


def blocks(values):
    """The values in blocks: "the last block perhaps shorter"."""
    return [values[at:at + BLOCK] for at in range(0, len(values), BLOCK)]


def least(values, i, j):
    """The least value from i to j, both included, and its earliest place there."""
    part = values[i:j + 1]
    value = min(part)
    return value, i + part.index(value)


def chosen(values, index, i, j):
    """What our search shows, whatever the index holds: the first least of the entries of the blocks wholly inside and of the other values; an entry stands at the first place in its block where
    that value is, and at the block's first place where none is."""
    inside = [b for b in range(len(index)) if i <= BLOCK * b and min(BLOCK * b + BLOCK, len(values)) <= j + 1]
    found = [(values[k], k) for k in range(i, j + 1) if k // BLOCK not in inside]
    for b in inside:
        block = blocks(values)[b]
        found.append((index[b], BLOCK * b + (block.index(index[b]) if index[b] in block else 0)))
    return min(found)


def outside(values, i, j):
    """Whether "i exceeds j or j is not below the take's length"."""
    return i > j or j >= len(values)


def looks(n, i, j):
    """What is looked at, of n values and for the range from i to j, each in its order: "the index entry of every block that meets the range", then "the range's values in blocks only partly
    inside", by their offsets; and the blocks wholly inside."""
    offsets = blocks(range(n))
    met = [b for b, block in enumerate(offsets) if block[0] <= j and i <= block[-1]]
    inside = [b for b in met if i <= offsets[b][0] and offsets[b][-1] <= j]
    edges = [k for b in met if b not in inside for k in offsets[b] if i <= k <= j]
    return met, edges, inside


def rough(values, index, i, j, budget):
    """The looks used of a budget, the high figure, which may be None, and the low one, whatever the index holds."""
    met, edges, inside = looks(len(values), i, j)
    # What each look reads, and whether that is a known value inside the range.
    read = [(index[b], b in inside) for b in met] + [(values[k], True) for k in edges]
    used = read[:budget]
    high = min((v for v, known in used if known), default=None)
    if len(used) < len(met):
        low = LEAST
    elif len(used) < len(read):
        low = min(index[b] for b in met)
    else:
        low = high
    return len(used), high, low


def lines(stream):
    """The lines for a stream of bytes: each as a text, or as what it may show."""
    stream = stream[:BYTES_READ]

    def number(at, signed=False):
        return int.from_bytes(stream[at:at + 4], 'little', signed=signed)

    start = 8 + 4 * number(0)
    if len(stream) < 4 or number(0) > MOST_VALUES or len(stream) < start or number(start - 4) > MOST_ENTRIES:
        yield 'no take'
        return
    values = [number(at, signed=True) for at in range(4, start - 4, 4)]
    index = [-1] * number(start - 4)
    own = [min(block) for block in blocks(values)]
    reply = 0 if len(index) == len(own) else 15
    if reply == 0:
        index = list(own)
    yield f'build {reply}'
    yield ' '.join(['index', *map(str, index)])
    read = 0
    at = start
    while at + REQUEST <= len(stream) and stream[at] in (1, 2, 3, 4):
        kind, a, b, c = stream[at], number(at + 1), number(at + 5), number(at + 9)
        at += REQUEST
        read += 1
        if kind == 1:
            if len(index) != len(own):
                yield f'{read} search 15'
            elif outside(values, a, b):
                yield f'{read} search 14'
            elif index == own:
                yield '{} search 0 {} {}'.format(read, *least(values, a, b))
            else:
                yield Shown(f'{read} search 0', a, b, chosen(values, index, a, b))
        elif kind == 2:
            part = [] if outside(values, a, b) else values[a:b + 1]
            yield ' '.join(map(str, [read, 'stretch', len(part), *([part[0], part[-1]] if part else [])]))
        elif kind == 3:
            if len(index) != len(own):
                told = 15, 0, None, None
            elif outside(values, a, b):
                told = 14, 0, None, None
            else:
                told = 0, *rough(values, index, a, b, c)
            yield ' '.join([str(read), 'rough', *('-' if n is None else str(n) for n in told)])
        else:
            if a < len(index):
                index[a] = number(at - 8, signed=True)
            yield f'{read} set'
    if at < len(stream):
        yield f'stop {at}'
    yield f'end {read}'


def difference(stream, output):
    """The first line that is not right, and what is due there; None where all are."""
    if output and not output.endswith('\n'):
        return 'the last line has no end'
    said = output.split('\n')[:-1]
    due = list(lines(stream))
    for at, (line, right) in enumerate(zip(said, due), start=1):
        if not (right.allows(line) if isinstance(right, Shown) else line == right):
            return f'line {at} is {line!r}, and not {right}'
    if len(said) != len(due):
        return f'there are {len(said)} lines, and not {len(due)}'
    return None


def main(name, output=None):
    with open(name, 'rb') as f:
        stream = f.read()
    if output is None:
        for line in lines(stream):
            print(line.chosen if isinstance(line, Shown) else line)
        return 0
    with open(output, encoding='ascii', newline='') as said:
        wrong = difference(stream, said.read())
    if wrong:
        print(f'{output}: {wrong}', file=sys.stderr)
    return 1 if wrong else 0


if __name__ == '__main__':
    if len(sys.argv) not in (2, 3):
        sys.exit('usage: python3 tests/takes.py BYTES [OUTPUT]')
    sys.exit(main(*sys.argv[1:]))
