#!/usr/bin/env python3
"""What the C programs on stored takes print, worked out from document 02, points 3, 5 and 6, by looking through the values of each range. Nothing here is taken from the crates.

  python3 tests/takes_c.py takes | diff - tests/firmware/takes.out
  python3 tests/takes_c.py long  | diff - tests/firmware/long.out
"""
import sys

NOTHING = (0, 0)
KINDS = range(6)


def noises():
    noise = 1
    while True:
        noise = (noise * 1664525 + 1013904223) % 2**32
        yield noise // 2**16


def value(kind, i, noise):
    """Many values; few; one; rising; falling; and both ends of the range."""
    return [noise % 301 - 100, noise % 3, 12, i, -i, (-2**31, 0, 2**31 - 1)[noise % 3]][kind]


def taken(kind, length):
    return [value(kind, i, noise) for i, noise in zip(range(length), noises())]


def blocks(take):
    """The values of each block of 64, the last perhaps shorter."""
    return [take[i:i + 64] for i in range(0, len(take), 64)]


def built(take, entries):
    """The number of the reply, and the index then: None where it stays as it was."""
    if entries != len(blocks(take)):
        return 15, None
    return 0, [min(block) for block in blocks(take)]


def searched(take, entries, i, j):
    """The number of the reply, and what it shows over an index that was built from the take."""
    if entries != len(blocks(take)):
        return 15, NOTHING
    if i > j or j >= len(take):
        return 14, NOTHING
    least = min(take[i:j + 1])
    return 0, (least, min(k for k in range(i, j + 1) if take[k] == least))


LEAST = -2**31


def looks(take, i, j):
    """The looks at a range, in their order: ('entry', block) and ('value', place)."""
    ends = [(64 * b, min(64 * b + 64, len(take)) - 1) for b in range(len(blocks(take)))]
    partly = [b for b, (first, last) in enumerate(ends) if first < i or j < last]
    met = [b for b, (first, last) in enumerate(ends) if first <= j and i <= last]
    return [('entry', b, b not in partly) for b in met] + [('value', k, True) for k in range(i, j + 1) if k // 64 in partly]


def read(take, index, i, j, budget):
    """Looks, number, known, high and low of a rough reading, over any index."""
    if len(index) != len(blocks(take)):
        return 0, 15, 0, 0, 0
    if i > j or j >= len(take):
        return 0, 14, 0, 0, 0
    every = looks(take, i, j)
    used = every[:budget]
    seen = [((index if what == 'entry' else take)[at], what, inside) for what, at, inside in used]
    known = [v for v, what, inside in seen if inside]
    entries = [v for v, what, inside in seen if what == 'entry']
    if len(used) == len(every):
        low = min(known)
    elif len(entries) == sum(what == 'entry' for what, at, inside in every):
        low = min(entries)
    else:
        low = LEAST
    return len(used), 0, int(bool(known)), min(known, default=0), low


def line(number, shown):
    return f'{number} {shown[0]} {shown[1]}'


class Sum:
    """Many numbers in one (FNV-1a, over whole numbers)."""

    def __init__(self):
        self.sum = 0xcbf29ce484222325

    def add(self, *numbers):
        for number in numbers:
            self.sum = (self.sum ^ number) * 0x100000001b3 % 2**64

    def __str__(self):
        return f'{self.sum:016x}'


def example():
    take = taken(0, 1000)
    yield 'a take of 1000'
    yield str(built(take, 16)[0])
    for i, j in (0, 999), (100, 699), (130, 140), (7, 7), (0, 1000):
        yield line(*searched(take, 16, i, j))
    for budget in 3, 10, 2**64 - 1:
        yield reading(take, built(take, 16)[1], 100, 699, budget)


def reading(take, index, i, j, budget):
    return ' '.join(map(str, read(take, index, i, j, budget)))


def ranges(kind, length, every):
    take = taken(kind, length)
    at = [i for i in range(length) if every or (i + 1) % 64 <= 2]
    count = len(blocks(take))
    number, index = built(take, count)
    entries, found, searches = Sum(), Sum(), 0
    entries.add(*(entry % 2**32 for entry in index))
    for n, i in enumerate(at):
        # the least from i on, with its earliest place, one value after another
        place, last = i, i
        for j in at[n:]:
            for k in range(last, j + 1):
                if take[k] < take[place]:
                    place = k
            last = j + 1
            found.add(0, take[place] % 2**32, place)
            searches += 1
    yield f'kind {kind}, {length} values: {number}, {count} blocks {entries}, {searches} ranges {found}'


def every_range():
    for length in 0, 1, 2, 63, 64, 65, 127, 128, 129, 200, 260:
        for kind in KINDS:
            yield from ranges(kind, length, True)
    for kind in 0, 1:
        yield from ranges(kind, 4100, False)


def readings(kind, length, of_index, own):
    values = [noise for noise, _ in zip(noises(), range(length + (length + 63) // 64))]
    take = [value(kind, i, noise) for i, noise in enumerate(values[:length])]
    index = built(take, len(blocks(take)))[1] if own else [value(of_index, i, noise) for i, noise in enumerate(values[length:])]
    at = [i for i in range(length) if (i + 2) % 64 <= 3]
    found, count = Sum(), 0
    for i in at:
        for j in at:
            if i <= j:
                for budget in *range(len(index) + 130), 2**64 - 1:
                    used, number, known, high, low = read(take, index, i, j, budget)
                    found.add(used, number, known, high % 2**32, low % 2**32)
                    count += 1
    yield 'kind {}, {} values, {}: {} readings {}'.format(kind, length, 'their index' if own else 'another index', count, found)


def every_reading():
    take = taken(3, 200)
    number, index = built(take, 4)
    yield f'a take of 0 to 199: {number}'
    for budget in range(82):
        yield reading(take, index, 10, 150, budget)
    for length in 1, 2, 64, 65, 129, 200:
        for kind in KINDS:
            yield from readings(kind, length, 5 - kind, True)
            yield from readings(kind, length, 5 - kind, False)


def no_ranges():
    take = taken(0, 129)
    index = built(take, 3)[1]
    at = [0, 1, 64, 127, 128, 129, 130, 2**32 - 1, 2**32, 2**32 + 64, 2**58, 2**58 + 1, 2**63 - 1, 2**63, 2**63 + 64, 2**64 - 2, 2**64 - 1]
    yield f'a take of 129: {built(take, 3)[0]}'
    for n, i in enumerate(at):
        for m, j in enumerate(at):
            yield f'{i} to {j}: ' + line(*searched(take, 3, i, j))
            yield reading(take, index, i, j, at[(n + m) % len(at)])


def other_lengths():
    for length in 0, 1, 63, 64, 65, 128, 129, 192:
        take = taken(0, length)
        for entries in range(5):
            yield f'{length} values, {entries} entries: {built(take, entries)[0]}'
            for i, j in (0, 0), (1, 0), (0, length):
                yield line(*searched(take, entries, i, j))
            index = built(take, entries)[1] or [0] * entries
            for i, j, budget in (0, 0, 0), (0, 0, 1), (1, 0, 0), (0, length, 2**64 - 1):
                yield reading(take, index, i, j, budget)
    yield 'no take, no index'
    for length, entries in (0, 0), (0, 1), (1, 0):
        yield str(built(taken(0, length), entries)[0])
    for length, entries, i, j in (0, 0, 0, 0), (0, 0, 1, 0), (0, 0, 0, 2**64 - 1), (0, 1, 0, 0), (1, 0, 0, 0):
        yield line(*searched(taken(0, length), entries, i, j))
    for length, entries, j, budget in (0, 0, 0, 0), (0, 0, 2**64 - 1, 2**64 - 1), (0, 1, 0, 1), (1, 0, 0, 1):
        yield reading(taken(0, length), [0] * entries, 0, j, budget)


def other_indexes():
    for length in 1, 64, 65, 129, 260:
        pairs = [(i, j) for i in range(length + 1) for j in range(length + 1)]
        accepted = sum(i <= j < length for i, j in pairs)
        for _ in KINDS:
            for _ in KINDS:
                yield f'{length} values, another index: {accepted} accepted, {len(pairs) - accepted} refused, 0 outside'


def takes():
    yield from example()
    yield from every_range()
    yield from every_reading()
    yield from no_ranges()
    yield from other_lengths()
    yield from other_indexes()


def long():
    """Of a take of 0s but for three values below 0: the least of a range is one of the three, or its first 0."""
    length, others = 2**32 + 200, {5: -3, 2**32 - 1: -2, 2**32 + 10: -1}
    at = [0, 5, 6, 199, 200, 2**32 - 2, 2**32 - 1, *(2**32 + k for k in (0, 5, 10, 11, 127, 128, 199, 200)), 2**64 - 1]
    yield f'{length} values, {(length + 63) // 64} blocks: 0'
    for place in others:
        yield f'block {place // 64}: {others[place]}'
    for i in at:
        for j in at:
            if i > j or j >= length:
                number, least, place = 14, 0, 0
            else:
                inside = [(others[place], place) for place in others if i <= place <= j]
                number, (least, place) = 0, min(inside, default=(0, i))
            yield f'{i} to {j}: {number} {least} {place}'
    for i in at[::3]:
        for j in at:
            yield f'{i} to {j} roughly: ' + ', '.join(' '.join(map(str, numbers)) for numbers in long_readings(length, others, i, j))


def long_readings(length, others, i, j):
    """A reading with a look for each block that the range meets, and one with all looks."""
    if i > j or j >= length:
        return [(0, 14, 0, 0, 0)] * 2
    first, last = i // 64, j // 64
    inner = first if i % 64 == 0 else first + 1
    outer = last + 1 if (j + 1) % 64 == 0 or j + 1 == length else last
    inside = range(inner, outer)

    def least(blocks):
        """The least entry of blocks in a row: 0 unless the block of another value is among them, and that alone where there is one block."""
        entries = [min(others[place] for place in others if place // 64 == b) for b in {place // 64 for place in others} if b in blocks]
        return min(entries + [0] * (len(blocks) > len(entries)))

    edge = sum(min(64 * b + 63, j) - max(64 * b, i) + 1 for b in {first, last} if b not in inside)
    met = last + 1 - first
    exact = min((others[place] for place in others if i <= place <= j), default=0)
    high = (1, least(inside)) if inside else (0, 0)
    low = least(range(first, last + 1)) if edge else high[1]
    return (met, 0, *high, low), (met + edge, 0, 1, exact, exact)


LINES = {'takes': takes, 'long': long}
if len(sys.argv) != 2 or sys.argv[1] not in LINES:
    sys.exit(__doc__)
print(*LINES[sys.argv[1]](), sep='\n')
