#!/usr/bin/env python3
"""What the C programs on the look-ahead window print, worked out from document 02, points 2 and 5, by looking through the last W values each time. Nothing here is taken
from the crates.

  python3 tests/window_c.py window | diff - tests/firmware/window.out
  python3 tests/window_c.py junk   | diff - tests/firmware/junk.out
"""
import sys

LAST = 2**32 - 1
NOTHING = (0, 0)


class Window:
    """A window and its session: N, W and the present position. The values stand at the positions from 1 on."""

    def __init__(self, words, width, present=0):
        self.words, self.width, self.present, self.values = words, width, present, []

    def session(self):
        return self.words, self.width, self.present

    def refusal(self, length):
        if self.words == 0:
            return 4
        if length != self.words:
            return 5
        if self.present == LAST:
            return 6
        return 0

    def value(self, length, value):
        """The reply's number, and the least of the last W values with the earliest of their places where it stands."""
        number = self.refusal(length)
        if number:
            return number, NOTHING
        self.values.append(value)
        self.present += 1
        positions = range(max(1, len(self.values) - self.width + 1), len(self.values) + 1)
        least = min(self.values[i - 1] for i in positions)
        return 0, (least, min(i for i in positions if self.values[i - 1] == least))


def opened(length, width):
    """The reply's number, and the window that is then there."""
    if not 1 <= width <= 4096:
        return 12, Window(0, 0)
    if length < 2 * width:
        return 13, Window(0, 0)
    return 0, Window(length, width)


def line(number, shown, window):
    return f'{number} {shown[0]} {shown[1]} of ' + ' '.join(map(str, window.session()))


def limiter(width, count):
    number, window = opened(2 * width, width)
    yield f'the last {width} of {count}'
    yield line(number, NOTHING, window)
    before, noise = NOTHING, 1
    for _ in range(count):
        noise = (noise * 1664525 + 1013904223) % 2**32
        number, now = window.value(2 * width, noise // 2**16 % 301 - 100)
        if now != before:
            yield line(number, now, window)
        before = now
    yield line(number, now, window)


def short_windows():
    low, high = -2**31, 2**31 - 1
    values = [3, 1, 2, 2, 2, 2, 5, 4, 4, 7, high, high, high, high, low, high, low, low, 0, -1, 0, 1, 2, 3]
    for width in 1, 2, 3:
        number, window = opened(2 * width, width)
        yield f'the last {width}'
        yield line(number, NOTHING, window)
        for value in values:
            yield line(*window.value(2 * width, value), window)


def openings():
    for width in 0, 1, 2, 144, 4095, 4096, 4097, 2**63, 2**63 + 1, 2**64 - 1:
        for length in 0, 1, 2, 3, 4, 287, 288, 8189, 8190, 8191, 8192, 8200:
            number, window = opened(length, width)
            yield f'the last {width} on {length} words: ' + line(number, NOTHING, window)
    for width in 0, 1:
        number, window = opened(0, width)
        yield line(number, NOTHING, window)


def refusals():
    yield 'refusals'
    window = opened(5, 2)[1]
    yield line(*window.value(5, 9), window)
    for other, length in (Window(0, 0), 5), (Window(0, 0), 0), (Window(0, 0), 0), (Window(0, 2**64 - 1, LAST), 5):
        yield line(*other.value(length, -1000), other)
    for length in 4, 6, 8200, 0:
        yield line(*window.value(length, -1000), window)
    yield line(*window.value(5, 10), window)
    window.present = LAST - 1
    yield number_alone(window.value(5, 11)[0], window)
    for length in 5, 6:
        yield line(*window.value(length, -1000), window)


def number_alone(number, window):
    """What is fixed of an answer where session and words are not those of the last call: the value and place shown may be any."""
    return f'{number} of ' + ' '.join(map(str, window.session()))


def junk():
    for words in 1, 2, 8, 8192:
        for width in 0, 1, 3, 4, 7, 4096, 4097, 2**63, 2**64 - 1:
            for present in 0, 7, LAST - 9:
                window = Window(words, width, present)
                for _ in range(20):
                    number = window.refusal(words)
                    if number == 0:
                        window.present += 1
                for _ in range(4):
                    yield number_alone(number, window)


def window():
    yield from limiter(144, 1000)
    yield from limiter(4096, 6000)
    yield from short_windows()
    yield from openings()
    yield from refusals()


LINES = {'window': window, 'junk': junk}
if len(sys.argv) != 2 or sys.argv[1] not in LINES:
    sys.exit(__doc__)
print(*LINES[sys.argv[1]](), sep='\n')
