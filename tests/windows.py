#!/usr/bin/env python3
"""What the limiter prints for the bytes on standard input, worked out by brute force from document 02, points 2 and 5, and the program's description (at the head of
crates/readout/specs/Output.antt) alone.

Every value is written down, and after each one the last W are looked through. Nothing here is taken from the crates' code.

  python3 tests/windows.py < crates/limiter/stdin | diff - crates/limiter/stdout

tests/limiter.txt has the values of crates/limiter/stdin, with W = 144; three bytes stand behind them. tests/windows has further runs, each as NAME.bytes and NAME.out: W = 2 with 3, 1, 2, 2;
W = 1; constant values; ties; both ends of the values' range; W = 0, 4,097 and 4,294,967,295; too few words, one too few for the greatest W, and none; more words than 8,192, and the
most that four bytes can name; one, two and three bytes left, and one without a value; no bytes, seven and eight. tests/limiter.py makes long runs.
"""
import sys

BYTES_READ = 65536
MOST_WORDS = 8192
WIDEST = 4096
LAST_POSITION = 4294967295


def refusal(width, words):
    """The number of the first refusal that applies to an opening, or 0."""
    if not 1 <= width <= WIDEST:
        return 12
    return 13 if words < 2 * width else 0


def least(values, width):
    """The least of the last W values, and the earliest of their positions where it stands: "before W have come, all count"."""
    last = values[-width:]
    value = min(last)
    return value, len(values) - len(last) + 1 + last.index(value)


def lines(stream):
    """The limiter's lines for a stream of bytes."""
    stream = stream[:BYTES_READ]
    if len(stream) < 8:
        yield 'no window'
        return
    width = int.from_bytes(stream[0:4], 'little')
    words = min(int.from_bytes(stream[4:8], 'little'), MOST_WORDS)
    number = refusal(width, words)
    opened = number == 0
    values = []
    read = 0
    at = 8
    yield f'open {number}'
    while at + 4 <= len(stream):
        value = int.from_bytes(stream[at:at + 4], 'little', signed=True)
        at += 4
        read += 1
        if not opened:
            yield f'{read} 4'
        elif len(values) == LAST_POSITION:
            yield f'{read} 6'
        else:
            values.append(value)
            lowest, place = least(values, width)
            yield f'{read} 0 {lowest} {place}'
    if at < len(stream):
        yield f'stop {at}'
    yield f'end {read} {len(values)}'


if __name__ == '__main__':
    for line in lines(sys.stdin.buffer.read()):
        print(line)
