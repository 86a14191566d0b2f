#!/usr/bin/env python3
"""usage: takes.py FILE

Writes the input of `lookup` for a take and requests given as text, one item to
a line:

  -12            a value of the take, from -2147483648 to 2147483647; there are
                 no more than 8192
  index 2        the index's length, from 0 to 256; without this line it is the
                 number of blocks of 64 values, the last one perhaps shorter
  search 0 63    the least value from one place to another, each from 0 to
                 4294967295; places are numbered from 0
  stretch 0 63   the values from one place to another
  rough 0 63 9   a rough reading from one place to another, with a budget of
                 looks from 0 to 4294967295
  set 1 -12      make an entry of the index another value

First come the values, then the index's length, then the requests, and all of
them are 65536 bytes at most. FILE is - for standard input. Numbers are whole
decimal numbers, with - or − for minus; they become four bytes each, least
significant first. A request has a kind byte before its numbers and, where they
are two, four zero bytes behind them. Blank lines and lines that start with #
are skipped.

Where a line is bad nothing is written: its number and what is wrong with it go
to standard error, and the exit status is 1. It is 2 where the file cannot be
read.
"""
import sys

# no files of Python's own beside these
sys.dont_write_bytecode = True
from lines import BadLine, arguments, four_bytes, lines_of, meant, number, run, said, short, write

VALUE = (-2**31, 2**31 - 1)
NUMBER = (0, 2**32 - 1)
BLOCK = 64
MOST_VALUES = 8192
MOST_ENTRIES = 256
MOST_BYTES = 65536

# Of each request: the kind byte, and the least and the greatest of each of its numbers.
REQUESTS = {
    'search': (1, NUMBER, NUMBER),
    'stretch': (2, NUMBER, NUMBER),
    'rough': (3, NUMBER, NUMBER, NUMBER),
    'set': (4, NUMBER, VALUE),
}


class TooMuch(BadLine):
    """A line behind which no more are read."""


class Take:
    """What the lines read so far say."""

    def __init__(self):
        self.values = []
        self.entries = None
        self.requests = []

    def length(self):
        """How many bytes it has."""
        return 4 + 4 * len(self.values) + 4 + 13 * len(self.requests)

    def bytes(self):
        entries = -(-len(self.values) // BLOCK) if self.entries is None else self.entries
        return b''.join(map(four_bytes, [len(self.values), *self.values, entries])) + b''.join(self.requests)

    def value(self, word):
        v = number(word, *VALUE)
        if self.requests or self.entries is not None:
            raise BadLine(f'the value {word} stands behind {"a request" if self.requests else "the index"}: the values come first')
        if len(self.values) == MOST_VALUES:
            raise TooMuch(f'there are more than {MOST_VALUES} values')
        self.values.append(v)

    def index(self, words):
        if len(words) != 1:
            raise BadLine('index takes one number')
        entries = number(words[0], 0, MOST_ENTRIES)
        if self.requests:
            raise BadLine('the index stands behind a request: its length comes before the requests')
        if self.entries is not None:
            raise BadLine("the index's length is given already")
        self.entries = entries

    def request(self, name, words):
        kind, *bounds = REQUESTS[name]
        if len(words) != len(bounds):
            raise BadLine(f'{name} takes {"two" if len(bounds) == 2 else "three"} numbers')
        numbers = [number(word, *bound) for word, bound in zip(words, bounds)]
        if self.length() + 13 > MOST_BYTES:
            raise TooMuch(f'there are more than {MOST_BYTES} bytes')
        self.requests.append(bytes([kind]) + b''.join(map(four_bytes, [*numbers, 0][:3])))

    def line(self, line):
        words = line.split()
        if not words or words[0].startswith('#'):
            return
        if any(it.startswith('#') for it in words):
            raise BadLine('a comment stands on a line of its own')
        if words[0] == 'index':
            self.index(words[1:])
        elif words[0] in REQUESTS:
            self.request(words[0], words[1:])
        elif len(words) == 1 and not words[0][0].isalpha():
            self.value(words[0])
        else:
            raise BadLine(f'unknown item {short(words[0])!r}{meant(words[0], ["index", *REQUESTS]) or ": it is a value alone, or index, search, stretch, rough or set"}')


def read(lines):
    """What the lines say, and how many are bad. What is wrong with one is said as it is read."""
    take = Take()
    bad = 0
    for at, line in enumerate(lines, start=1):
        try:
            take.line(line)
        except BadLine as why:
            said(at, why)
            bad += 1
            if isinstance(why, TooMuch):
                break
    return take, bad


def main(given):
    name, = arguments(given, __doc__, least=1)[1]
    take, bad = read(lines_of(name))
    if bad:
        return 1
    write(take.bytes())
    return 0


if __name__ == '__main__':
    run(main)
