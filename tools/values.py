#!/usr/bin/env python3
"""usage: values.py W FILE

Writes the limiter's input for values given as text, one to a line: W, the
number of words to lend, which is 2 * W and no more than 8192, and the values,
each as four bytes, least significant first.

W is a whole number from 0 to 4294967295. FILE is - for standard input. Every
line is one value, from -2147483648 to 2147483647, so that a value's running
number is that of its line. Spaces around it, a sign, which may be - or −, and
leading zeros are allowed; a blank line or a comment is no value. There are no
more than 16382 values.

Where a line is bad nothing is written: its number and what is wrong with it go
to standard error, and the exit status is 1. So it is where there are too many
values. It is 2 where W is bad or the file cannot be read.
"""
import itertools
import sys

# no files of Python's own beside these
sys.dont_write_bytecode = True
from lines import BadLine, Failed, arguments, four_bytes, lines_of, number, run, said, shown, write

MOST_WORDS = 8192
MOST_VALUES = 16382


def value(line):
    """The value of a line."""
    word = line.strip()
    if not word:
        raise BadLine('there is no value')
    return number(word, -2**31, 2**31 - 1)


def heading(width):
    """The bytes of W and of the number of words to lend."""
    return four_bytes(width) + four_bytes(min(2 * width, MOST_WORDS))


def main(given):
    width, name = arguments(given, __doc__, least=2, most=2)[1]
    try:
        width = number(width, 0, 2**32 - 1)
    except BadLine as why:
        raise Failed(f'W: {why}', 2) from None
    lines = list(itertools.islice(lines_of(name), MOST_VALUES + 1))
    if len(lines) > MOST_VALUES:
        raise Failed(f'{shown(name)}: there are more than {MOST_VALUES} values')
    found = []
    for at, line in enumerate(lines, start=1):
        try:
            found.append(value(line))
        except BadLine as why:
            said(at, why)
    if len(found) < len(lines):
        return 1
    write(heading(width) + b''.join(map(four_bytes, found)))
    return 0


if __name__ == '__main__':
    run(main)
