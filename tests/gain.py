#!/usr/bin/env python3
"""What the C programs of tests/firmware print, worked out from document 02, point 1, in whole numbers. Nothing here is taken from the crate `gain`.

  python3 tests/gain.py gain  | diff - tests/firmware/gain.out
  python3 tests/gain.py every | diff - tests/firmware/every.out
"""
import sys

# The values from -300 to 10; both ends of a signed 32-bit number and their neighbours; then values whose lower bits alone have another gain: they are
# 0, -80, -80, -1 and -32768 in 16 bits, and 0 and -80 in 8.
VALUES = [*range(-300, 11), -2**31, -2**31 + 1, 2**31 - 2, 2**31 - 1, -65536, -65616, 65456, 65535, 32768, -512, -336]


def entries():
    """Entry n, from 0 to 240, is the largest whole g with g^80 * 10^n at most 32768^80: it is looked for from the entry before on, downwards."""
    g = 32768
    for n in range(241):
        while g**80 * 10**n > 32768**80:
            g -= 1
        yield g


ENTRIES = list(entries())


def gain(value):
    if value >= 0:
        return 32768
    if value >= -240:
        return ENTRIES[-value]
    return 0


def some():
    """Each of VALUES, and its gain."""
    for value in VALUES:
        yield value, gain(value)


def changes():
    """The least value, and each value whose gain is not that of the value before: there is none below -240, nor above 0. Last how many values there are."""
    yield -2**31, gain(-2**31)
    for value in range(-240, 1):
        if gain(value) != gain(value - 1):
            yield value, gain(value)
    yield 2**32, 'values'


LINES = {'gain': some, 'every': changes}
if __name__ == '__main__':
    if len(sys.argv) != 2 or sys.argv[1] not in LINES:
        sys.exit(__doc__)
    for line in LINES[sys.argv[1]]():
        print(*line)
