#!/usr/bin/env python3
"""Long runs of the limiter, against what tests/windows.py works out: run `python3 tests/limiter.py crates/limiter/out/limiter`. The last line is 'N passed, M failed'.

A run has 16,382 values, all that the limiter reads, falling, rising, constant, with many ties, at random over the whole range, or the longest lines that there are; some go on behind
the bytes that it reads. The same runs are made each time.
"""
import random
import subprocess
import sys

# no files of Python's own beside these
sys.dont_write_bytecode = True
import windows

VALUES = 16382
LEAST, GREATEST = -2**31, 2**31 - 1


def shapes(chance):
    """The values of each kind of run."""
    yield 'falling', [GREATEST - 5 * i for i in range(VALUES)]
    yield 'rising', [LEAST + 5 * i for i in range(VALUES)]
    yield 'constant', [7] * VALUES
    yield 'ties', [chance.randint(-2, 2) for _ in range(VALUES)]
    yield 'random', [chance.randint(LEAST, GREATEST) for _ in range(VALUES)]
    # running numbers and places of five digits, and the least value
    yield 'longest', [0] * 9999 + [LEAST] * (VALUES - 9999)


def input_of(width, words, values):
    return b''.join(n.to_bytes(4, 'little') for n in [width, words, *(v % 2**32 for v in values)])


def runs():
    """Each run's name and its bytes."""
    chance = random.Random(2)
    for name, values in shapes(chance):
        for width in 1, 2, 144, 4096:
            yield f'{name} {width}', input_of(width, 2 * width, values)
    values = [chance.randint(-9, 9) for _ in range(VALUES)]
    # what is behind the first 65,536 bytes is not read: a value, or a part of one
    yield 'one value too many', input_of(144, 500, values + [LEAST])
    yield 'one byte too many', input_of(144, 500, values) + b'\0'
    # no value of a window that is not opened is accepted
    yield 'not opened', input_of(4096, 8191, values)


def main(program):
    passed = failed = 0
    for name, stream in runs():
        due = ''.join(line + '\n' for line in windows.lines(stream)).encode()
        result = subprocess.run([program], input=stream, capture_output=True)
        if result.returncode == 0 and result.stdout == due and result.stderr == b'':
            passed += 1
        else:
            failed += 1
            print('failed:', name, result.returncode, result.stderr[:200])
    print(f'{passed} passed, {failed} failed')
    return 1 if failed else 0


if __name__ == '__main__':
    if len(sys.argv) != 2:
        sys.exit('usage: python3 tests/limiter.py PROGRAM')
    sys.exit(main(sys.argv[1]))
