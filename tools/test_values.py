#!/usr/bin/env python3
"""Tests of values.py: run `python3 tools/test_values.py`. The last line is 'N passed, M failed'."""
import os
import sys
import tempfile

# no files of Python's own beside these
sys.dont_write_bytecode = True
from checks import Checks, fails_to_write, one_line, refuses_arguments, right, run

TOOL = 'values.py'

# W, what is read, the bytes that must be written in hexadecimal, the exit status, and a piece of each message on standard error, in order.
CASES = [
    ('2', b'3\n1\n2\n2\n', '02000000 04000000 03000000 01000000 02000000 02000000', 0, []),
    # no values, and a last line without an end
    ('144', b'', '90000000 20010000', 0, []),
    ('1', b'7', '01000000 02000000 07000000', 0, []),
    # both ends of the range, and one past each
    ('1', b'-2147483648\n2147483647\n-1\n0\n', '01000000 02000000 00000080 ffffff7f ffffffff 00000000', 0, []),
    ('1', b'-2147483649\n2147483648\n', '', 1, ['line 1: -2147483649 is out of range', 'line 2: 2147483648 is out of range']),
    # spaces around a value, signs and leading zeros
    ('1', b'  5\t\r\n+6\n-0\n007\n', '01000000 02000000 05000000 06000000 00000000 07000000', 0, []),
    # a byte-order mark, other ends of lines, and the other minus sign
    ('1', b'\xef\xbb\xbf5\r\n\xe2\x88\x926\r7', '01000000 02000000 05000000 faffffff 07000000', 0, []),
    # one bad line is enough, and nothing is written
    ('2', b'3\nx\n4\n', '', 1, ["line 2: 'x' is not a whole number"]),
    ('2', b'3\n\n4\n \n', '', 1, ['line 2: there is no value', 'line 4: there is no value']),
    ('2', b'# 3\n1 2\n1.5\n1_0\n--1\n0x1\n\xd9\xa1\n\xff\n', '', 1, ['is not a whole number'] * 8),
    ('2', b'9' * 5000 + b'\n', '', 1, ['line 1: ']),
    # every W of four bytes is one: no more than 8192 words are lent, and what the window says to W is its own affair
    ('0', b'1\n', '00000000 00000000 01000000', 0, []),
    ('4095', b'', 'ff0f0000 fe1f0000', 0, []),
    ('4096', b'', '00100000 00200000', 0, []),
    ('4097', b'', '01100000 00200000', 0, []),
    ('4294967295', b'', 'ffffffff 00200000', 0, []),
    ('+002', b'', '02000000 04000000', 0, []),
    ('4294967296', b'1\n', '', 2, ['W: 4294967296 is out of range']),
    ('-1', b'1\n', '', 2, ['W: -1 is out of range']),
    ('two', b'1\n', '', 2, ["W: 'two' is not a whole number"]),
    ('', b'1\n', '', 2, ["W: '' is not a whole number"]),
    ('1.5', b'1\n', '', 2, ["W: '1.5' is not a whole number"]),
    # as many values as the limiter reads, and one more
    ('1', b'0\n' * 16382, '01000000 02000000' + '00000000' * 16382, 0, []),
    ('1', b'0\n' * 16383, '', 1, ['there are more than 16382 values']),
    ('1', b'x\n' * 16383, '', 1, ['there are more than 16382 values']),
]


def main():
    checks = Checks()
    with tempfile.TemporaryDirectory() as folder:
        path = os.path.join(folder, 'values')
        for width, text, out, code, messages in CASES:
            with open(path, 'wb') as f:
                f.write(text)
            # from standard input, and from a file
            for result in (run(TOOL, [width, '-'], text), run(TOOL, [width, path])):
                checks.check((width, text[:80]), right(result, code, bytes.fromhex(out), messages), result)
        for name in (os.path.join(folder, 'absent'), folder):
            result = run(TOOL, ['1', name])
            checks.check(name, one_line(result, 2, f'{name}: '), result)
    refuses_arguments(checks, TOOL, 'usage: values.py W FILE', [], ['1'], ['1', '-', '-'])
    fails_to_write(checks, TOOL, ['1', '-'])
    checks.end()


if __name__ == '__main__':
    main()
