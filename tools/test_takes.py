#!/usr/bin/env python3
"""Tests of takes.py: run `python3 tools/test_takes.py`. The last line is 'N passed, M failed'."""
import os
import sys
import tempfile

# no files of Python's own beside these
sys.dont_write_bytecode = True
from checks import Checks, fails_to_write, one_line, refuses_arguments, right, run

TOOL = 'takes.py'

SEARCH = '01 00000000 00000000 00000000'

# What is read, the bytes that must be written in hexadecimal, the exit status, and a piece of each message on standard error, in order.
CASES = [
    (b'5\n-3\nindex 1\nsearch 0 1\nstretch 1 1\nset 0 -9\n',
     '02000000 05000000 fdffffff 01000000 01 00000000 01000000 00000000 02 01000000 01000000 00000000 04 00000000 f7ffffff 00000000', 0, []),
    (b'5\n-3\nrough 0 1 3\nrough 1 1 0\n', '02000000 05000000 fdffffff 01000000 03 00000000 01000000 03000000 03 01000000 01000000 00000000', 0, []),
    # no lines, no requests, no values, and a last line without an end
    (b'', '00000000 00000000', 0, []),
    (b'7', '01000000 07000000 01000000', 0, []),
    (b'search 0 0', '00000000 00000000' + SEARCH, 0, []),
    (b'index 3\n', '00000000 03000000', 0, []),
    # without a line for it, the index is as long as there are blocks
    (b'1\n' * 64, '40000000' + '01000000' * 64 + '01000000', 0, []),
    (b'1\n' * 65, '41000000' + '01000000' * 65 + '02000000', 0, []),
    (b'1\n' * 128, '80000000' + '01000000' * 128 + '02000000', 0, []),
    (b'1\n' * 129, '81000000' + '01000000' * 129 + '03000000', 0, []),
    # both ends of each range, and one past each
    (b'-2147483648\n2147483647\n-1\n', '03000000 00000080 ffffff7f ffffffff 01000000', 0, []),
    (b'-2147483649\n2147483648\n', '', 1, ['line 1: -2147483649 is out of range', 'line 2: 2147483648 is out of range']),
    (b'index 0\nsearch 4294967295 0\n', '00000000 00000000 01 ffffffff 00000000 00000000', 0, []),
    (b'search -1 0\nsearch 0 4294967296\nstretch 4294967296 0\nset -1 0\n', '', 1,
     ['line 1: -1 is out of range', 'line 2: 4294967296 is out of range', 'line 3: 4294967296 is out of range', 'line 4: -1 is out of range']),
    (b'rough 4294967295 4294967295 4294967295\n', '00000000 00000000 03 ffffffff ffffffff ffffffff', 0, []),
    (b'rough -1 0 0\nrough 0 4294967296 0\nrough 0 0 -1\nrough 0 0 4294967296\n', '', 1,
     ['line 1: -1 is out of range', 'line 2: 4294967296 is out of range', 'line 3: -1 is out of range', 'line 4: 4294967296 is out of range']),
    (b'set 4294967295 -2147483648\n', '00000000 00000000 04 ffffffff 00000080 00000000', 0, []),
    (b'set 0 2147483648\nset 0 -2147483649\n', '', 1, ['line 1: 2147483648 is out of range', 'line 2: -2147483649 is out of range']),
    (b'index 256\n', '00000000 00010000', 0, []),
    (b'index 257\nindex -1\n', '', 1, ['line 1: 257 is out of range', 'line 2: -1 is out of range']),
    # spaces, signs, leading zeros, blank lines and comments
    (b'  5\t\r\n\n# a take\n+6\n  # its index\nindex  01\nsearch\t+0 00\n', '02000000 05000000 06000000 01000000' + SEARCH, 0, []),
    # a byte-order mark, other ends of lines, and the other minus sign
    (b'\xef\xbb\xbf5\r\n\xe2\x88\x926\rindex 1\r\nsearch 0 0', '02000000 05000000 faffffff 01000000' + SEARCH, 0, []),
    # the values, then the index, then the requests
    (b'1\nsearch 0 0\n2\n', '', 1, ['line 3: the value 2 stands behind a request']),
    (b'1\nindex 1\n2\n', '', 1, ['line 3: the value 2 stands behind the index']),
    (b'1\nsearch 0 0\nindex 1\n', '', 1, ['line 3: the index stands behind a request']),
    (b'1\nindex 1\nindex 1\n', '', 1, ["line 3: the index's length is given already"]),
    # one bad line is enough, and nothing is written; each bad line has a message
    (b'1\n-x\n2\nx\n3 # 4\n', '', 1, ["line 2: '-x' is not a whole number", "line 4: unknown item 'x'", 'line 5: a comment stands on a line of its own']),
    (b'1 2\nlook 0 0\nSearch 0 0\n', '', 1, ["line 1: unknown item '1'", "line 2: unknown item 'look'", "line 3: unknown item 'Search': did you mean 'search'?"]),
    (b'rough\nrough 1\nrough 1 2\nrough 1 2 3 4\nrough 1 2 x\n', '', 1,
     ['line 1: rough takes three numbers', 'line 2: rough takes three numbers', 'line 3: rough takes three numbers', 'line 4: rough takes three numbers', "line 5: 'x' is not a whole number"]),
    (b'index\nindex 1 2\nsearch\nsearch 1\nsearch 1 2 3\nstretch 1\nset 1\nset 1 2 3\n', '', 1,
     ['line 1: index takes one number', 'line 2: index takes one number', 'line 3: search takes two numbers', 'line 4: search takes two numbers', 'line 5: search takes two numbers',
      'line 6: stretch takes two numbers', 'line 7: set takes two numbers', 'line 8: set takes two numbers']),
    (b'search a 0\nset 0 b\nindex c\n', '', 1, ["line 1: 'a' is not a whole number", "line 2: 'b' is not a whole number", "line 3: 'c' is not a whole number"]),
    (b'1.5\n1_0\n--1\n0x1\n\xd9\xa1\n\xff\n', '', 1, ['is not a whole number'] * 6),
    (b'9' * 5000 + b'\n', '', 1, ['line 1: ']),
    # as many values as there may be, and one more
    (b'0\n' * 8192, '00200000' + '00000000' * 8192 + '80000000', 0, []),
    (b'0\n' * 8194, '', 1, ['line 8193: there are more than 8192 values']),
    # as many bytes as there may be, and one request more
    (b'search 0 0\n' * 5040, '00000000 00000000' + SEARCH * 5040, 0, []),
    (b'search 0 0\n' * 5042, '', 1, ['line 5041: there are more than 65536 bytes']),
    (b'0\n0\n' + b'search 0 0\n' * 5040, '02000000 00000000 00000000 01000000' + SEARCH * 5040, 0, []),
    (b'0\n0\n' + b'search 0 0\n' * 5041, '', 1, ['line 5043: there are more than 65536 bytes']),
]


def main():
    checks = Checks()
    with tempfile.TemporaryDirectory() as folder:
        path = os.path.join(folder, 'take')
        for text, out, code, messages in CASES:
            with open(path, 'wb') as f:
                f.write(text)
            # from standard input, and from a file
            for result in (run(TOOL, ['-'], text), run(TOOL, [path])):
                checks.check(text[:80], right(result, code, bytes.fromhex(out), messages), result)
        for name in (os.path.join(folder, 'absent'), folder):
            result = run(TOOL, [name])
            checks.check(name, one_line(result, 2, f'{name}: '), result)
    refuses_arguments(checks, TOOL, 'usage: takes.py FILE', [], ['-', '-'])
    fails_to_write(checks, TOOL, ['-'])
    checks.end()


if __name__ == '__main__':
    main()
