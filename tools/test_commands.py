#!/usr/bin/env python3
"""Tests of commands.py: run `python3 tools/test_commands.py`. The last line is 'N passed, M failed'."""
import os
import sys
import tempfile

# no files of Python's own beside these
sys.dont_write_bytecode = True
from checks import Checks, fails_to_write, one_line, refuses_arguments, right, run

TOOL = 'commands.py'

# What is read, the bytes that it must write in hexadecimal, the exit status, and a piece of each message on standard error, in order.
CASES = [
    (b'V 12\nM\nV -3\nQ 1\nC 1\nQ 1\n', '01 0c000000 02 01 fdffffff 03 01000000 04 01000000 03 01000000', 0, []),
    (b'', '', 0, []),
    (b'\n  \n# V 1\n  # V 2\nM\n', '02', 0, []),
    # a byte-order mark, the ends of lines of all systems, and both minus signs
    (b'\xef\xbb\xbf  V\t7  \r\nM', '01 07000000 02', 0, []),
    (b'\xef\xbb\xbf# V 1\rV 7\rM\r', '01 07000000 02', 0, []),
    (b'V -3\nV \xe2\x88\x923\nV \xe2\x88\x922147483648\n', '01 fdffffff 01 fdffffff 01 00000080', 0, []),
    # both ends of each range, and one past each
    (b'V -2147483648\nV 2147483647\nV -1\nV 0\n', '01 00000080 01 ffffff7f 01 ffffffff 01 00000000', 0, []),
    (b'V -2147483649\nV 2147483648\n', '', 1, ['line 1: -2147483649 is out of range', 'line 2: 2147483648 is out of range']),
    (b'Q 0\nQ 4294967295\nC 0\nC 4294967295\n', '03 00000000 03 ffffffff 04 00000000 04 ffffffff', 0, []),
    (b'Q 4294967296\nQ -1\nC 4294967296\nC -1\n', '', 1,
     ['line 1: 4294967296 is out of range', 'line 2: -1 is out of range',
      'line 3: 4294967296 is out of range', 'line 4: -1 is out of range']),
    (b'V ' + b'0' * 5000 + b'7\n', '01 07000000', 0, []),
    (b'V ' + b'9' * 5000 + b'\nV 7\n', '', 1, ['is out of range']),
    # one bad line is enough, and nothing is written; all bad lines are listed
    (b'M\nX 1\nM\nY\n', '', 1, ["line 2: unknown command 'X': it is V, M, Q or C", "line 4: unknown command 'Y': it is V, M, Q or C"]),
    (b'v 1\nm\nV12\nq7\nV-3\nMM\n', '', 1,
     ["line 1: unknown command 'v': did you mean 'V'?", "line 2: unknown command 'm': did you mean 'M'?", "line 3: unknown command 'V12': did you mean 'V 12'?",
      "line 4: unknown command 'q7': did you mean 'Q 7'?", "line 5: unknown command 'V-3': did you mean 'V -3'?", "line 6: unknown command 'MM': it is V, M, Q or C"]),
    (b'V\nQ\nC\nM 1\nV 1 2\n', '', 1,
     ['line 1: V takes an argument', 'line 2: Q takes an argument', 'line 3: C takes an argument',
      'line 4: M takes no argument', 'line 5: V takes one argument']),
    (b'V 12 # loud\nM # here\n', '', 1, ['line 1: a comment stands on a line of its own', 'line 2: a comment stands on a line of its own']),
    (b'V ' + b'x' * 5000 + b'\n' + b'y' * 5000, '', 1, ["line 1: '" + 'x' * 36 + " ..' is not a whole number", "line 2: unknown command '" + 'y' * 36 + " ..': it is V, M, Q or C"]),
    (b'V 1.5\nV x\nV 1_0\nV --1\nV 0x1\nV \xd9\xa1\nV \xff\n', '', 1, ['is not a whole number'] * 7),
    (b'V \xe2\x80\x933\n', '', 1, ['is not a whole number; its minus sign is - or ']),
    # as many bytes as the stream program reads, and a command more: what fits is written, and the line on which the limit falls is said
    (b'V 7\n' * 3276 + b'M\n' * 4, '01 07000000' * 3276 + '02' * 4, 0, []),
    (b'# a comment\n' + b'V 7\n' * 3276 + b'M\n' * 5, '01 07000000' * 3276 + '02' * 4, 3, ['line 3282: the stream program reads no more than 16384 bytes']),
    (b'V 7\n' * 3277 + b'M\n' * 4, '01 07000000' * 3276, 3, ['line 3277: the stream program reads no more than 16384 bytes']),
    # a bad line before the limit counts for more, and what stands behind the limit is not read
    (b'X\n' + b'V 7\n' * 3277, '', 1, ["line 1: unknown command 'X'", 'line 3278: the stream program reads no more than 16384 bytes']),
    (b'V 7\n' * 3277 + b'X\n', '01 07000000' * 3276, 3, ['line 3277: ']),
]

# The same with -k: bad lines write nothing, and the good ones are still written.
KEPT = [
    (b'M\nX 1\nv 1\nM\n', '02 02', 1, ["line 2: unknown command 'X'", "line 3: unknown command 'v'"]),
    (b'X\n' + b'V 7\n' * 3277, '01 07000000' * 3276, 1, ["line 1: unknown command 'X'", 'line 3278: ']),
    (b'M\n', '02', 0, []),
]


def main():
    checks = Checks()
    with tempfile.TemporaryDirectory() as folder:
        path = os.path.join(folder, 'commands')
        for flags, cases in (([], CASES), (['-k'], KEPT)):
            for text, out, code, messages in cases:
                with open(path, 'wb') as f:
                    f.write(text)
                # from standard input, and from a file
                for result in (run(TOOL, flags, text), run(TOOL, [*flags, '-'], text), run(TOOL, [*flags, path])):
                    checks.check((flags, text[:80]), right(result, code, bytes.fromhex(out), messages), result)
        for name in (os.path.join(folder, 'absent'), folder):
            result = run(TOOL, [name])
            checks.check(name, one_line(result, 2, f'{name}: '), result)
    for text in ('V 1\n'.encode('utf-16'), b'M\nM\n\0\0\0'):
        result = run(TOOL, [], text)
        checks.check(text, one_line(result, 2, 'standard input: this is no text in UTF-8'), result)
    result = run(TOOL, [''])
    checks.check('no name', one_line(result, 2, "'': No such file or directory"), result)
    refuses_arguments(checks, TOOL, 'usage: commands.py [-k] [FILE]', ['a', 'b'])
    fails_to_write(checks, TOOL, ['-'], b'M\n')
    checks.end()


if __name__ == '__main__':
    main()
