#!/usr/bin/env python3
"""usage: commands.py [-k] [FILE]

Writes the engine's command bytes, which the stream program reads, for commands
given as text, one to a line:

  V 12    Value: 01 and the value, from -2147483648 to 2147483647
  M       Mark:  02
  Q 1     Query: 03 and a position, from 0 to 4294967295
  C 1     Close: 04 and a position, from 0 to 4294967295

Without FILE, or where it is -, standard input is read. Arguments are whole
decimal numbers, with - or − for minus, and become four bytes, least
significant first. Blank lines and lines that start with # are skipped.

Where a line is bad nothing is written: the number of each bad line, and what
is wrong with it, go to standard error, and the exit status is 1.

  -k      the good lines are written all the same. A Value that drops out
          shifts all later positions

The stream program reads no more than 16384 bytes. The commands that fit are
written; where there are more, the line on which the limit falls goes to
standard error, and the exit status is 3. It is 2 where the file cannot be
read.
"""
import sys
from typing import NamedTuple, Optional

# no files of Python's own beside these
sys.dont_write_bytecode = True
from lines import BadLine, arguments, four_bytes, lines_of, meant, number, run, said, short, write

LIMIT = 16384

# Of each letter: the kind byte, and the least and the greatest argument, or None where there is no argument.
KINDS = {
    'V': (1, (-2**31, 2**31 - 1)),
    'M': (2, None),
    'Q': (3, (0, 2**32 - 1)),
    'C': (4, (0, 2**32 - 1)),
}


class Command(NamedTuple):
    """A command, and the number of the line that it stands on."""

    line: int
    letter: str
    argument: Optional[int]

    def bytes(self):
        kind = bytes([KINDS[self.letter][0]])
        return kind if self.argument is None else kind + four_bytes(self.argument)

    def __str__(self):
        return self.letter if self.argument is None else f'{self.letter} {self.argument}'


class Stream(NamedTuple):
    """What lines say: their commands, how many lines were bad, and the line on which the stream program's limit falls, or None."""

    commands: list
    bad: int
    cut: Optional[int]

    def bytes(self):
        return b''.join(it.bytes() for it in self.commands)

    def status(self):
        """The exit status that tells what is wrong with the lines."""
        return 1 if self.bad else 0 if self.cut is None else 3


def command(at, line):
    """The command of a line, or None where it is blank or a comment."""
    words = line.split()
    if not words or words[0].startswith('#'):
        return None
    letter, given = words[0], words[1:]
    if letter not in KINDS:
        raise BadLine(f'unknown command {short(letter)!r}{meant(letter, KINDS) or ": it is V, M, Q or C"}')
    bounds = KINDS[letter][1]
    due = 0 if bounds is None else 1
    if any(it.startswith('#') for it in given):
        raise BadLine('a comment stands on a line of its own')
    if len(given) < due:
        raise BadLine(f'{letter} takes an argument')
    if len(given) > due:
        raise BadLine(f'{letter} takes {"one argument" if due else "no argument"}')
    return Command(at, letter, None if bounds is None else number(given[0], *bounds))


def read(lines):
    """What the lines say, up to the one on which the limit falls. What is wrong with a line is said as it is read."""
    commands, bad, length = [], 0, 0
    for at, line in enumerate(lines, start=1):
        try:
            it = command(at, line)
        except BadLine as why:
            said(at, why)
            bad += 1
            continue
        if it is None:
            continue
        length += len(it.bytes())
        if length > LIMIT:
            said(at, f'the stream program reads no more than {LIMIT} bytes, and they end here: this line and all that follow are not run')
            return Stream(commands, bad, at)
        commands.append(it)
    return Stream(commands, bad, None)


def main(given):
    asked, files = arguments(given, __doc__, flags=['-k'])
    stream = read(lines_of(*files or ['-']))
    if not stream.bad or '-k' in asked:
        write(stream.bytes())
    return stream.status()


if __name__ == '__main__':
    run(main)
