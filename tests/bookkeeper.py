#!/usr/bin/env python3
"""What the stream program prints for the command bytes on standard input, worked out by brute force from document 01, with point 5 of document 02, alone.

The history is plain: every value is written down, and a minimum is looked for among all of them. Nothing here is taken from the engine.

  python3 tests/bookkeeper.py < crates/stream/stdin | diff - crates/stream/stdout

tests/stream.txt says how crates/stream/stdin is made. tests/streams has further runs, each as NAME.bytes and NAME.out: document 01's example; a Mark and an unknown kind, 02 05; an
argument that is cut off, 03 01 00 00; no bytes; the longest lines that 16,384 bytes of commands give, with a running number of five digits, the least value and a place of
four digits: 1,401 Values, the last of them the least, then Marks, and two Queries near the end; and marks that live through up to seven turns and merges, which merges.txt
has as text.
"""
import sys

WORDS = 4352
BYTES_READ = 16384
LAST_POSITION = 4294967295

LETTERS = {1: 'V', 2: 'M', 3: 'Q', 4: 'C'}
ARGUMENT_BYTES = {'V': 4, 'M': 0, 'Q': 4, 'C': 4}


class History:
    """The history that document 01's bookkeeper keeps, after an opening that is accepted."""

    def __init__(self, words):
        self.limit = min((words - 512) // 64, 4096)
        self.values = []
        self.marks = []
        self.standing = 'none'

    def refusal(self, letter, argument):
        """The number of the first refusal that applies to a command, or 0."""
        if letter == 'V':
            return 6 if len(self.values) == LAST_POSITION else 0
        if letter == 'M':
            if self.standing != 'unmarked':
                return {'none': 7, 'marked': 8, 'closed': 9}[self.standing]
            return 10 if len(self.marks) == self.limit else 0
        return 0 if argument in self.marks else 11

    def minimum(self, mark):
        """The least value since a mark and the earliest position from there on where it stands."""
        positions = range(mark, len(self.values) + 1)
        least = min(self.values[p - 1] for p in positions)
        return least, min(p for p in positions if self.values[p - 1] == least)

    def tell(self, letter, argument):
        """A command's reply: its number, and after an accepted Query the value and the place."""
        number = self.refusal(letter, argument)
        if number:
            return [number]
        if letter == 'V':
            self.values.append(argument)
            self.standing = 'unmarked'
        elif letter == 'M':
            self.marks.append(len(self.values))
            self.standing = 'marked'
        elif letter == 'C':
            self.marks.remove(argument)
            if argument == len(self.values):
                self.standing = 'closed'
        else:
            return [0, *self.minimum(argument)]
        return [0]


def read(rest):
    """The letter and the argument of the next command with its length, or the number of a reading refusal."""
    letter = LETTERS.get(rest[0])
    if letter is None:
        return 2
    argument = rest[1:1 + ARGUMENT_BYTES[letter]]
    if len(argument) < ARGUMENT_BYTES[letter]:
        return 3
    return letter, int.from_bytes(argument, 'little', signed=letter == 'V'), 1 + len(argument)


def lines(stream):
    """The program's lines for a stream of bytes."""
    stream = stream[:BYTES_READ]
    history = History(WORDS)
    count = accepted = at = 0
    yield f'taps {history.limit}'
    while at < len(stream):
        found = read(stream[at:])
        if isinstance(found, int):
            yield f'stop {at} {found}'
            break
        letter, argument, length = found
        reply = history.tell(letter, argument)
        at += length
        count += 1
        accepted += reply[0] == 0
        yield ' '.join(map(str, [count, letter, *reply]))
    yield f'end {count} {accepted} {len(history.marks)}'


if __name__ == '__main__':
    for line in lines(sys.stdin.buffer.read()):
        print(line)
