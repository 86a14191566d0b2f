#!/usr/bin/env python3
"""Whether the stored output of `played` is what documents 01 and 02 give, worked out by brute force from the commands that stand in it.

Every reply, least value, place, session and bound on the written words is worked out anew, a line's parts one after the other, by the plain history of tests/bookkeeper.py and the plain
window of tests/windows.py; nothing here is taken from the crates' code. The lines of the last position, whose sessions are made by hand, are worked out by hand and written down here.

  python3 tests/played.py
"""
import re
import sys

# no files of Python's own beside these
sys.dont_write_bytecode = True
import bookkeeper
import windows

STORED = 'crates/played/stdout'
STANDINGS = ['none', 'unmarked', 'marked', 'closed']
# the value that a round repeats, by the number of rounds, where it is not printed
ROUNDS = {'100000': 7, '10000': 5}
BY_HAND = [
    'lent 576 V -2147483648: 0; M: 0; Q 4294967295: 0, -2147483648 at 4294967295; N 576, K 1, present 4294967295, last -2147483648, active 1, marked',
    'lent 576 V 1: 6; 0 words changed, session equal',
    'window 1 on 2: 0; lent 2 V -2147483648: 0, -2147483648 at 4294967295; lent 2 V 1: 6; 0 words changed; lent 3 V 1: 5; 0 words changed; N 2, W 1, present 4294967295',
]


class Board:
    """The engine after an opening of any length, each command lent some length."""

    commands = 'M|[VQC] -?[0-9]+'
    unchanged = '0 words changed, session equal'

    def __init__(self, words):
        self.reply = 0 if words >= 576 else 1
        self.words = words if self.reply == 0 else 0
        self.history = bookkeeper.History(self.words) if self.words else None
        self.lent, self.most = words, 0

    def tell(self, letter, argument):
        if self.words == 0 or self.lent != self.words:
            self.reply = 5 if self.words else 4
            return str(self.reply)
        self.reply, *shown = self.history.tell(letter, argument)
        self.most = max(self.most, len(self.history.marks))
        return str(self.reply) + (', {} at {}'.format(*shown) if shown else '')

    def session(self):
        if self.words == 0:
            return 'N 0, K 0, present 0, last 0, active 0, none'
        h = self.history
        return f'N {self.words}, K {h.limit}, present {len(h.values)}, last {(h.values or [0])[-1]}, active {len(h.marks)}, {h.standing}'

    # "With l the most taps active together so far, every word from index 512 + 64 × l on is still as it was lent."
    def bound(self):
        return 512 + 64 * self.most if self.words else 0


class Window:
    """The look-ahead window after an opening of any length and W, each value lent some length."""

    commands = 'V -?[0-9]+'
    unchanged = '0 words changed'

    def __init__(self, width, words):
        self.reply = windows.refusal(width, words)
        self.words, self.width = (0, 0) if self.reply else (words, width)
        self.values, self.lent = [], words

    def tell(self, letter, value):
        if self.words == 0 or self.lent != self.words:
            self.reply = 5 if self.words else 4
            return str(self.reply)
        self.values.append(value)
        self.reply = 0
        return '0, {} at {}'.format(*windows.least(self.values, self.width))

    def session(self):
        return f'N {self.words}, W {self.width}, present {len(self.values)}'

    def bound(self):
        return 2 * self.width


def opened(said):
    """What an opening of engine or window leads to, or nothing where the part is none."""
    if m := re.match(r'open ([0-9]+):', said):
        board = Board(int(m[1]))
    elif m := re.match(r'window ([0-9]+) on ([0-9]+):', said):
        board = Window(int(m[1]), int(m[2]))
    else:
        return None
    return f'{m[0]} {board.reply}', board


def reading(said):
    """What a reading of the bytes answers."""
    head = re.match(r'bytes((?: [0-9a-f]{2})*):', said)
    stream = bytes.fromhex(head[1])
    found = bookkeeper.read(stream) if stream else 'end'
    if isinstance(found, tuple):
        letter, argument, length = found
        found = (letter if letter == 'M' else f'{letter} {argument}') + f', length {length}'
    return f'{head[0]} {found}'


def played(rounds, value, board):
    """So many rounds of a Value, a Mark and a Close of it: how many commands were accepted."""
    accepted = 0
    for _ in range(rounds):
        for letter in 'VMC':
            argument = {'V': value, 'M': 0, 'C': len(board.history.values)}[letter]
            accepted += board.tell(letter, argument) == '0'
    return f'{rounds} rounds: {accepted} accepted'


def part(said, board):
    """A part of a line behind an opening: its command is taken from what is stored, and all else worked out. Where it is none that `played` prints, nothing."""
    if m := re.match(rf'(?:lent ([0-9]+) )?({board.commands}):', said):
        board.lent = int(m[1]) if m[1] else board.lent
        return f'{m[0]} {board.tell(m[2][0], int(m[2][2:] or 0))}'
    if said.startswith('N '):
        return board.session()
    if said.startswith('words changed'):
        return f'words changed from {board.bound()} on: 0'
    if said == board.unchanged and board.reply != 0:
        return said
    if isinstance(board, Board) and board.words:
        if (m := re.match(r'([0-9]+) rounds:', said)) and m[1] in ROUNDS:
            return played(int(m[1]), ROUNDS[m[1]], board)
        if m := re.match(r'(V (-?[0-9]+), M, C in )([0-9]+) rounds:', said):
            return m[1] + played(int(m[3]), int(m[2]), board)
        if said in STANDINGS:
            return board.history.standing
        if (m := re.fullmatch(r'put to (.*)', said)) and m[1] in STANDINGS:
            board.history.standing = m[1]
            return said
    return None


def lines(stored):
    """The lines, worked out. Most begin with an opening; some of the merges' and of the refusals' go on where the last line ended."""
    board = None
    for line in stored:
        if line in BY_HAND:
            yield line
            continue
        if line.startswith('bytes'):
            yield reading(line)
            continue
        parts = []
        for said in line.split('; '):
            if found := opened(said):
                text, board = found
            else:
                text = part(said, board) if board else None
            parts.append(text or 'nothing that is worked out')
        yield '; '.join(parts)


def main():
    with open(STORED, encoding='utf-8') as f:
        stored = f.read().splitlines()
    wrong = [f'line {n}: {line}\n  worked out: {right}' for n, (line, right) in enumerate(zip(stored, lines(stored)), 1) if line != right]
    wrong += [f'{stored.count(line)} times, and not once: {line}' for line in BY_HAND if stored.count(line) != 1]
    for w in wrong:
        print(f'{STORED}, {w}', file=sys.stderr)
    return 1 if wrong else 0


sys.exit(main())
