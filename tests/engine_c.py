#!/usr/bin/env python3
"""What the C programs on the engine print, worked out from document 01, with points 1 and 5 of document 02: of boards that are played by their histories, which tests/bookkeeper.py keeps, and by
the gains of tests/gain.py; of any other session and words by what document 01 fixes for all. Nothing here is taken from the crates.

  python3 tests/engine_c.py lent   | diff - tests/firmware/lent.out
  python3 tests/engine_c.py looper | diff - examples/looper.out

The last part of lent.out has digests of lines. The lines themselves, which tests/firmware/lent.c prints too where it has the argument `calls`:

  python3 tests/engine_c.py calls
"""
import os
import re
import sys
from dataclasses import dataclass, replace

# no files of Python's own beside these
sys.dont_write_bytecode = True
import bookkeeper
import gain

LAST = 2**32 - 1
LOW, HIGH = -2**31, 2**31 - 1
STANDINGS = ['none', 'unmarked', 'marked', 'closed']
NONE, UNMARKED, MARKED, CLOSED = range(4)
# what a promise leaves open
OPEN = '-'


@dataclass
class Session:
    """C's filkotar_session."""
    words: int = 0
    limit: int = 0
    active: int = 0
    present: int = 0
    last: int = 0
    standing: int = 0

    def __str__(self):
        return f'{self.words} {self.limit} {self.active} {self.present} {self.last} {self.standing}'


def line(what, number, shown, session):
    return f'{what}: {number} {shown[0]} {shown[1]} of {session}'


NOTHING = (0, 0)


class Board:
    """A board as calls leave it: the history since its opening and, as in lent.c, the latest positions that were marked."""

    def __init__(self, words):
        self.words = words
        self.history = bookkeeper.History(words)
        self.count = min(self.history.limit, 8)
        self.marks = [0] * self.count

    def session(self):
        h = self.history
        return Session(self.words, h.limit, len(h.marks), len(h.values), (h.values or [0])[-1], STANDINGS.index(h.standing))

    def tell(self, letter, argument):
        """The reply's number, and what it shows."""
        number, *shown = self.history.tell(letter, argument)
        if letter == 'M' and number == 0:
            self.marks = [len(self.history.values), *self.marks[:-1]]
        return number, shown or NOTHING


def opened(length):
    """The number of an opening, and the session."""
    return (0, Board(length).session()) if length >= 576 else (1, Session())


class Noise:
    """The numbers that lent.c makes."""

    def __init__(self):
        self.noise = 1

    def below(self, n):
        self.noise = (self.noise * 1664525 + 1013904223) % 2**32
        return self.noise // 2**16 % n

    def one_of(self, of):
        return of[self.below(len(of))]

    def value(self):
        return [LOW, *range(-19, 20), HIGH][self.below(41)]

    def command(self, present, marks):
        letter = self.one_of('VVVVVVMMMMMQQQQQCCCC')
        if letter == 'V':
            return letter, self.value()
        if letter == 'M':
            return letter, None
        if self.below(4) > 0:
            return letter, self.one_of(marks)
        return letter, (present - self.below(4)) % 2**32


def text(letter, argument):
    return letter if argument is None else f'{letter} {argument}'


def openings():
    for length in 0, 1, 511, 512, 575, 576, 639, 640, 4351, 4352, 262655, 262656, 262720:
        number, session = opened(length)
        for _ in range(4):
            yield line(f'{length} words', number, NOTHING, session)


def boards(noise):
    lengths = 576, 640, 1055
    of = {}
    for calls in range(900):
        n = calls if calls < 3 else noise.below(3)
        if calls < 3 or noise.below(100) == 0:
            of[n] = Board(lengths[n])
            yield line(f'board {n} opened', 0, NOTHING, of[n].session())
            continue
        board, lent = of[n], lengths[n]
        command = noise.command(len(board.history.values), board.marks)
        chance = noise.below(20)
        if chance == 0:
            lent += [1, 64][noise.below(2)]
        elif chance == 1:
            lent -= [1, 64][noise.below(2)]
        elif chance == 2:
            lent = 0
        if chance == 3:
            yield line(f'unopened {n} lent {lent}, {text(*command)}', 4, NOTHING, Session(0, 2**64 - 1, 1, LAST, -1, LAST))
            continue
        number, shown = board.tell(*command) if lent == board.words else (5, NOTHING)
        yield line(f'board {n} lent {lent}, {text(*command)}', number, shown, board.session())


def promised(s, length, letter, argument):
    """Of any session and any words of a length: the reply's number, what it shows, and the session then; OPEN for what the promise leaves open."""
    def refused(number):
        return number, NOTHING, s

    if s.words == 0:
        return refused(4)
    if length != s.words:
        return refused(5)
    if letter == 'V':
        if s.present == LAST:
            return refused(6)
        return 0, NOTHING, replace(s, active=OPEN, present=s.present + 1, last=argument, standing=UNMARKED)
    if letter == 'M':
        if s.standing != UNMARKED:
            return refused({NONE: 7, MARKED: 8}.get(s.standing, 9))
        if s.active == s.limit:
            return refused(10)
        if s.active >= 4096:  # 0 or 10
            return OPEN, NOTHING, replace(s, active=OPEN, standing=OPEN)
        return 0, NOTHING, replace(s, active=OPEN, standing=MARKED)
    if not 0 < argument <= s.present:
        return refused(11)
    if letter == 'Q':  # 0 or 11
        return OPEN, (OPEN, OPEN), s
    if s.active == 0:
        return refused(11)
    return OPEN, NOTHING, replace(s, active=OPEN, standing=OPEN)


def replaced(s, noise):
    s = replace(s)
    chance = noise.below(8)
    if chance == 0:
        s.words = 0
    elif chance == 1:
        s.words = (s.words + [1, -1][noise.below(2)]) % 2**64
    if noise.below(2) == 0:
        s.limit = noise.one_of([0, 1, 2, 60, 4095, 4096, 4097, 2**32, 2**63, 2**64 - 1])
    if noise.below(2) == 0:
        s.active = noise.one_of([0, 1, s.limit - 1, s.limit, s.limit, s.limit + 1, 4095, 4096, 4097, 2**64 - 1]) % 2**64
    if noise.below(2) == 0:
        s.present = noise.one_of([0, 1, 2, 64, s.present + 1, 2**31, LAST - 1, LAST]) % 2**32
    if noise.below(2) == 0:
        s.last = noise.one_of([0, -1, LOW, HIGH])
    if noise.below(2) == 0:
        s.standing = noise.one_of([0, 1, 1, 1, 2, 3, 4, 5, 255, 256, 2**31, LAST])
    return s


def junk_command(present, marks, noise):
    letter, argument = noise.command(present, marks)
    if letter in 'QC' and noise.below(3) == 0:
        argument = noise.one_of([0, 1, 2, present, present + 1, LAST]) % 2**32
    return letter, argument


LONGEST = 512 + 64 * 4096 + 64


def played(length, noise):
    board = Board(length)
    for _ in range(100):
        board.tell(*noise.command(len(board.history.values), board.marks))
    for _ in range(4096 if length == LONGEST else 0):
        board.tell('V', noise.value())
        board.tell('M', None)
    return board.session(), board.marks


def junk_calls(length, kind, noise):
    """The lines, each with its number."""
    session = Session(length, (length - 512) // 64 if length >= 576 else 0, 0, 7, 5, UNMARKED)
    marks = [0] * max(1, min(session.limit, 8))
    left = kind == 'as left' and length >= 576
    if left:
        session, marks = played(length, noise)
    for _ in range(20 if length == LONGEST else 240 if left else 60):
        s = session if noise.below(4) == 0 else replaced(session, noise)
        command = junk_command(s.present, marks, noise)
        number, shown, after = promised(s, length, *command)
        yield number, line(f'{s}, {text(*command)}', number, shown, after)


def digest(lines):
    """FNV-1a."""
    d = 0xcbf29ce484222325
    for byte in ''.join(lines).encode():
        d = (d ^ byte) * 0x100000001b3 % 2**64
    return d


def junk(noise, each):
    for length in 0, 1, 8, 511, 512, 513, 575, 576, 640, 1024, 4352, LONGEST:
        for kind in 'zeros', 'ones', 'small', 'any', 'as left':
            for _ in range(2):
                numbers, lines = zip(*junk_calls(length, kind, noise))
                if each:
                    yield from lines
                counts = ''.join(f' {numbers.count(n)} of {n},' for n in range(16) if n in numbers)
                yield f'{length} words, {kind}:{counts} {numbers.count(OPEN)} of {OPEN}; {digest(lines):016x}'


def lent(each=False):
    noise = Noise()
    yield from openings()
    yield from boards(noise)
    yield from junk(noise, each)


def calls():
    yield from lent(each=True)


LOOPER = os.path.join(os.path.dirname(__file__), '../examples/looper.c')


def looper():
    """The log of the samples that stand in the program's table."""
    with open(LOOPER, encoding='utf-8') as program:
        samples = re.findall(r'\{(-?[0-9]+), "([TD]*)"\}', program.read())
    history = bookkeeper.History(512 + 64 * 8)
    for headroom, foot in samples:
        history.tell('V', int(headroom))
        present = len(history.values)
        for step in foot:
            # a ninth layer takes the place of the oldest
            number = history.refusal('M', None) if step == 'T' else 0
            if history.marks and (step == 'D' or number == 10):
                yield f'{present}: layer {history.marks[0]} is dropped'
                history.tell('C', history.marks[0])
            if step == 'T':
                number = history.tell('M', None)[0]
                yield f'{present}: no layer starts, {number}' if number else f'{present}: a layer starts'
        if present % 6 == 0:
            for layer in history.marks:
                value, place = history.minimum(layer)
                yield f'{present}: layer {layer} dips to {value} at {place}, gain {gain.gain(value)}'


LINES = {'lent': lent, 'calls': calls, 'looper': looper}
if len(sys.argv) != 2 or sys.argv[1] not in LINES:
    sys.exit(__doc__)
print(*LINES[sys.argv[1]](), sep='\n')
