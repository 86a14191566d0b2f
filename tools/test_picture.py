#!/usr/bin/env python3
"""Tests of tools/picture: run `python3 tools/test_picture.py`, with the stream program and `lookup` built. The last line is 'N passed, M failed'.

The stored pictures must come out again byte by byte. Others are drawn of streams and takes that are made here: each must be XML, all its text must stand in it and apart from other text, and
it must say what the programs have told.
"""
import functools
import math
import os
import re
import sys
import tempfile
from xml.dom import minidom

# no files of Python's own beside these
sys.dont_write_bytecode = True
import commands
import picture
import takes
from checks import HERE, Checks, fails_to_write, one_line, refuses_arguments, right, run
from programs import output_of, path_of
from replies import decibels
from svg import width_of

EXAMPLES = os.path.join(os.path.dirname(HERE), 'examples')
# A program is looked for once.
picture.path_of = functools.lru_cache(maxsize=None)(path_of)

SIZES = {'heading': 17, 'small': 11, 'quiet': 11, 'dip-words': 11, 'flag-words': 11}


def wave(n, total):
    """A value that swings more and more, and clips at the end."""
    swing = math.sin(n * 17 / total) ** 2 * abs(math.sin(n * 0.37 + n * n / 90000))
    return round(64 - (46 + 30 * n / total) * swing + 3 * math.sin(n * 12.9898))


def stream_200():
    """Six marks, Queries and Closes, and refusals of 7, 8, 9 and 11."""
    found = ['M', 'Q 0']
    after = {18: 'M', 47: 'M M Q18', 60: 'Q18', 74: 'M', 90: 'Q47 Q18 C18', 101: 'M', 133: 'M C133 M', 140: 'Q47 Q101 C47 Q133', 160: 'M', 170: 'Q18 C300', 200: 'Q74 Q160 Q101'}
    for n in range(1, 201):
        found.append(f'V {wave(n, 200)}')
        found += [it[0] + (f' {it[1:]}' if it[1:] else '') for it in after.get(n, '').split()]
    return found


def stream_3000():
    """Up to 60 marks at a time, a hundred Queries, and refusals of 10."""
    found, active = [], []
    for n in range(1, 3001):
        found.append(f'V {wave(n, 3000)}')
        if n % 15 == 0 and n <= 900 or n % 45 == 0:
            found.append('M')
            if len(active) < 60:
                active.append(n)
        if n > 900 and n % 60 == 0:
            found.append(f'C {active.pop(n % 41)}')
        if n % 30 == 29:
            found.append(f'Q {active[n % len(active)] if active else 0}')
    return found


def take(total, *requests):
    return [str(wave(n, total)) for n in range(total)] + list(requests)


REQUESTS = ['search 0 199', 'search 30 99', 'stretch 64 127', 'rough 100 180 2', 'rough 10 60 20', 'rough 130 199 200', 'search 5 2', 'search 100 200', 'stretch 3 500', 'rough 5 6 0']
FAR = ['V -2147483648', 'M', 'V 2147483647', 'Q 1']

# Of each: its lines and the options.
PICTURES = {
    'nothing': ([], {}),
    'comments': (['# nothing', ''], {}),
    'the demo': (['V 12', 'M', 'V -3', 'Q 1', 'C 1', 'Q 1'], {}),
    'one value': (['V -5'], {}),
    'one value and a layer': (['V -5', 'M', 'Q 1'], {}),
    'equal values': (['V 12', 'M', *['V 12'] * 30, 'Q 1'], {}),
    'zeros': (['V 0', 'M', *['V 0'] * 30, 'Q 1'], {}),
    'the ends of the values': (['V 2147483647', 'M', 'V -2147483648', 'Q 1', 'V 0', 'M', 'Q 3', 'Q 4294967295'], {}),
    'a few values far off': ([f'V {wave(n, 60)}' for n in range(60)] + ['M', *FAR, 'Q 60', 'Q 61'], {}),
    'only refusals': (['M', *(f'Q {n}' for n in range(900))], {}),
    '200 values': (stream_200(), {}),
    '60 marks on 70 values': ([it for n in range(70) for it in (f'V {wave(n, 70)}', 'M')] + [f'Q {n}' for n in range(1, 70)], {}),
    '3000 values': (stream_3000(), {}),
    'a layer on each value, and each closed': ([it for n in range(1, 1000) for it in (f'V {wave(n, 999)}', 'M', f'Q {n}', f'C {n}')], {}),
    'a take of 200': (take(200, *REQUESTS), {}),
    'a take of 200 in columns': (take(200, *REQUESTS), {'--looks': 12, '--columns': 30}),
    'a take of 200 without looks': (take(200), {'--looks': 0}),
    'a take of 3000': (take(3000, 'search 0 2999', 'search 400 1400', 'rough 1000 2000 20'), {}),
    'a take of 3000 with all looks': (take(3000), {'--looks': 2**32 - 1, '--columns': 1000}),
    'a take of 8192': (take(8192, 'search 0 8191', 'rough 1000 5000 40'), {'--columns': 120}),
    'many requests': (take(150, *(f'search {n} {min(149, n + 9 + n % 30)}' for n in range(140)), *(f'rough {n} {n + 20} {n % 9}' for n in range(0, 120, 7))), {}),
    'no room for columns': (take(100, *['search 0 9'] * 5009), {'--looks': 3}),
    'an altered index': (take(200, 'rough 0 199 5', 'set 1 -200', 'search 0 199', 'rough 0 199 5', 'set 9 1'), {}),
    'an index of another length': (take(700, 'index 3', 'search 0 199', 'rough 0 199 5', 'stretch 0 20'), {}),
    'an empty take': (['search 0 0', 'rough 0 0 4', 'stretch 0 0'], {'--looks': 1}),
    'a take of one': (['-7', 'search 0 0', 'rough 0 0 1', 'rough 0 0 0'], {'--columns': 5}),
    'a take with the ends of the values': (['-2147483648', '2147483647', 'search 0 1', 'search 1 1', 'rough 0 1 3', 'rough 0 1 1'], {}),
    'a take with no reading': (take(90, '-2147483648', 'search 0 89', 'search 0 90', 'rough 0 90 99'), {}),
}


def texts(drawn):
    """Of each text of a picture: its words and the box in which it stands."""
    for it in drawn.getElementsByTagName('text'):
        size = next((SIZES[name] for name in it.getAttribute('class').split() if name in SIZES), 12)
        words, x, y = it.firstChild.data, float(it.getAttribute('x')), float(it.getAttribute('y'))
        width = width_of(words, size)
        left = x - {'': 0, 'end': width, 'middle': width / 2}[it.getAttribute('text-anchor')]
        # A width is taken for more than it is: text in a row may come as near as a tenth of that.
        yield words, (left + width * 0.05, y - size * 0.75, left + width * 0.95, y + size * 0.2)


def misplaced(drawn):
    """The texts that do not stand in the picture, and those that overlap."""
    root = drawn.documentElement
    found = list(texts(drawn))
    width, height = float(root.getAttribute('width')), float(root.getAttribute('height'))
    bad = [words for words, it in found if it[0] < 0 or it[1] < 0 or it[2] > width or it[3] > height]
    found.sort(key=lambda it: it[1][1])
    for at, (words, it) in enumerate(found):
        for other, that in found[at + 1:]:
            if that[1] >= it[3]:
                break
            if it[0] < that[2] and that[0] < it[2]:
                bad.append((words, other))
    return bad


def told_of(lines, of_commands):
    """What the programs tell of these lines: the least values with their places, and a pattern of each refusal, as the picture must say it."""
    if of_commands:
        given = commands.read(lines).commands
        told = [it.split()[2:] for it in output_of(picture.path_of('stream'), b''.join(it.bytes() for it in given), len(given) + 2)[1:-1]]
        both = list(enumerate(zip(given, told), start=1))
        return {(it[1], it[2]) for _, (_, it) in both if len(it) == 3}, [rf'command {n}(, {it}, refused with {reply[0]}: | \({it}\) at )' for n, (it, reply) in both if reply[0] != '0']
    given = takes.read(lines)[0]
    told = [it.split()[1:] for it in output_of(picture.path_of('lookup'), given.bytes(), len(given.requests) + 3)[2:-1]]
    refusals = [['stretch', '0'], *([name, reply] for name in ('search', 'rough') for reply in ('14', '15'))]
    return {(it[2], it[3]) for it in told if it[:2] == ['search', '0']}, [rf'request {n} \({it[0]} ' for n, it in enumerate(told, start=1) if it[:2] in refusals]


def wrong(lines, options):
    """What is wrong with the picture of these lines, if anything."""
    of_commands = picture.are_commands(lines)
    status, drawn = picture.commands_picture(lines) if of_commands else picture.take_picture(lines, options)
    parsed = minidom.parseString(drawn)
    seen, pointed_at = ('\n'.join(it.firstChild.data for it in parsed.getElementsByTagName(name)) for name in ('text', 'title'))
    least, refusals = told_of(lines, of_commands)
    bad = misplaced(parsed)
    for value, place in least:
        words = decibels(int(value))
        # A very long list ends with how many there are more.
        bad += [] if words in seen or '.. and ' in seen else [f'{words} is not seen']
        bad += [] if f'{words} at {place}: ' in pointed_at else [f'{words} at {place} is no dot']
    bad += [it for it in refusals if not re.search(it, f'{seen}\n{pointed_at}')]
    dots = [it for it in parsed.getElementsByTagName('circle') if it.getAttribute('class') == 'dip' and it.firstChild]
    bad += [] if len(dots) == len(least) else [f'{len(dots)} dots, not {len(least)}']
    bad += [] if status == 0 and 'nan' not in drawn and not re.search(r'(width|height|r)="-', drawn) else ['a number that is none']
    return bad


# Of each: the arguments, what is read, the exit status, and a piece of each line on standard error.
FAILURES = [
    (['--looks', 'x', '-'], '1\n', 2, ["tools/picture: --looks takes a number: 'x' is not a whole number"]),
    (['--looks=-1', '-'], '1\n', 2, ['tools/picture: --looks takes a number: -1 is out of range: from 0 to 4294967295']),
    (['--columns', '0', '-'], '1\n', 2, ['tools/picture: --columns takes a number: 0 is out of range: from 1 to 1000']),
    (['-', '--columns'], '1\n', 2, ['tools/picture: --columns takes a number, and there is none']),
    (['--looks', '3', '-'], 'V 1\n', 2, ['tools/picture: --looks is for a take, and standard input has none']),
    (['/absent/file'], '', 2, ['tools/picture: /absent/file: No such file or directory']),
    (['/'], '', 2, ['tools/picture: /: Is a directory']),
    (['-'], 'V 1\nX 3\nQ\n', 1, ["line 2: unknown command 'X'", 'line 3: Q takes an argument']),
    (['-'], 'v 1\n', 1, ["line 1: unknown command 'v': did you mean 'V'?"]),
    (['-'], '1\nx\nsearch 0\n', 1, ["line 2: unknown item 'x'", 'line 3: search takes two numbers']),
    (['-'], '0\n' * 8193, 1, ['line 8193: there are more than 8192 values']),
]


def main():
    checks = Checks()
    for name in ('stream', 'lookup'):
        picture.path_of(name)
    for name in ('dip', 'take'):
        text, stored = (os.path.join(EXAMPLES, f'{name}.{kind}') for kind in ('txt', 'svg'))
        with open(stored, 'rb') as kept:
            result = run('picture', [text])
            checks.check(stored, right(result, 0, kept.read(), []), (result.returncode, result.stderr))
        with open(text, encoding='utf-8') as lines:
            bad = wrong(list(lines), {})
        checks.check(text, not bad, bad)
    for name, (lines, options) in PICTURES.items():
        bad = wrong(lines, options)
        checks.check(name, not bad, bad)
    for arguments, text, status, messages in FAILURES:
        result = run('picture', arguments, text.encode())
        checks.check(arguments, right(result, status, b'', messages), result)
    result = run('picture', ['-'], b'V 7\n' * 3277)
    checks.check('a stream that is cut', b'over 3276 values' in result.stdout and right(result, 3, result.stdout, ['line 3277: the stream program reads']), result)
    refuses_arguments(checks, 'picture', 'usage: tools/picture [--looks B] [--columns C] FILE', [], ['a', 'b'])
    fails_to_write(checks, 'picture', ['-'])
    checks.end()


if __name__ == '__main__':
    main()
