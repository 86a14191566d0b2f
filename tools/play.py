#!/usr/bin/env python3
"""usage: tools/play [-k] [FILE]

Runs commands given as text through the engine, and prints the stream program's
lines, each with what it says in words:

  V 12    a value, in quarter decibels of headroom; below zero is clipping
  M       a mark: a layer starts at the present position
  Q 1     how low has headroom sunk since the mark at position 1, and where?
  C 1     the mark at position 1 is forgotten

One command stands on a line; blank lines and lines that start with # are
skipped. Without FILE, or where it is -, standard input is read; in a terminal
each line is answered as it is typed, and Ctrl-D ends. There is room for 60
marks at a time.

Where a line of a file is bad nothing runs: the number of each bad line, and
what is wrong with it, go to standard error, and the exit status is 1.

  -k      the good lines run all the same. A Value that drops out shifts all
          later positions

The stream program reads no more than 16384 bytes, in which there is room for
3276 Values. Where there are more, the line on which the limit falls goes to
standard error, and the exit status is 3. It is 2 where the file cannot be
read. The program is proved and built first, where that is not done yet: from
nothing this takes some minutes.
"""
import contextlib
import sys

# no files of Python's own beside these
sys.dont_write_bytecode = True
from commands import LIMIT, command, read
from lines import BadLine, arguments, lines_of, run, write
from programs import output_of, path_of
from replies import decibels, refused


def in_words(line, it, present, room):
    """What a line of the stream program says. It answers a command, but for the first and the last line; then the present position is this, and there is room for so many marks."""
    words = line.split()
    if words[0] == 'taps':
        return f'room for {words[1]} marks at a time'
    if words[0] == 'end':
        return f'commands read: {words[1]}, accepted: {words[2]}; marks active: {words[3]}'
    number = int(words[2])
    if number != 0:
        return f'refused with {number}: {refused(number, it.argument, present, room)}'
    if it.letter == 'V':
        return f'headroom {decibels(it.argument)} at {present}{", clipping" if it.argument < 0 else ""}'
    if it.letter == 'M':
        return f'a layer starts at {present}'
    if it.letter == 'Q':
        return f'least headroom since {it.argument}: {decibels(int(words[3]))} at {words[4]}'
    return f'the layer since {it.argument} is forgotten'


def explained(lines, commands):
    """The lines of the stream program for these commands, each with what it says in words."""
    room = int(lines[0].split()[1])
    present = 0
    found = []
    for line, it in zip(lines, [None, *commands, None]):
        if it is not None and it.letter == 'V' and line.split()[2] == '0':
            present += 1
        found.append((line, in_words(line, it, present, room)))
    return found


def transcript(path, commands):
    """All of it, as the stream program prints it: a line for its room, one for each command, and one for the counts."""
    return explained(output_of(path, b''.join(it.bytes() for it in commands), len(commands) + 2), commands)


def beside(found, width):
    line, words = found
    return f'{line:<{width}}    {words}'


def typed(path):
    """Answers each line as it is typed."""
    with contextlib.suppress(ImportError):
        import readline  # noqa: F401, lines can be edited and called up again
    # as the lines of a file are read
    sys.stdin.reconfigure(encoding='utf-8', errors='replace')
    prompt = '> ' if sys.stdout.isatty() else ''
    width = 14
    commands = []
    if prompt:
        print('V 12, M, Q 1, C 1: one to a line. Ctrl-D ends.')
    print(beside(transcript(path, [])[0], width), flush=True)
    at = 0
    while True:
        try:
            line = input(prompt)
        except EOFError:
            break
        at += 1
        try:
            it = command(at, line)
            if it is None:
                continue
            if len(b''.join(c.bytes() for c in commands + [it])) > LIMIT:
                raise BadLine(f'the stream program reads no more than {LIMIT} bytes, and this command is behind them')
        except BadLine as why:
            print(f'{why}', file=sys.stderr, flush=True)
            continue
        commands.append(it)
        print(beside(transcript(path, commands)[-2], width), flush=True)
    if prompt:
        print()
    print(beside(transcript(path, commands)[-1], width), flush=True)
    return 0


def main(given):
    asked, files = arguments(given, __doc__, flags=['-k'])
    name = (files or ['-'])[0]
    if name == '-' and sys.stdin is not None and sys.stdin.isatty():
        return typed(path_of('stream'))
    stream = read(lines_of(name))
    if stream.bad and '-k' not in asked:
        return stream.status()
    found = transcript(path_of('stream'), stream.commands)
    width = max(len(line) for line, _ in found)
    write(''.join(f'{beside(it, width)}\n' for it in found))
    return stream.status()


if __name__ == '__main__':
    run(main)
