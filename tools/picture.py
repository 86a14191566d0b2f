#!/usr/bin/env python3
"""usage: tools/picture [--looks B] [--columns C] FILE > dip.svg

Draws what FILE says as an SVG picture on standard output. FILE is - for
standard input. The answers are those of the programs `stream` and `lookup`.

Commands, as tools/play takes them: the values as a line, the marks as flags
with the spans of their layers until the Close, each Query's least value as a
dot at its place, and refused commands by their names. A take and requests, as
tools/lookup takes them: the values as a line, and what each request was told.
The first line that is neither blank nor a comment tells which of both it is:
commands begin with V, M, Q or C.

A take of more than 600 values, and any take with one of the options, is drawn
from rough readings too: in each of C columns the exact least value and, from a
rough reading with B looks, the band in which it must lie, with the looks that
were used.

  --looks B      the budget of looks for each column, from 0 to 4294967295;
                 without it, 16
  --columns C    how many columns, from 1 to 1000; without it, 100. There are no
                 more than values, and no more than the program has room for

Where a line is bad nothing is drawn: the number of each bad line, and what is
wrong with it, go to standard error, and the exit status is 1. The stream
program reads no more than 16384 bytes: where there are more, what it reads is
drawn, the line on which the limit falls goes to standard error, and the exit
status is 3. It is 2 where an argument is wrong or the file cannot be read. The
programs are proved and built first, where that is not done yet: from nothing
this takes some minutes.
"""
import sys

# no files of Python's own beside these
sys.dont_write_bytecode = True
import commands
import takes
from lines import BadLine, Failed, arguments, lines_of, number, run, shown, write
from picture_commands import commands_drawn
from picture_takes import columns_of, take_drawn
from programs import output_of, path_of

# The options, each with the least and the greatest number that it takes.
OPTIONS = {'--looks': takes.NUMBER, '--columns': (1, 1000)}
LONG = 600


def options(given):
    """The options with their numbers, and the arguments that are none."""
    found, others = {}, []
    rest = iter(given)
    for it in rest:
        name, equals, word = it.partition('=')
        if name not in OPTIONS:
            others.append(it)
            continue
        word = word if equals else next(rest, None)
        if word is None:
            raise Failed(f'{name} takes a number, and there is none', 2)
        try:
            found[name] = number(word, *OPTIONS[name])
        except BadLine as why:
            raise Failed(f'{name} takes a number: {why}', 2) from None
    return found, others


def are_commands(lines):
    """Whether lines are commands, and no take; where there is nothing they are commands."""
    first = next((it.strip() for it in lines if it.strip() and not it.strip().startswith('#')), 'V')
    return first[0].upper() in commands.KINDS


def commands_picture(lines):
    """The exit status for commands, and their picture; none where a line is bad."""
    stream = commands.read(lines)
    status = stream.status()
    return status, '' if stream.bad else commands_drawn(stream.commands, output_of(path_of('stream'), stream.bytes(), len(stream.commands) + 2))


def take_picture(lines, asked):
    """The exit status for a take, and its picture; none where a line is bad."""
    take, bad = takes.read(lines)
    if bad:
        return 1, ''
    budget = asked.get('--looks', 16)
    columns = columns_of(take, asked.get('--columns', 100)) if asked or len(take.values) > LONG else None
    own = take.requests
    take.requests = [it for column in columns or [] for it in column.requests(budget)] + own
    return 0, take_drawn(take.values, own, output_of(path_of('lookup'), take.bytes(), len(take.requests) + 3), columns, budget)


def main(given):
    if '--help' in given or '-h' in given:
        arguments(['--help'], __doc__)
    asked, others = options(given)
    name, = arguments(others, __doc__, least=1)[1]
    lines = list(lines_of(name))
    of_commands = are_commands(lines)
    if of_commands and asked:
        raise Failed(f'{next(iter(asked))} is for a take, and {shown(name)} has none', 2)
    status, drawn = commands_picture(lines) if of_commands else take_picture(lines, asked)
    write(drawn)
    return status


if __name__ == '__main__':
    run(main)
