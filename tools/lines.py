"""What the tools that are written in Python have in common: lines of text and the numbers in them, arguments, and how each of them ends.

A tool that fails says why in one line on standard error, and its status is not 0: 1 where its input or its output is wrong, 2 where an argument is, or a file cannot be read, 3 where a stream is cut,
130 where it is interrupted, and 141 where nobody reads its output any more.
"""
import io
import os
import re
import sys


class BadLine(Exception):
    """A line that is not what it should be; its text says why."""


class Failed(Exception):
    """Why a tool cannot go on, in one line, or None where that is said already; and its status."""

    def __init__(self, why, status=1):
        super().__init__(why)
        self.status = status


class Done(Exception):
    """A tool has said all that it was asked for."""


def short(word):
    """A word, cut where it is long."""
    return word if len(word) <= 40 else word[:36] + ' ..'


def number(word, least, greatest):
    """The whole number that a word writes, from least to greatest. The minus sign is - or −."""
    found = re.fullmatch('([-+\u2212]?)0*([0-9]+)', word)
    if not found:
        dash = '; its minus sign is - or \u2212, and this is another dash' if re.fullmatch('[\u2010-\u2015\ufe58\ufe63\uff0d][0-9]+', word) else ''
        raise BadLine(f'{short(word)!r} is not a whole number{dash}')
    sign, digits = found.groups()
    # No number in range has more than ten digits, and int() refuses those with thousands.
    value = int(digits[:11]) * (1 if sign in ('', '+') else -1)
    if len(digits) > 10 or not least <= value <= greatest:
        raise BadLine(f'{short(word)} is out of range: from {least} to {greatest}')
    return value


def four_bytes(n):
    """A number or a value as four bytes, least significant first."""
    # Two's complement of 32 bits is the remainder by 2 ** 32; a number that is not negative is its own.
    return (n % 2**32).to_bytes(4, 'little')


def meant(word, known):
    """What to say of a word that is none of those known: which of them was meant, if one was."""
    for it in known:
        if word.lower() == it.lower():
            return f": did you mean '{it}'?"
        if re.fullmatch(f'{it}[-+\u2212]?[0-9]+', word, re.IGNORECASE):
            return f": did you mean '{it} {short(word[len(it):])}'?"
    return ''


def text_of(stream):
    """The text of a stream of bytes: a byte-order mark is dropped, and the ends of its lines may be those of any system."""
    return io.TextIOWrapper(stream, encoding='utf-8-sig', errors='replace', newline=None)


def lines_of(name):
    """The lines of a file, or of standard input where the name is -, as they come."""
    try:
        if name == '-' and sys.stdin is None:
            raise Failed('standard input: it is closed', 2)
        with text_of(sys.stdin.buffer if name == '-' else open(name, 'rb')) as lines:
            for line in lines:
                if '\0' in line:
                    raise Failed(f'{shown(name)}: this is no text in UTF-8', 2)
                yield line
    except OSError as why:
        raise Failed(f'{shown(name)}: {why.strerror}', 2) from None


def shown(name):
    """The name of a file, in one line."""
    return 'standard input' if name == '-' else name if name and name.isprintable() else repr(name)


def said(at, why):
    """Says of a line its number and what is wrong with it."""
    print(f'line {at}: {why}', file=sys.stderr)


def arguments(given, usage, flags=(), most=1, least=0):
    """Of the arguments, those that are among the flags, and the others, which are at least so many and at most so many. Where they ask for help, the usage is printed, and the tool ends."""
    if '--help' in given or '-h' in given:
        write(usage.strip() + '\n')
        raise Done
    asked, others = set(), []
    for it in given:
        if it in flags:
            asked.add(it)
        elif it.startswith('-') and it != '-' and not re.fullmatch('-[0-9]+', it):
            raise Failed(f'{it} is no argument that is known: --help tells them', 2)
        else:
            others.append(it)
    if len(others) > most:
        raise Failed(f'there is an argument too many, {others[most]}: --help tells them', 2)
    if len(others) < least:
        raise Failed(f'an argument is missing: {usage.strip().splitlines()[0]}', 2)
    return asked, others


def write(data):
    """Writes bytes, or text, to standard output."""
    # Not by sys.stdout.buffer: where PYTHONUNBUFFERED is set, that leaves off in the middle when a disk is full, and does not tell.
    with open(sys.stdout.fileno(), 'wb', closefd=False) as out:
        out.write(data if isinstance(data, bytes) else data.encode())


def run(main):
    """Runs a tool's `main` on its arguments, and ends with its status."""
    # What is printed to a standard error that is closed would go to standard output.
    if sys.stderr is None:
        sys.stderr = open(os.devnull, 'w')
    tool = os.environ.get('FILKOTAR_TOOL') or os.path.basename(sys.argv[0])
    try:
        if sys.stdout is None:
            raise Failed('standard output: it is closed')
        try:
            status = main(sys.argv[1:])
            sys.stdout.flush()
        except BrokenPipeError:
            # The reader has seen enough: the status is that of any program which ends so in a pipe.
            status = 141
        except OSError as why:
            raise Failed(f'{os.environ.get("FILKOTAR_OUTPUT", "standard output")}: {why.strerror}') from None
    except Done:
        status = 0
    except Failed as why:
        if why.args[0] is not None:
            print(f'{tool}: {why}', file=sys.stderr)
        status = why.status
    except KeyboardInterrupt:
        status = 130
    sys.stderr.flush()
    # What could not be written is not tried again.
    os._exit(status)
