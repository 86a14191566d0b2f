#!/usr/bin/env python3
"""The documents against each other and against the source: run `python3 tests/documents.py` at the root of the repository. The last line is 'N passed, M failed'.

- The numbers of docs/PROMISE.md run from 1 in each of its sections, and each stands in the first column of one row of docs/TRACE.md, which has no others.
- What docs/TRACE.md names between backticks exists where it says, but for its notation: `CRATE FILE.name` in specs/ or proofs/ of the crate, `crate::name` in src/, a must-fail edit as `crate/edit`, a file by its path;
  and a name that stands alone in the crate and the file that were named last, in the same cell or item.
- Its counts of lines are the counts: without imports and blank ones, and without specs/Lib.antt, the list of a crate's files; where a definition is named, its own lines with the comment above it.
- README's table of replies has the words with which the tools say them, its price classes are as many words as a class has, and as many bytes, and its count of lines is docs/TRACE.md's.
- The files that README.md and docs/ name by path exist. docs/changes/, docs/PORT.md and docs/DESIGN-PASS.md speak of the past and are left out.
"""
import collections
import functools
import glob
import os
import re
import sys

# no files of Python's own beside these
sys.dont_write_bytecode = True
sys.path.insert(0, os.path.join(os.path.dirname(os.path.abspath(__file__)), '..', 'tools'))
from replies import REPLIES

PROMISE, TRACE = 'docs/PROMISE.md', 'docs/TRACE.md'
PAST = ['docs/PORT.md', 'docs/DESIGN-PASS.md']
NUMBER = r'[DP]?[0-9]+\.[0-9]+'
NAME = r"[^\W\d][\w'-]*"

passed = failed = 0


def check(good, what):
    global passed, failed
    if good:
        passed += 1
    else:
        failed += 1
        print(what)


@functools.cache
def text(path):
    with open(path, encoding='utf-8') as f:
        return f.read()


def lines(path):
    return enumerate(text(path).splitlines(), 1)


# THE NUMBERS

def promised():
    """The numbers of the sentences, in their order."""
    found = [m[1] for _, line in lines(PROMISE) if (m := re.match(rf'(?:- |\| )\*\*({NUMBER})\*\* ', line))]
    counted = collections.Counter()
    for number in found:
        section, n = number.split('.')
        counted[section] += 1
        check(int(n) == counted[section], f'{PROMISE}: {number} stands where {section}.{counted[section]} should')
    check(len(found) == len(re.findall(rf'\*\*{NUMBER}\*\*', text(PROMISE))), f'{PROMISE}: a number stands elsewhere than before its sentence')
    for wanted in ['D1', 'D2', 'D3'] + list('12345678') + [f'P{n}' for n in range(1, 7)]:
        check(counted[wanted] > 0, f'{PROMISE}: section {wanted} has no sentence')
    for remark in re.findall(r'Changed by ([^:]*):', text(PROMISE)):
        for number in re.findall(NUMBER, remark):
            check(number in found, f'{PROMISE}: a sentence is changed by {number}, which is none')
    return found


def cells(line):
    return [cell.strip() for cell in re.split(r'(?<!\\)\|', line)[1:-1]]


def rows(path):
    """The rows of the tables, each with its line's number, without the heads."""
    held = list(lines(path))
    for (n, line), (_, after) in zip(held, held[1:] + [(0, '')]):
        if line.startswith('|') and not line.startswith('|---') and not after.startswith('|---'):
            yield n, cells(line)


def traced(numbers):
    where = collections.defaultdict(list)
    for n, row in rows(TRACE):
        check(len(row) in (3, 4) and all(row), f'{TRACE}, line {n}: a row of {len(row)} cells, or with an empty one')
        if len(row) == 4 and row[0] != '–':
            check(re.fullmatch(rf'{NUMBER}(, {NUMBER})*', row[0]), f'{TRACE}, line {n}: {row[0]} is no list of numbers')
            for number in re.findall(NUMBER, row[0]):
                where[number].append(n)
    for number in numbers:
        check(len(where[number]) == 1, f'{TRACE}: {number} stands in {len(where[number])} rows, and not in one')
    for number, found in where.items():
        check(number in numbers or not found, f'{TRACE}: {number} stands in a row and is no sentence of {PROMISE}')
    # in the text of a row, too, a number is a sentence's
    for n, line in lines(TRACE):
        for number in re.findall(r'\b[DP][0-9]+\.[0-9]+\b', line):
            check(number in numbers, f'{TRACE}, line {n}: {number} is no sentence of {PROMISE}')


# THE NAMES

CRATES = sorted(os.path.basename(path) for path in glob.glob('crates/*'))


@functools.cache
def declared(path):
    """What an .antt file declares: each name, with the names within where it is a record's or a type's; and which of them stand within one alone."""
    found, free, open_, comment = {}, set(), [], r'\s*--'
    for _, line in lines(path):
        if not line.strip() or re.match(comment, line) or line.startswith('use '):
            continue
        depth = len(line) - len(line.lstrip())
        while open_ and depth <= open_[-1][0]:
            open_.pop()
        m = re.match(rf'\s*(?:pub )?(record|data) ({NAME})', line) or re.match(rf'\s*(?:unfoldable |abbrev )?(?:pub )?()({NAME}) :(?: |$)', line)
        if m:
            found.setdefault(m[2], set())
            if open_:
                found[open_[-1][1]].add(m[2])
            else:
                free.add(m[2])
            if m[1]:
                open_.append((depth, m[2]))
    return found, found.keys() - free


@functools.cache
def source(crate):
    """What a crate's source declares: each name, and of types, implementations and modules the names within."""
    found = {}
    for path in glob.glob(f'crates/{crate}/src/**/*.rt', recursive=True):
        module = os.path.basename(path).removesuffix('.rt')
        within = found.setdefault(module, set())
        block = []
        for _, line in lines(path):
            if line.lstrip().startswith('//'):
                continue
            if line.startswith('}'):
                block = []
            named = [m[1] for m in re.finditer(r'\b(?:fn|struct|enum|type|const|trait|mod)\s+([A-Za-z_]\w*)', line)]
            if block:
                named += [m[1] for m in re.finditer(r'^ {4}(?:pub )?(?:ghost )?([A-Za-z_]\w*)(?::|,|\(|$)', line)]
            for name in named:
                found.setdefault(name, set())
                within.add(name)
                for b in block:
                    found[b].add(name)
            m = re.match(r'(?:pub )?(?:struct|enum|impl)\b(.*)\{$', line)
            if m:
                block = [b for b in re.findall(r'[A-Za-z_]\w*', m[1]) if b not in ('for', 'pub', 'a')]
                for b in block:
                    found.setdefault(b, set())
    return found


def files(crate, name):
    return [path for part in ('specs', 'proofs') if os.path.exists(path := f'crates/{crate}/{part}/{name}.antt')]


class Names:
    """Names in the order in which a cell or an item has them: which crate and file, or source, or edits, were named last, and which record."""

    def __init__(self):
        self.crate, self.place, self.record = None, None, None

    def at(self, crate, place, record=None):
        self.crate, self.place, self.record = crate, place, record
        return True

    def known(self, name):
        """What is declared within a name at the place that was named last, or None where there is no such name. A field is known behind its record alone."""
        if self.place == 'source':
            return source(self.crate).get(name)
        if isinstance(self.place, list):
            for found, fields in map(declared, self.place):
                if name in found and (name not in fields or name in found.get(self.record, ())):
                    return found[name]
        return None

    def path(self, name):
        here = glob.glob(name) or glob.glob(f'crates/{name}') or glob.glob(f'crates/{name}.antt')
        if here:
            m = re.match(r'crates/(\w+)(?:/(specs|proofs|src)(/.*)?)?$', here[0])
            if m:
                return self.at(m[1], [here[0]] if m[3] and here[0].endswith('.antt') else 'source')
            return True
        crate, _, edit = name.partition('/')
        return os.path.exists(f'crates/{crate}/must-fail/{edit}.edit') and self.at(crate, 'edits')

    def code(self, parts):
        crate = self.crate
        if parts[0] in CRATES and len(parts) > 1:
            crate, parts = parts[0], parts[1:]
        if crate is None or parts[0] not in source(crate):
            return False
        return all(b in source(crate)[a] for a, b in zip(parts, parts[1:])) and self.at(crate, 'source')

    def dotted(self, parts):
        """FILE.name or FILE.Record.field, or Record.field of the file named last."""
        if self.crate and files(self.crate, parts[0]) and self.known(parts[0]) is None:
            self.at(self.crate, files(self.crate, parts[0]))
            parts = parts[1:]
        if not parts:
            return True
        inner = self.known(parts[0])
        if inner is None or not all(b in (inner if k == 0 else ()) for k, b in enumerate(parts[1:])):
            return False
        self.record = parts[0] if inner else self.record
        return True

    def alone(self, name):
        if self.place == 'edits':
            if os.path.exists(f'crates/{self.crate}/must-fail/{name}.edit'):
                return True
        elif self.known(name) is not None:
            return self.dotted([name])
        if self.crate and files(self.crate, name):
            return self.at(self.crate, files(self.crate, name))
        return name in CRATES and self.at(name, 'source')

    def has(self, name):
        if '/' in name:
            return self.path(name)
        m = re.fullmatch(rf'([a-z_0-9]+) ({NAME}(?:\.{NAME})*)', name)
        if m:
            if not (m[1] in CRATES and files(m[1], m[2].split('.')[0])):
                return False
            self.at(m[1], None)
            return self.dotted(m[2].split('.'))
        if '::' in name:
            return self.code(name.split('::'))
        if re.fullmatch(rf'{NAME}(?:\.{NAME})+', name):
            return os.path.exists(name) or self.dotted(name.split('.'))
        return bool(re.fullmatch(NAME, name)) and self.alone(name)


def named():
    section = None
    for n, line in lines(TRACE):
        if line.startswith('## '):
            section = line
        if section == '## Notation':
            continue
        for cell in cells(line) if line.startswith('|') else [line]:
            names = Names()
            for name in re.findall(r'`([^`]*)`', cell):
                # how names are written is said of CRATE and FILE
                check('CRATE' in name or names.has(name), f'{TRACE}, line {n}: {name} is not there')


# THE COUNTS

def paragraphs(path):
    return [[line for line in p.splitlines() if line.strip() and not line.startswith('use ')] for p in re.split(r'\n\s*\n', text(path))]


def counted(cell):
    total, crate = 0, None
    for name in re.findall(r'`([^`]*)`', cell):
        m = re.fullmatch(rf'(?:([a-z_0-9]+) )?({NAME})(?:\.({NAME}))?', name)
        crate = m[1] or crate
        path = f'crates/{crate}/specs/{m[2]}.antt'
        if m[3]:
            total += sum(len([line for line in p if not line.startswith('module ')]) for p in paragraphs(path) if any(re.match(rf'\s*(?:abbrev |unfoldable |pub |record )*{m[3]}\b', line) for line in p))
        else:
            total += sum(len(p) for p in paragraphs(path))
    return total


def counts():
    found = [(n, row) for n, row in rows(TRACE) if len(row) == 3 and row[1].isdigit()]
    check(len(found) > 10, f'{TRACE}: only {len(found)} counts of lines')
    for n, row in found:
        try:
            true = counted(row[2])
        except (OSError, TypeError) as e:
            true = f'cannot be told: {e}'
        check(str(true) == row[1], f'{TRACE}, line {n}: {row[1]} lines; the count is {true}')


# README'S TABLES

def tables():
    found = [row for _, row in rows('README.md') if len(row) == 3]
    replies = [(int(a), (b, c)) for a, b, c in found if re.fullmatch('[0-9]+', a) and not re.fullmatch('[0-9,]+', b)]
    check(replies == list(REPLIES.items()), f'README.md: its replies are not those of tools/replies.py: {[it for it in replies if it not in REPLIES.items()]}')
    classes = [row for _, row in rows('README.md') if len(row) == 4 and all(re.match('[0-9]', it) for it in row)]
    check(len(classes) > 1, 'README.md: it has no price classes')
    for row in classes:
        marks = int(row[0].split(', the most')[0].replace(',', ''))
        words = 512 + 64 * marks
        true = [f'{words:,}', f'{words / marks:.1f}', f'{8 * words:,}']
        check(row[1:] == true, f'README.md: the class of {marks} marks has {true}')
    page = next(row[1] for _, row in rows(TRACE) if len(row) == 3 and row[1].isdigit())
    check(re.findall('one page of ([0-9]+) lines', text('README.md')) == [page], f'README.md: the page of demands 2 and 3 has {page} lines')


# THE PATHS

def paths():
    kept = {f: text(f) for f in ['README.md'] + sorted(glob.glob('docs/*.md')) if f not in PAST}
    for f in kept:
        for n, line in lines(f):
            for m in re.finditer(r'(?<![\w./*-])(\.ci|docs|tools|tests|crates|examples|include|bench|(?:%s)/(?:specs|proofs|src|must-fail))/([\w./*-]*\w\*?)?' % '|'.join(CRATES), line):
                # CRATE and FILE stand for any; the documents leave out crates/ and an .antt file's ending where they name one by its crate
                path = re.sub(r'\b(CRATE|FILE)\b', '*', m[0]).rstrip('/')
                here = any(glob.glob(p) for p in (path, f'{path}.antt', f'crates/{path}', f'crates/{path}.antt', f'crates/{path}.edit'))
                check(here, f'{f}, line {n}: {m[0]} is not there')


def main():
    numbers = promised()
    traced(numbers)
    named()
    counts()
    tables()
    paths()
    print(f'{passed} passed, {failed} failed')
    return 1 if failed else 0


if __name__ == '__main__':
    sys.exit(main())
