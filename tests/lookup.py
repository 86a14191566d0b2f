#!/usr/bin/env python3
"""Long runs of `lookup`, and many short ones, against what tests/takes.py works out: run `python3 tests/lookup.py crates/lookup/out/lookup`. The last line is 'N passed, M failed'.

The long takes have up to 8,192 values, falling, rising, constant, with many ties, or at random over the whole range, and as many requests as there is room for: each range inside a block, from
edge to edge of blocks, and at random. Some requests alter the index. Rough readings have budgets around the number of entries and the full count, and larger and smaller ones; in the short
takes some ranges get every budget. The short ones have every length up to 200, every kind byte and every number of bytes left. The same runs are made each time.
"""
import random
import subprocess
import sys

# no files of Python's own beside these
sys.dont_write_bytecode = True
import takes

LEAST, GREATEST = -2**31, 2**31 - 1
SEARCH, STRETCH, ROUGH, SET = 1, 2, 3, 4


def numbers(*ns):
    return b''.join((n % 2**32).to_bytes(4, 'little') for n in ns)


def input_of(values, entries, requests):
    return numbers(len(values), *values, entries) + b''.join(bytes([kind]) + numbers(a, b, c) for kind, a, b, c in requests)


def own_entries(n):
    return -(-n // takes.BLOCK)


def shapes(n, chance):
    """The values of each kind of take."""
    yield 'falling', [GREATEST - 5 * i for i in range(n)]
    yield 'rising', [LEAST + 5 * i for i in range(n)]
    yield 'constant', [-7] * n
    yield 'ties', [chance.randint(-2, 2) for _ in range(n)]
    yield 'random', [chance.randint(LEAST, GREATEST) for _ in range(n)]
    # the least value and the longest place
    yield 'longest', [0] * min(n, 1000) + [LEAST] * (n - min(n, 1000))


def ends(n, chance):
    """A range of n values, or one that is not in them."""
    of_block = [k for k in (0, 63, 64, 65, 127, 128, n - 1, n - 2, n - n % 64, n - n % 64 - 1) if 0 <= k < max(n, 1)]
    pick = lambda: chance.choice(of_block) if chance.random() < 0.3 else chance.randrange(max(n, 1))
    a, b = sorted((pick(), pick()))
    luck = chance.random()
    if luck < 0.02:
        return b + 1, a
    if luck < 0.04:
        return a, n + chance.choice((0, 1, 2**32 - 1 - n))
    return a, b


def counts(n, a, b):
    """How many entries are looked at for a range, and the full count; of a range that is not in n values, none."""
    if a > b or b >= n:
        return 0, 0
    met, edges, _ = takes.looks(n, a, b)
    return len(met), len(met) + len(edges)


def budget(n, a, b, chance):
    entries, full = counts(n, a, b)
    return max(0, chance.choice((0, 1, entries - 1, entries, entries + 1, chance.randint(entries, full), full - 1, full, full + 1, 2**32 - 1)))


def rough(n, chance):
    a, b = ends(n, chance)
    return ROUGH, a, b, budget(n, a, b, chance)


def every_budget(n, chance):
    """Rough readings of one range, with each budget up to one more than is used."""
    a, b = ends(n, chance)
    return [(ROUGH, a, b, c) for c in range(counts(n, a, b)[1] + 2)]


def requests(n, entries, count, altering, chance):
    """Some requests. Where the index is altered, now and then all of its entries are made −1 or the like, so that it is never the take's for long."""
    for _ in range(count):
        luck = chance.random()
        if altering and luck < 0.2:
            yield SET, chance.randrange(entries + 1), chance.choice((LEAST, GREATEST, -1, 0, chance.randint(-9, 9))), chance.randrange(2**32)
        elif luck < 0.45:
            yield rough(n, chance)
        else:
            yield (SEARCH if luck < 0.8 else STRETCH), *ends(n, chance), chance.randrange(2**32)


def runs():
    """Each run's name and its bytes."""
    chance = random.Random(3)
    for n in 8192, 8191, 8129, 4096, 1000:
        entries = own_entries(n)
        room = (takes.BYTES_READ - 8 - 4 * n) // takes.REQUEST
        for name, values in shapes(n, chance):
            yield f'{name} {n}', input_of(values, entries, requests(n, entries, room, False, chance))
            yield f'{name} {n} altered', input_of(values, entries, requests(n, entries, room, True, chance))
    for n in range(201):
        entries = own_entries(n)
        values = [chance.randint(-3, 3) for _ in range(n)]
        every = [(SEARCH, a, n - 1, 0) for a in range(n)] + [(SEARCH, 0, b, 0) for b in range(n)] + [(SEARCH, k, k, 0) for k in range(n)]
        every += [(ROUGH, a, n - 1, budget(n, a, n - 1, chance)) for a in range(n)] + [(ROUGH, 0, b, budget(n, 0, b, chance)) for b in range(n)]
        yield f'{n} values', input_of(values, entries, every + every_budget(n, chance) + list(requests(n, entries, 100, False, chance)))
        yield f'{n} values altered', input_of(values, entries, list(requests(n, entries, 100, True, chance)) + every_budget(n, chance))
        # an index of another length, too
        for other in entries - 1, entries + 1, 256, 257:
            if other >= 0:
                yield f'{n} values, {other} entries', input_of(values, other, requests(n, other, 20, True, chance))
    request = (SEARCH, 0, 1, 0)
    for kind in range(256):
        yield f'kind {kind}', input_of([5, 3], 1, [request, (kind, 0, 1, 0), request])
    whole = input_of([5, 3], 1, [request, (STRETCH, 0, 1, 0), request])
    for cut in range(len(whole)):
        yield f'{cut} bytes', whole[:cut]
    for n in 8193, 2**32 - 1:
        yield f'n = {n}', numbers(n) + bytes(65532)
    for m in 255, 256, 257, 2**32 - 1:
        yield f'm = {m}', input_of([1] * 8192, m, [request])


def main(program):
    passed = failed = 0
    for name, stream in runs():
        result = subprocess.run([program], input=stream, capture_output=True)
        wrong = takes.difference(stream, result.stdout.decode('ascii', errors='replace'))
        if result.returncode == 0 and wrong is None and result.stderr == b'':
            passed += 1
        else:
            failed += 1
            print('failed:', name, result.returncode, wrong, result.stderr[:200])
    print(f'{passed} passed, {failed} failed')
    return 1 if failed else 0


if __name__ == '__main__':
    if len(sys.argv) != 2:
        sys.exit('usage: python3 tests/lookup.py PROGRAM')
    sys.exit(main(sys.argv[1]))
