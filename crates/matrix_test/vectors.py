#!/usr/bin/env python3
"""Matrices with vectors, and what the five calls on each answer and leave. The answers are worked out here, from document 01, with Python's
numbers. Large cases are made by a formula, which stands here and in src/main.rt. ../test_io/generator.py says how it is run."""
import collections
import functools
import pathlib
import random
import sys

sys.dont_write_bytecode = True
sys.path.insert(0, str(pathlib.Path(__file__).resolve().parent.parent / 'test_io'))
from generator import FREE, listed, printed, run, shown  # noqa: E402

dice = random.Random(5)
cases, answers, seen = [], [], collections.Counter()


@functools.lru_cache(None)
def prime(p):
    return 2 <= p <= 2147483647 and all(p % d for d in range(2, int(p ** 0.5) + 1))


def matrix_refusal(p, starts, columns, values):
    n = len(starts) - 1
    if not prime(p):
        return 3
    if not 0 <= n <= 4096:
        return 4
    if starts[0] != 0 or any(a > b for a, b in zip(starts, starts[1:])) or starts[n] != len(columns) or len(columns) != len(values) \
            or len(columns) > 65536:
        return 5
    for i in range(n):
        row = columns[starts[i]:starts[i + 1]]
        if any(c >= n for c in row) or any(a >= b for a, b in zip(row, row[1:])):
            return 6
    if any(not 1 <= a < p for a in values):
        return 7
    return 0


def refusal(p, starts, columns, values, lengths, vectors, slices):
    number = matrix_refusal(p, starts, columns, values)
    if number:
        return number
    if not all(lengths):
        return 8
    if any(x >= p for v in vectors for x in v):
        return 9
    if not all(slices):
        return 11
    return 0


def dense(n, starts, columns, values):
    rows = [{} for _ in range(n)]
    for i in range(n):
        for k in range(starts[i], starts[i + 1]):
            rows[i][columns[k]] = values[k]
    return rows


def product(p, rows, v):
    return [sum(a * v[j] for j, a in row.items()) % p for row in rows]


def transposed(p, rows, v):
    out = [0] * len(rows)
    for i, row in enumerate(rows):
        for j, a in row.items():
            out[j] = (out[j] + a * v[i]) % p
    return out


def apply(p, rows, g, v):
    out, power = [0] * len(rows), v
    for k, c in enumerate(g):
        if k and any(power):
            power = product(p, rows, power)
        out = [(x + c * y) % p for x, y in zip(out, power)]
    return out


def add(p, starts, columns, values, g, v, b, out=None, work=None, made=None):
    """A case, with the places of the two slices that are written; made: the numbers from which the program makes the lists."""
    n = len(starts) - 1
    out = max(n, 0) if out is None else out
    work = max(2 * n, 0) if work is None else work
    lists = [[p, out, work], starts, columns, values, g, v, b]
    if made:
        base = [1 + n + 2 * len(columns) + k for k in (0, len(g), len(g) + len(v))]
        cases.append([lists[0] + list(made) + [len(l) for l in lists] + base] + [[]] * 6)
    else:
        cases.append(lists)
    system = (p, starts, columns, values)
    rows = None if matrix_refusal(*system) else dense(n, starts, columns, values)
    once = sum(map(len, rows or []))  # the entries that a product multiplies
    line, left = [], [FREE] * out

    def written(number, answer, products):
        nonlocal left
        left = left if number else answer()
        line.append((printed(number) if number else printed(0, products, products * once)) + shown(left))
        seen[number or 'done'] += 1

    def verdict(number, answer):
        yes = not number and answer()
        line.append(printed(number) if number else printed(0, yes, once))
        seen[number or ('yes' if yes else 'no')] += 1
    written(refusal(*system, [len(v) == n], [v], [out == n]), lambda: product(p, rows, v), 1)
    verdict(refusal(*system, [len(v) == n, len(left) == n], [v, left], []), lambda: product(p, rows, v) == left)
    written(refusal(*system, [len(v) == n], [v], [out == n]), lambda: transposed(p, rows, v), 1)
    number = refusal(*system, [1 <= len(g) <= n + 1, len(v) == n], [g, v], [out == n, work >= 2 * n])
    written(number, lambda: apply(p, rows, g, v), len(g) - 1)
    line.append(shown([FREE] * work if number else []))
    verdict(refusal(*system, [len(v) == n, len(b) == n], [v, b], []), lambda: product(p, rows, v) == b)
    verdict(refusal(*system, [len(v) == n], [v], []), lambda: any(v) and not any(product(p, rows, v)))
    answers.append(''.join(line))


def entries(p, rows):
    starts, columns, values = [0], [], []
    for row in rows:
        columns += sorted(row)
        values += [row[j] for j in sorted(row)]
        starts.append(len(columns))
    return starts, columns, values


def element(p):
    return dice.choice([0, 1, p - 1, dice.randrange(p), dice.randrange(p)])


def sparse(p, n, lengths):
    return [{j: max(1, element(p)) for j in dice.sample(range(n), min(n, dice.choice(lengths)))} for _ in range(n)]


def case(p, rows, k, v=None, right=None):
    n = len(rows)
    system = entries(p, rows)
    v = [element(p) for _ in range(n)] if v is None else v
    b = product(p, rows, v)
    if right is False:
        i = dice.randrange(n)
        b[i] = (b[i] + 1) % p
    add(p, *system, [element(p) for _ in range(k)], v, b)


PRIMES = [2, 3, 7, 251, 65537, 2147483629, 2147483647]
# small shapes: no entry, one entry, diagonal, nilpotent, full, the last and the first row empty
for p in PRIMES:
    case(p, [{}], 1)
    case(p, [{}], 2, [1 % p])
    case(p, [{0: p - 1}], 2, [p - 1])
    case(p, [{0: 1}], 1, [0])
    case(p, [{0: 1}, {1: p - 1}], 3)
    case(p, [{1: 1}, {}], 3, [1, 0])
    case(p, [{1: 1}, {}], 2, [0, 1], False)
    case(p, [{}, {0: 1, 1: p - 1, 2: 1}, {}], 4, [1, 1, 0])
    case(p, [{j: max(1, element(p)) for j in range(9)} for _ in range(9)], 10, None, False)
# rows of every length up to 17, and random ones
for p in PRIMES:
    case(p, [{j: max(1, element(p)) for j in dice.sample(range(18), i)} for i in range(18)], 19)
    for _ in range(6):
        n = dice.randrange(1, 25)
        case(p, sparse(p, n, [0, 1, 2, 3, 4, 5, 8]), dice.randrange(1, n + 2), None, dice.choice([True, False]))
# the largest sums: 64 products of p - 1 with p - 1 in each row
p = 2147483647
case(p, [{j: p - 1 for j in range(64)} for _ in range(64)], 3, [p - 1] * 64)
# null vectors: each row's entries cancel
for p in PRIMES:
    n = 12
    rows = []
    for i in range(n):
        places = sorted(dice.sample(range(n), 4))
        a = [dice.randrange(1, p) for _ in range(4)]
        rows.append({places[0]: a[0], places[1]: p - a[0], places[2]: a[1], places[3]: p - a[1]})
    case(p, rows, 5, [1] * n)
    case(p, rows, 5, [0] * n)
    case(p, rows, 5, [1] * (n - 1) + [0])


# n = 4,096 and 65,536 entries, or another size: two rows have 32 entries together, the first of the two `even` of them
def large(p, even, seed, k, n=4096, count=65536, **rest):
    def word(i):
        x = (i * 2654435761 + seed) % 4294967296
        return (x // 65536 * 48271 + x) % 4294967296

    def value(i):
        a = word(i // 2) % (p - 1) + 1
        return a if i % 2 == 0 else p - a

    def column(i):
        row, j = i // 32 * 2, i % 32
        return j * 128 + row % 128 if j < even else (j - even) * 128 + row % 128 + 1
    starts = [i // 2 * 32 + i % 2 * even for i in range(n)] + [count]
    before = n + 1 + 2 * count
    elements = [word(i) % p if seed else 1 for i in range(before, before + k + n + n)]
    add(p, starts, [column(i) for i in range(count)], [value(i) for i in range(count)],
        elements[:k], elements[k:k + n], elements[k + n:], made=(even, seed), **rest)


for p in (2, 2147483647):
    large(p, 16, 0, 1)
    large(p, 32, 0, 2)
    large(p, 16, 123456789, 3)
    large(p, 19, 987654321, 5)
    large(p, 0, 4294967295, 2)
    large(p, 16, 77, 3, out=4095)
    large(p, 16, 77, 3, work=8191)
large(7, 16, 0, 4097)
large(7, 16, 0, 4098)
large(7, 16, 5, 3, 4096, 65537)
large(7, 16, 5, 3, 4097)

# refusals, each in its turn, with later faults beside it
good = (7, [0, 2, 3], [0, 1, 1], [2, 1, 3], [1, 2], [1, 1], [3, 3])


def with_fault(**changes):
    names = ['p', 'starts', 'columns', 'values', 'g', 'v', 'b']
    fields = dict(zip(names, good))
    rest = {k: changes.pop(k) for k in ('out', 'work') if k in changes}
    fields.update(changes)
    add(*[fields[k] for k in names], **rest)


with_fault()
late = dict(v=[7, 1], b=[3, 9, 3], g=[9], out=3, work=1)
for p in (0, 1, 4, 6, 49, 2147483646, 2147483649, 4294967295, 2147117569):
    with_fault(p=p)
    with_fault(p=p, starts=[], values=[0], **late)
with_fault(starts=[], columns=[], values=[], v=[], b=[], out=0, work=0)
for starts in ([1, 2, 3], [0, 4, 3], [0, 2, 2], [0, 2, 4], [0, 3, 2], [0, 4294967295, 3]):
    with_fault(starts=starts)
    with_fault(starts=starts, columns=[5, 1, 1], values=[0, 1, 3], **late)
with_fault(values=[2, 1])
with_fault(values=[2, 1, 3, 1], columns=[0, 1, 1, 1])
with_fault(columns=[0, 1])
for columns in ([0, 2, 1], [1, 0, 1], [1, 1, 1], [0, 1, 2], [0, 4294967295, 1]):
    with_fault(columns=columns)
    with_fault(columns=columns, values=[0, 1, 3], **late)
for values in ([0, 1, 3], [2, 7, 3], [2, 1, 8], [2, 1, 4294967295]):
    with_fault(values=values)
    with_fault(values=values, **late)
with_fault(v=[1])
with_fault(v=[1, 1, 1])
with_fault(v=[])
with_fault(b=[3])
with_fault(b=[])
with_fault(g=[])
with_fault(g=[1, 1, 1])
with_fault(g=[1, 1, 1, 1])
with_fault(g=[], v=[7, 9], out=1)
with_fault(v=[7, 1])
with_fault(v=[1, 4294967295])
with_fault(b=[3, 7])
with_fault(g=[1, 7])
with_fault(v=[7, 1], out=1, work=0)
for room in (0, 1, 3):
    with_fault(out=room)
with_fault(work=0)
with_fault(work=3)
with_fault(work=5)
with_fault(out=3, work=3)

# no rows: g has one coefficient, the empty vector is taken to itself, and it is no null vector
for p in PRIMES:
    case(p, [], 1)
empty = dict(starts=[0], columns=[], values=[], g=[6], v=[], b=[], out=0, work=0)
for changes in ({}, dict(g=[0]), dict(work=1), dict(work=5)):
    with_fault(**{**empty, **changes})
for changes in (dict(p=6, out=1), dict(starts=[]), dict(starts=[], columns=[0], values=[0]), dict(starts=[1]), dict(starts=[4294967295]),
                dict(columns=[0], values=[1]), dict(starts=[1], columns=[0], values=[1]), dict(columns=[0]), dict(values=[0]),
                dict(v=[0]), dict(v=[7], out=1), dict(b=[0]), dict(b=[7]), dict(v=[1], b=[1], out=1, work=2), dict(g=[]), dict(g=[1, 1]),
                dict(g=[7, 7], out=1), dict(g=[7]), dict(g=[7], out=1), dict(out=1), dict(out=1, work=1), dict(out=3)):
    with_fault(**{**empty, **changes})


def make():
    return listed(cases), ''.join(a + '\n' for a in answers).encode(), '%d cases %s' % (len(cases), dict(seen))


run(__file__, make)
