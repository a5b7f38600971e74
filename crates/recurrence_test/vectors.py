#!/usr/bin/env python3
"""Calls of the shortest recurrence, and what they must answer and leave. ../test_io/generator.py says how it is run. The answers come
  - from document 002's steps, where the polynomial is theirs to choose;
  - from NTL's MinPolySeq where 2 x L is at most the number of terms, so that one polynomial only fits; it must agree with the steps (g++ and
    Debian's libntl-dev; passed over where they are not there);
  - for up to 40 terms the degree must be the least one for which elimination finds a recurrence, and the polynomial one.
"""
import operator
import pathlib
import random
import subprocess
import sys
import tempfile

sys.dont_write_bytecode = True
here = pathlib.Path(__file__).resolve().parent
sys.path.insert(0, str(here.parent / 'test_io'))
from generator import FREE, listed, printed, run, shown  # noqa: E402

random.seed(20031)
PRIMES = [2, 3, 7, 251, 65537, 2147483647]


def steps(p, s):
    """Document 002, step 2, as it stands there: Lambda, Sigma, l and delta. A polynomial is its coefficients, lowest power first."""
    generator, helper, length, delta = [1], [], 0, 1
    for r in range(1, len(s) + 1):
        d = sum(map(operator.mul, generator, reversed(s[max(r - len(generator), 0):r]))) % p
        moved = [0] + helper
        if d == 0:
            helper = moved
            continue
        factor = d * pow(delta, -1, p) % p
        old = generator
        wide = max(len(old), len(moved))
        generator = [(x - factor * y) % p for x, y in zip(old + [0] * (wide - len(old)), moved + [0] * (wide - len(moved)))]
        if 2 * length < r:
            helper, length, delta = old, r - length, d
        else:
            helper = moved
        while generator[-1] == 0:
            generator.pop()
    return length, [(generator[length - i] if length - i < len(generator) else 0) for i in range(length + 1)]


def recurs(p, s, f):
    degree = len(f) - 1
    return f[degree] == 1 and all(sum(x * y for x, y in zip(f, s[j:])) % p == 0 for j in range(len(s) - degree))


def fits(p, s, degree):
    """Whether some monic polynomial of this degree recurs on s: elimination on its unknown coefficients."""
    rows = [[s[i + j] for i in range(degree)] + [-s[degree + j] % p] for j in range(len(s) - degree)]
    pivot = 0
    for column in range(degree):
        row = next((k for k in range(pivot, len(rows)) if rows[k][column]), None)
        if row is None:
            continue
        rows[pivot], rows[row] = rows[row], rows[pivot]
        inverse = pow(rows[pivot][column], -1, p)
        rows[pivot] = [x * inverse % p for x in rows[pivot]]
        for k in range(len(rows)):
            if k != pivot and rows[k][column]:
                factor = rows[k][column]
                rows[k] = [(x - factor * y) % p for x, y in zip(rows[k], rows[pivot])]
        pivot += 1
    return all(row[degree] == 0 for row in rows[pivot:])


def recurring(p, count, degree):
    """Terms of a random recurrence, the first ones perhaps zeros."""
    f = [random.randrange(p) for _ in range(degree)]
    s = [random.randrange(p) if random.random() < 0.6 else 0 for _ in range(min(degree, count))]
    while len(s) < count:
        s.append(sum(f[i] * s[len(s) - degree + i] for i in range(degree)) % p)
    return s


def lists():
    for p in PRIMES:
        for count in range(41):
            yield p, [random.randrange(p) for _ in range(count)]
            yield p, recurring(p, count, random.randrange(count // 2 + 2))
            if count % 8 == 5:
                yield p, [0] * (count - 1) + [1]
                yield p, [0] * count
                yield p, [1 if random.random() < 0.2 else 0 for _ in range(count)]
    yield 7, [1, 2, 4, 1]
    yield 7, [0, 1]
    yield 2147483647, [random.randrange(2147483647) for _ in range(8192)]
    yield 65537, recurring(65537, 8192, 300)
    yield 2, [random.randrange(2) for _ in range(8192)]
    yield 7, [0] * 8191 + [3]


def refusals():
    """(number, p, places, room, terms)"""
    for p in [0, 1, 4, 9, 25, 65535, 2147117569, 2147483646, 2147483649, 4294967291, 4294967295]:
        yield 3, p, 2, 100, [0]
    yield 3, 6, 1, 0, [7]
    yield 8, 7, 8194, 32780, [0] * 8193
    yield 8, 7, 1, 0, [9] * 8193
    yield 9, 7, 4, 20, [1, 2, 7]
    yield 9, 7, 4, 20, [7, 2, 1]
    yield 9, 7, 9, 0, [1, FREE, 3]
    yield 9, 2, 2, 12, [2]
    yield 9, 2147483647, 2, 12, [2147483647]
    for places in [0, 1, 2, 3, 5]:
        yield 11, 7, places, 20, [1, 2, 3]
    for room in [0, 8, 19]:
        yield 11, 7, 4, room, [1, 2, 3]
    yield 11, 7, 0, 8, []
    yield 11, 7, 1, 7, []


def minimal(asked):
    """NTL's answer for each p and list; none where it is not there."""
    text = '\n'.join('%d %d %s' % (p, len(s), ' '.join(map(str, s))) for p, s in asked)
    with tempfile.TemporaryDirectory() as folder:
        program = folder + '/minpoly'
        command = ['g++', '-O2', '-o', program, str(here / 'minpoly.cc'), '-lntl', '-lgmp', '-lpthread']
        try:
            subprocess.run(command, stderr=subprocess.DEVNULL, check=True)
        except (OSError, subprocess.CalledProcessError):
            print('recurrence_test: passed over: no NTL')
            return None
        done = subprocess.run([program], input=text, stdout=subprocess.PIPE, text=True, check=True)
    return [list(map(int, line.split())) for line in done.stdout.splitlines()]


def make():
    calls, answers, asked, about = [], [], [], []
    for p, s in lists():
        count = len(s)
        degree, f = steps(p, s)
        if count <= 40:
            assert recurs(p, s, f) and not any(fits(p, s, k) for k in range(degree))
        if 1 <= degree and 2 * degree <= count:
            asked.append((p, s[:count - count % 2]))
            about.append([degree, *f])
        room = 4 * count + 8 + (count % 3 == 1) * 5
        calls.append([[p, count + 1, room], s])
        answers.append(printed(0, degree) + shown(f + [0] * (count - degree)) + shown([]))
    found = minimal(asked)
    assert found in (None, about)
    for number, p, places, room, s in refusals():
        calls.append([[p, places, room], s])
        answers.append(printed(number) + shown([FREE] * places) + shown([FREE] * room))
    order = list(range(len(calls)))
    random.shuffle(order)
    stdout = ''.join(answers[k] + '\n' for k in order)
    remark = '%d calls, %d of them answered by NTL too' % (len(calls), len(found or []))
    return listed([calls[k] for k in order]), stdout.encode(), remark


run(__file__, make)
