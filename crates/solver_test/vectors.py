#!/usr/bin/env python3
"""Calls of the solver, and what they must answer and leave. ../test_io/generator.py says how it is run. The answers come from the reference program
(evidence/reference.py), which was written from document 01 alone; where a system is solved or singular they are checked here against dense elimination.
"""
import pathlib
import random
import sys

sys.dont_write_bytecode = True
crates = pathlib.Path(__file__).resolve().parent.parent
sys.path[:0] = [str(crates / 'test_io'), str(crates.parent / 'evidence')]
import reference  # noqa: E402
from generator import FREE, listed, printed, run, shown  # noqa: E402

dice = random.Random(20261115)
bill_dice = random.Random(20261117)
calls, answers = [], []
# passes that ended early, and that went on after a test that failed; accepted runs with scales that are not all 1, and those of them whose f is not that of A
early = failed = scaled = other_f = 0


def rank(p, rows):
    rows, done = [list(r) for r in rows], 0
    for k in range(len(rows[0]) if rows else 0):
        pivot = next((i for i in range(done, len(rows)) if rows[i][k] % p), None)
        if pivot is None:
            continue
        rows[done], rows[pivot] = rows[pivot], rows[done]
        inverse = pow(rows[done][k], -1, p)
        rows[done] = [x * inverse % p for x in rows[done]]
        for i in range(len(rows)):
            if i != done and rows[i][k]:
                c = rows[i][k]
                rows[i] = [(x - c * y) % p for x, y in zip(rows[i], rows[done])]
        done += 1
    return done


def dense(starts, columns, values):
    n = len(starts) - 1
    rows = [[0] * n for _ in range(n)]
    for i in range(n):
        for k in range(starts[i], starts[i + 1]):
            rows[i][columns[k]] = values[k]
    return rows


def possible(window, left, t, made):
    """Whether a pass can make so many products. A test with an f of degree L comes after term i = L + window at the earliest, and before the last: the pass
    ends there, or costs L more."""
    global early, failed
    full = 2 * left - 1 + t
    early, failed = early + (made < full), failed + (made > full)
    if made < full:
        return window > 0 and t > 0 and t + window <= made + 1 - t
    return made == full or window > 0 and made - full <= t and made - full + window < 2 * left


def billed(bill, n, degree, passes, applications, window):
    """Whether whole passes stand on the bill, left falling from n, with the applications of all of them where there is room."""
    left, total = n, max(degree - 1, 0)
    for k in range(min(passes, len(bill) // 3)):
        left_before, t, made = bill[3 * k:3 * k + 3]
        if left_before != left or not possible(window, left, t, made):
            return False
        left, total = left - t, total + made
    return len(bill) < 3 * passes or (left == n - degree and total == applications and set(bill[3 * passes:]) <= {FREE})


def add(p, starts, columns, values, b, words, vector=None, polynomial=None, work=None, bill=None, window=0, scales=()):
    global scaled, other_f
    n = max(len(starts) - 1, 0)
    vector = n if vector is None else vector
    polynomial = n + 1 if polynomial is None else polynomial
    work = 16 * n + 16 if work is None else work
    every_pass = 3 * (n + reference.vectors_of(n, words))
    bill = bill_dice.choice((0, 1, 2, 3, 4, 5, 8, every_pass, every_pass, every_pass)) if bill is None else bill
    calls.append([[p, window, vector, polynomial, bill, work], starts, columns, values, scales, b, words])
    lent = [[FREE] * places for places in (vector, polynomial, bill)]
    answer = reference.solve(p, starts, columns, values, scales, b, words, window, *lent, [0] * work)
    if answer[0] == 'refused':
        answers.append(printed(answer[1]) + ''.join(map(shown, lent)) + shown([FREE] * work))
        return
    _, kind, D, passes, applications, multiplied, x, F, lines = answer
    answers.append(printed(0, kind == 'solved', D, passes, applications, multiplied) + shown(x) + shown(F) + shown(lines) + shown([]))
    assert billed(lines, n, D, passes, applications, window) and multiplied == applications * len(values)
    if window:  # kind, vector and f are those without it
        assert (kind, x, F) == tuple(reference.solve(p, starts, columns, values, scales, b, words, 0, *lent, [0] * work)[k] for k in (1, 6, 7))
    if any(s != 1 for s in scales):
        scaled += 1
        other_f += F != reference.solve(p, starts, columns, values, [], b, words, 0, *lent, [0] * work)[7]
    elif scales:  # all 1: the answer is that without them
        assert answer == reference.solve(p, starts, columns, values, [], b, words, window, *lent, [0] * work)
    if n <= 24:
        A = dense(starts, columns, values)
        image = [sum(c * y for c, y in zip(row, x)) % p for row in A]
        if kind == 'solved':
            assert image == b
        else:
            assert any(x) and not any(image) and rank(p, A) < n
    if n <= 24 and scales:  # f and the kind are those of AX: D independent vectors b, AXb, .., f(AX)b = 0, and b in the span of the later ones or not
        AX = [[c * s % p for c, s in zip(row, scales)] for row in A]
        krylov = [b]
        for _ in range(n):
            krylov.append([sum(c * y for c, y in zip(row, krylov[-1])) % p for row in AX])
        assert rank(p, krylov[:D]) == D and not any(sum(c * v[i] for c, v in zip(F, krylov)) % p for i in range(n))
        assert (kind == 'solved') == (rank(p, krylov) == rank(p, krylov[1:]))


def system(p, n, density, deficient=0):
    rows = [{j: dice.randrange(1, p) for j in range(n) if dice.random() < density} for _ in range(n)]
    for _ in range(deficient):
        rows[dice.randrange(n)] = {}
    starts, columns, values = [0], [], []
    for row in rows:
        for j in sorted(row):
            columns.append(j)
            values.append(row[j])
        starts.append(len(columns))
    return starts, columns, values


def vector(p, n, zeros=0.0):
    return [0 if dice.random() < zeros else dice.randrange(p) for _ in range(n)]


def words_for(p, n):
    """Words that leave restarts to the solver: none, zeros, multiples of p, repeated vectors, any."""
    kind = dice.randrange(6)
    if kind == 0:
        return []
    if kind == 1:
        return [0] * n * dice.randrange(1, 4)
    if kind == 2:
        return [p * dice.randrange(4294967296 // p) for _ in range(n * dice.randrange(1, 4))]
    if kind == 3:
        return vector(p, n) * dice.randrange(1, 4)
    return [dice.randrange(4294967296) for _ in range(n * dice.randrange(1, 4))]


diag = ([0, 1, 2], [0, 1], [2, 3])
upper = ([0, 1, 1], [1], [1])
add(7, [0, 2, 3], [0, 1, 1], [2, 1, 3], [1, 1], [])
for words in ([], [1, 1], [0, 0], [8, 8]):
    add(7, *diag, [1, 1], words)
add(7, *diag, [0, 1], [])
add(7, *upper, [0, 1], [])
add(7, *upper, [1, 0], [])
add(7, *diag, [0, 0], [])
add(7, *diag, [0, 0], [3, 4])
add(2, [0, 1], [0], [1], [1], [])
add(2147483647, *diag, [1, 1], [])
add(2147483646, *diag, [1, 1], [])
add(1, *diag, [1, 1], [])
add(0, *diag, [1, 1], [])
for count in (128, 127, 130, 126):
    add(7, *diag, [1, 1], [dice.randrange(4294967296) for _ in range(count)])
# what is refused, with the number of the first check
add(7, [], [], [], [], [], 0, 1, 16)
add(7, [1, 1, 2], [0, 1], [2, 3], [1, 1], [])
add(7, [0, 2, 1], [0, 1], [2, 3], [1, 1], [])
add(7, [0, 1, 1], [0, 1], [2, 3], [1, 1], [])
add(7, [0, 1, 2], [0, 1], [2, 3, 4], [1, 1], [])
add(7, [0, 2, 2], [1, 0], [2, 3], [1, 1], [])
add(7, [0, 2, 2], [1, 1], [2, 3], [1, 1], [])
add(7, [0, 1, 2], [0, 2], [2, 3], [1, 1], [])
add(7, [0, 1, 2], [0, 1], [0, 3], [1, 1], [])
add(7, [0, 1, 2], [0, 1], [7, 3], [1, 1], [])
add(7, *diag, [1], [])
add(7, *diag, [1, 1, 1], [])
add(7, *diag, [1, 7], [])
add(7, *diag, [7, 1], [1])
add(7, *diag, [1, 1], [], 1)
add(7, *diag, [1, 1], [], 3)
add(7, *diag, [1, 1], [], 2, 2)
add(7, *diag, [1, 1], [], 2, 4)
add(7, *diag, [1, 1], [], 2, 3, 47)
add(7, *diag, [1, 1], [], 2, 3, 49)
# bills of every length: whole passes, what stands behind them stays; of two passes, of three with one of degree 0, of one, of none, of a singular system,
# and of a call that is refused
for bill in (*range(13), 100):
    add(7, *diag, [1, 1], [], bill=bill)
    add(7, *diag, [1, 1], [0, 0], bill=bill)
    add(7, *diag, [1, 1], [1, 1], bill=bill)
    add(7, *diag, [0, 0], [], bill=bill)
    add(5, [0, 1, 2, 2], [0, 1], [2, 3], [1, 1, 1], [], bill=bill)
    add(7, *diag, [1, 1], [1], bill=bill)
    add(7, *diag, [1, 1], [], 2, 3, 47, bill)
# no rows: solved with f = 1 and no pass, the bill stays; no words but the empty ones are taken, and the lengths follow from n = 0
empty = ([0], [], [])
for p in (2, 3, 7, 65537, 2147483647):
    add(p, *empty, [], [], bill=3)
for bill in (0, 1, 2, 3, 7, 100):
    add(7, *empty, [], [], bill=bill)
    add(7, *empty, [], [], work=17, bill=bill)
    add(7, *empty, [], [1], bill=bill)
    add(7, *empty, [], [], work=15, bill=bill)
for words in ([0], [1, 2], [3] * 64, [3] * 65):
    add(7, *empty, [], words, 1, 0, 0, 3)
for matrix in (([], [], []), ([], [0], [1]), ([1], [], []), ([4294967295], [], []), ([0], [0], [1]), ([1], [0], [1]), ([0], [0], []), ([0], [], [1])):
    add(7, *matrix, [], [], 0, 1, 16, 3)
    add(7, *matrix, [7], [1], 1, 0, 15, 3)
    add(6, *matrix, [7], [1], 1, 0, 15, 3)
add(7, *empty, [0], [], bill=3)
add(7, *empty, [7], [1], 1, 0, 0, 3)
for lengths in ((1, 1, 16), (0, 0, 16), (0, 2, 16), (0, 1, 0), (1, 2, 0)):
    add(7, *empty, [], [], *lengths, 3)
# random systems, singular and not; many small ones over small fields, where restarts are common
for p, count, most in ((2, 110, 24), (3, 90, 24), (7, 60, 24), (65537, 40, 20), (2147483647, 40, 20)):
    for _ in range(count):
        n = dice.randrange(1, most + 1)
        deficient = dice.choice((0, 0, 0, 1, 2))
        A = system(p, n, min(1.0, dice.choice((1.5, 3.0, 5.0)) / n), deficient)
        add(p, *A, vector(p, n, dice.choice((0.0, 0.5, 0.9))), words_for(p, n))
for p, n in ((2, 60), (3, 60), (7, 57), (65537, 60), (2147483647, 60), (2, 211), (65537, 256), (2147483647, 300)):
    A, b, words = system(p, n, 4.0 / n), vector(p, n), words_for(p, n) if n < 100 else []
    add(p, *A, b, words, bill=3 * (n + len(words) // n))
# windows: every length of one where a pass ends early, where the test fails and a second one would be due, where it would be due after the last term, and
# where f is of degree 2 and of the steps; and 13, after 10 and before 11
diag3, swap, shift = ([0, 1, 2, 3], [0, 1, 2], [2, 3, 4]), ([0, 1, 2, 2], [1, 0], [1, 1]), ([0, 1, 2, 3], [1, 2, 0], [1, 1, 1])
for window in (*range(8), 63, 64, 65, 66, 256, 65536, 4294967295):
    add(7, *diag3, [1, 0, 0], [], bill=9, window=window)
    add(7, *diag3, [1, 1, 0], [], bill=9, window=window)
    add(7, *diag3, [1, 1, 1], [1, 1, 1], bill=12, window=window)
    add(2, *swap, [1, 0, 0], [], bill=9, window=window)
    add(2, *shift, [0, 0, 1], [], bill=9, window=window)
    add(7, *upper, [0, 1], [], bill=6, window=window)
    add(7, *diag, [1, 1], [], bill=6, window=window)
    add(7, *diag, [1, 1], [0, 0], bill=9, window=window)
    add(7, *diag, [0, 0], [], bill=6, window=window)
    add(2, [0, 1], [0], [1], [1], [], bill=3, window=window)
    add(7, *empty, [], [], bill=3, window=window)
    add(7, *empty, [], [1], bill=3, window=window)
    add(7, *diag, [1, 7], [], bill=6, window=window)
    add(7, *diag, [1, 1], [1], 1, bill=6, window=window)
    add(7, *diag, [1, 1], [], 1, bill=6, window=window)
    add(7, *diag, [1, 1], [], 2, 2, bill=6, window=window)
    add(7, *diag, [1, 1], [], 2, 3, 47, 6, window)


def of_some_sort(p, n, dice):
    """A sparse matrix, or a diagonal of few elements, which has a short f."""
    A = system(p, n, min(1.0, dice.choice((1.0, 2.0, 4.0)) / n), dice.choice((0, 0, 1)))
    if dice.random() < 0.3:
        few = [dice.randrange(1, p) for _ in range(3)]
        A = (list(range(n + 1)), list(range(n)), [dice.choice(few) for _ in range(n)])
    return A


# random systems with windows: over small fields tests often fail; a diagonal of few elements has a short f, so passes end early
for p, count, most in ((2, 120, 16), (3, 80, 16), (5, 60, 16), (7, 60, 16), (65537, 30, 16), (2147483647, 30, 16)):
    for _ in range(count):
        n = dice.randrange(1, most + 1)
        A = of_some_sort(p, n, dice)
        words, b = words_for(p, n), vector(p, n, dice.choice((0.0, 0.5, 0.9)))
        add(p, *A, b, words, bill=3 * (n + len(words) // n), window=dice.choice((0, 1, 1, 1, 2, 2, 2, 5, 5, 64, 65)))
for p, n, window in ((2, 60, 1), (2, 60, 5), (3, 60, 2), (7, 57, 1), (65537, 60, 5), (2147483647, 60, 64)):
    for A in (system(p, n, 4.0 / n), (list(range(n + 1)), list(range(n)), [dice.randrange(1, min(p, 12)) for _ in range(n)])):
        b, words = vector(p, n), words_for(p, n)
        add(p, *A, b, words, bill=3 * (n + len(words) // n), window=window)


# scales: fewer passes than A alone takes and more, another kind than that of A alone, w that is and that is not on an axis, ones; with words and windows, with
# no entries, with b = 0, with the largest elements
scale_dice = random.Random(20261118)
twos, full, tall = ([0, 1, 2], [0, 1], [2, 2]), ([0, 2, 4], [0, 1, 0, 1], [1, 1, 6, 6]), ([0, 2, 4], [0, 1, 0, 1], [1, 2, 6, 5])
badly = ([0, 1, 2, 4], [0, 1, 0, 2], [6, 3, 5, 2])
high = 2147483647
for words in ([], [1, 1], [0, 0], [3, 5, 8, 8]):
    for window in (0, 1, 2, 64):
        for A, b in ((diag, [1, 1]), (twos, [1, 1]), (upper, [0, 1]), (upper, [1, 0]), (full, [1, 6]), (tall, [1, 6]), (([0, 0, 0], [], []), [0, 3]), (diag, [0, 0])):
            add(7, *A, b, words, bill=9, window=window, scales=scale_dice.choice(([4, 5], [1, 2], [1, 4], [3, 2], [6, 6], [1, 6], [5, 1])))
for scales in ([4, 5], [1, 5], [3, 2], [1, 1], [6, 6], [1, 2], [1, 4], [2, 1]):
    for A, b in ((diag, [1, 1]), (twos, [1, 1]), (upper, [0, 1]), (upper, [1, 0]), (full, [1, 6]), (tall, [1, 6])):
        add(7, *A, b, [], bill=6, scales=scales)
for bill in (0, 1, 2, 3, 4, 7):
    add(7, *diag, [1, 1], [], bill=bill, scales=[4, 5])
for window in (0, 1, 2, 3, 4, 5, 64):
    add(7, *badly, [2, 2, 1], [], bill=9, window=window, scales=[4, 1, 6])
    add(7, *badly, [2, 2, 1], [1, 2, 3], bill=12, window=window, scales=[1, 1, 1])
for p in (2, 3, 7, 65537, high):
    for scales in ([], [1], [p - 1]):
        add(p, [0, 1], [0], [p - 1], [1], [], bill=3, scales=scales)
        add(p, [0, 0], [], [], [1], [], bill=3, scales=scales)
        add(p, [0], [], [], [], [], bill=3, scales=scales)
add(high, [0, 2, 3, 5], [0, 2, 1, 0, 2], [high - 1, 5, 65536, 7, high - 2], [1, 2, 3], [], bill=9, scales=[high - 1, 65536, high - 2])
# .. of every number around n and every value around 1 and p; in what order they are looked at: 5, 6, 7, 8, 9, 10, 13, 11
for scales in ([1], [4], [0], [7], [4, 5, 1], [1, 1, 1], [0, 0, 0], [0, 5], [4, 0], [7, 5], [4, 7], [8, 1], [1, 8], [4294967295, 1], [1, 4294967295], [1] * 64):
    add(7, *diag, [1, 1], [], bill=6, scales=scales)
    add(7, *diag, [1], [], bill=6, scales=scales)
    add(7, *diag, [1, 7], [1], 1, 2, 47, 6, 65, scales)
    add(7, [0, 1, 2], [0, 2], [2, 3], [1, 1], [], bill=6, scales=scales)
    add(7, [0, 1, 2], [0, 1], [2, 0], [1, 1], [], bill=6, scales=scales)
    add(7, [0, 1, 1], [0, 1], [2, 3], [1, 1], [], bill=6, scales=scales)
    add(7, [], [], [], [], [], 0, 1, 16, 3, 0, scales)
    add(8, *diag, [1, 1], [], bill=6, scales=scales)
for scales in ([2, 1], [1, 2], [0, 1]):
    add(2, [0, 1, 2], [0, 1], [1, 1], [1, 1], [], bill=6, scales=scales)
for more in ([7, 5], [1, 1], [4, 5]):
    add(7, *diag, [1], [1], 1, 2, 47, 6, 65, more)
    add(7, *diag, [1, 7], [1], 1, 2, 47, 6, 65, more)
    add(7, *diag, [1, 1], [1], 1, 2, 47, 6, 65, more)
    add(7, *diag, [1, 1], [], 1, 2, 47, 6, 65, more)
    for lengths in ((1, 3, 48), (2, 2, 48), (2, 4, 48), (2, 3, 47), (2, 3, 49)):
        add(7, *diag, [1, 1], [], *lengths, 6, 64, more)
# .. random ones, over small fields, with words and windows; where A's f is short, that of AX is long
for p, count, most in ((3, 50, 16), (5, 50, 16), (7, 50, 16), (65537, 25, 16), (high, 25, 16)):
    for _ in range(count):
        n = scale_dice.randrange(1, most + 1)
        A = of_some_sort(p, n, scale_dice)
        kind = scale_dice.randrange(4)
        scales = [1 if kind == 0 and j != n - 1 or kind == 1 and j else scale_dice.randrange(1, p) for j in range(n)]
        words, b = words_for(p, n), vector(p, n, scale_dice.choice((0.0, 0.5, 0.9)))
        add(p, *A, b, words, bill=3 * (n + len(words) // n), window=scale_dice.choice((0, 0, 1, 2, 5, 64)), scales=scales)
for p, n, window in ((3, 60, 0), (7, 57, 2), (65537, 60, 0), (high, 60, 5), (65537, 200, 0)):
    A, scales = system(p, n, 4.0 / n), [scale_dice.randrange(1, p) for _ in range(n)]
    add(p, *A, vector(p, n), [scale_dice.randrange(4294967296) for _ in range(n)], bill=3 * (n + 1), window=window, scales=scales)


def make():
    remark = '%d calls; %d passes ended early, %d went on after a test that failed; %d runs with scales that are not all 1, %d of them with another f than that of A' % (
        len(calls), early, failed, scaled, other_f)
    return listed(calls), ''.join(a + '\n' for a in answers).encode(), remark


run(__file__, make)
