"""Self-test of reference.py.  Run: python3 selftest.py [rounds]"""

import itertools
import random
import re
import sys

import reference as ref

PRIMES = (2, 3, 5, 7, 11, 101, 65537, 2147483647)
rng = random.Random(20240611)
counts = {}


def expect(condition, *what):
    if not condition:
        raise AssertionError(' '.join(str(x) for x in what))


def count(name):
    counts[name] = counts.get(name, 0) + 1


# ---------------------------------------------------------------- dense linear algebra, written apart from reference.py

def d_inv(a, p):
    """extended Euclid"""
    r0, r1, s0, s1 = p, a % p, 0, 1
    while r1:
        q = r0 // r1
        r0, r1, s0, s1 = r1, r0 - q * r1, s1, s0 - q * s1
    assert r0 == 1
    return s0 % p


def d_mul(M, v, p):
    return [sum(M[i][j] * v[j] for j in range(len(v))) % p for i in range(len(M))]


def d_rank(rows, p):
    rows = [[x % p for x in r] for r in rows]
    rank = 0
    width = len(rows[0]) if rows else 0
    for c in range(width):
        piv = next((k for k in range(rank, len(rows)) if rows[k][c]), None)
        if piv is None:
            continue
        rows[rank], rows[piv] = rows[piv], rows[rank]
        inv = d_inv(rows[rank][c], p)
        for k in range(rank + 1, len(rows)):
            h = rows[k][c] * inv % p
            if h:
                rows[k] = [(x - h * y) % p for x, y in zip(rows[k], rows[rank])]
        rank += 1
    return rank


def d_in_span(v, vectors, p):
    return d_rank(vectors + [v], p) == d_rank(vectors, p) if vectors else not any(v)


def d_apply_poly(M, g, v, p):
    """Horner"""
    result = [0] * len(v)
    for c in reversed(g):
        result = [(x + c * y) % p for x, y in zip(d_mul(M, result, p), v)]
    return result


def dense_to_sparse(M):
    starts, columns, values = [0], [], []
    for row in M:
        for j, x in enumerate(row):
            if x:
                columns.append(j)
                values.append(x)
        starts.append(len(columns))
    return starts, columns, values


def random_size(most):
    """0 to most; one in six is 0."""
    return rng.randrange(1, most + 1) if rng.randrange(6) else 0


def random_dense(p, n):
    if n == 0:
        return []
    style = rng.randrange(6)
    if style == 0:       # sparse
        return [[rng.randrange(p) if rng.random() < 0.3 else 0 for _ in range(n)] for _ in range(n)]
    if style == 1:       # dense
        return [[rng.randrange(p) for _ in range(n)] for _ in range(n)]
    if style == 2:       # diagonal with repeats
        return [[rng.randrange(min(p, 4)) if i == j else 0 for j in range(n)] for i in range(n)]
    if style == 3:       # Jordan-like
        e = rng.randrange(min(p, 3))
        return [[e if i == j else (1 if j == i + 1 and rng.random() < 0.7 else 0) for j in range(n)] for i in range(n)]
    if style == 4:       # nilpotent, strictly upper
        return [[rng.randrange(p) if j > i else 0 for j in range(n)] for i in range(n)]
    k = rng.randrange(1, n + 1)  # low rank
    B = [[rng.randrange(p) for _ in range(k)] for _ in range(n)]
    C = [[rng.randrange(p) for _ in range(n)] for _ in range(k)]
    return [[sum(B[i][t] * C[t][j] for t in range(k)) % p for j in range(n)] for i in range(n)]


def random_words(p, n):
    R = rng.choice((0, 0, 1, 1, 2, 3, 5, 64))
    style = rng.randrange(4)
    if style == 0:
        return [0] * (R * n)
    if style == 1:
        return [rng.randrange(3) for _ in range(R * n)]
    if style == 2:
        return [rng.randrange(2 ** 32) for _ in range(R * n)]
    return [rng.choice((0, 0, 0, 1, p, p - 1, 2 ** 32 - 1)) for _ in range(R * n)]


def random_scales(p, n):
    """None, n ones, or any."""
    style = rng.randrange(4)
    if style == 0:
        return []
    return [1 if style == 1 or rng.random() < 0.2 else rng.randrange(1, p) for _ in range(n)]


def d_scaled(M, X, p):
    """AX, entry by entry; no scales are ones"""
    return [[M[i][j] * X[j] % p for j in range(len(X))] for i in range(len(X))] if X else M


def dirty(k):
    return [rng.randrange(2 ** 32) for _ in range(k)]


def run(p, n, S, b, words, bill=(), window=0, X=()):
    """solve, with dirty slices"""
    return ref.solve(p, *S, list(X), b, words, window, dirty(n), dirty(n + 1), list(bill), dirty(16 * n + 16 + rng.randrange(3)))


def sum_of_bill(lines):
    """What the `pass` and `close` lines of an answer add up to."""
    return sum(int(line.split('\t')[-1]) for line in lines if line.startswith(('pass\t', 'close\t')))


# ---------------------------------------------------------------- document 01, section Cases

def document_cases():
    text = b'system\t7\t2\t3\na\t1\t1\t2\na\t1\t2\t1\na\t2\t2\t3\nb\t1\t1\nb\t2\t1\nend\n'
    want = b'answer\tsolved\t1\t1\t4\t12\npass\t1\t2\t1\t4\nclose\t0\nf\t0\t4\nf\t1\t1\nx\t1\t5\nx\t2\t5\nend\n'
    old = bytes(range(256)) * 28
    expect(len(old) == 7168)
    expect(ref.text_call(text, old) == ('ok', len(want), want + old[len(want):]))
    expect(ref.program(text) == want)

    diag = ([0, 1, 2], [0, 1], [2, 3])
    U = ([0, 1, 1], [1], [1])
    expect(run(7, 2, diag, [1, 1], []) == ('ok', 'solved', 2, 2, 7, 14, [4, 5], [6, 2, 1], []))
    expect(run(7, 2, diag, [1, 1], [1, 1]) == ('ok', 'solved', 2, 1, 6, 12, [4, 5], [6, 2, 1], []))
    expect(run(7, 2, diag, [1, 1], [8, 8]) == ('ok', 'solved', 2, 1, 6, 12, [4, 5], [6, 2, 1], []))
    expect(run(7, 2, diag, [1, 1], [0, 0]) == ('ok', 'solved', 2, 3, 10, 20, [4, 5], [6, 2, 1], []))
    got = run(7, 2, diag, [0, 1], [])
    expect(got[1] == 'solved' and got[3] == 2 and got[4:6] == (7, 14) and got[6] == [0, 5])
    got = run(7, 2, U, [0, 1], [])
    expect(got[1] == 'singular' and got[7] == [0, 0, 1] and got[6] == [1, 0] and got[4:6] == (6, 6))
    got = run(7, 2, U, [1, 0], [])
    expect(got[1] == 'singular' and got[7] == [0, 1, 0] and got[6] == [1, 0] and got[4:6] == (4, 4))
    expect(ref.check_solution(7, *U, [0, 1], [1, 0]) == ('ok', True, 1))
    expect(run(7, 2, diag, [0, 0], []) == ('ok', 'solved', 0, 0, 0, 0, [0, 0], [1, 0, 0], []))
    expect(run(7, 2, U, [0, 0], [5, 5]) == ('ok', 'solved', 0, 0, 0, 0, [0, 0], [1, 0, 0], []))
    got = run(2, 1, ([0, 1], [0], [1]), [1], [])
    expect(got[1] == 'solved' and got[6] == [1] and got[4:6] == (2, 2))
    expect(ref.recurrence(7, [1, 2, 4, 1], [9] * 5, [0] * 24) == ('ok', 1, [5, 1, 0, 0, 0]))
    expect(ref.recurrence(7, [0, 1], [9] * 3, [0] * 16) == ('ok', 2, [0, 0, 1]))
    expect(ref.field(2147483647) == ('ok', 2147483647))
    expect(ref.field(2147483646) == ('refused', 3))
    expect(ref.field(1) == ('refused', 3))
    expect(run(7, 2, diag, [1, 1], [3] * 128)[0] == 'ok')
    expect(run(7, 2, diag, [1, 1], [3] * 127) == ('refused', 10))
    expect(run(7, 2, diag, [1, 1], [3] * 130) == ('refused', 10))
    expect(ref.text_call(b'system\t7\t128\t0\nend\n', old)[0] == 'ok')
    expect(ref.text_call(b'system\t7\t129\t0\nend\n', old) == ('refused', 11))


# ---------------------------------------------------------------- request (i) of document 02: the bill

def bill_cases():
    """The bills of document 01's cases, worked out by hand, in slices of every length up to some places too many."""
    diag = ([0, 1, 2], [0, 1], [2, 3])
    U = ([0, 1, 1], [1], [1])
    for p, n, S, b, words, lines in (
            (7, 2, ([0, 2, 3], [0, 1, 1], [2, 1, 3]), [1, 1], [], [(2, 1, 4)]),
            (7, 2, diag, [1, 1], [], [(2, 1, 4), (1, 1, 2)]),
            (7, 2, diag, [1, 1], [1, 1], [(2, 2, 5)]),
            (7, 2, diag, [1, 1], [0, 0], [(2, 0, 3), (2, 1, 4), (1, 1, 2)]),
            (7, 2, diag, [0, 1], [], [(2, 0, 3), (2, 1, 4)]),
            (7, 2, U, [0, 1], [], [(2, 2, 5)]),
            (7, 2, U, [1, 0], [], [(2, 1, 4)]),
            (7, 2, diag, [0, 0], [5, 5], []),
            (2, 1, ([0, 1], [0], [1]), [1], [], [(1, 1, 2)])):
        numbers = [x for row in lines for x in row]
        for places in range(len(numbers) + 5):
            bill = dirty(places)
            got = run(p, n, S, b, words, bill)
            written = min(places - places % 3, len(numbers))
            expect(got[3] == len(lines) and got[8] == numbers[:written] + bill[written:], 'bill', S, b, words, places, got)
            expect(got[4] == sum(row[2] for row in lines) + max(got[2] - 1, 0), 'sum of the bill', S, b, words, got)
    expect(ref.program(b'system\t7\t2\t2\na\t1\t1\t2\na\t2\t2\t3\nb\t1\t1\nb\t2\t1\nend\n') ==
           b'answer\tsolved\t2\t2\t7\t14\npass\t1\t2\t1\t4\npass\t2\t1\t1\t2\nclose\t1\n'
           b'f\t0\t6\nf\t1\t2\nf\t2\t1\nx\t1\t4\nx\t2\t5\nend\n')
    expect(ref.program(b'system\t7\t2\t2\na\t1\t1\t2\na\t2\t2\t3\nend\n') ==
           b'answer\tsolved\t0\t0\t0\t0\nclose\t0\nf\t0\t1\nx\t1\t0\nx\t2\t0\nend\n')


# ---------------------------------------------------------------- request (ii) of document 02: size 0

def empty_cases():
    """Every call on the matrix without rows, worked out by hand: what it answers, and each check that turns it down."""
    A = (7, [0], [], [])
    solved = ('ok', 'solved', 0, 0, 0, 0, [], [1])
    for p in PRIMES:
        expect(ref.matrix_check(p, [0], [], []) == ('ok', 0))
        expect(run(p, 0, ([0], [], []), [], []) == (*solved, []))
    for bill in ([], [9], [9] * 3, [9] * 7):
        expect(ref.solve(*A, [], [], [], 0, [], [9], bill, [9] * 16) == (*solved, bill))
        expect(ref.solve(*A, [], [], [], 64, [], [9], bill, [9] * 17) == (*solved, bill))
    expect(ref.solver_steps(*A, [], [], []) == ('solved', [1], [], 0, 0, []))
    expect(ref.product(*A, [], []) == ref.transposed_product(*A, [], []) == ('ok', 0, []))
    expect(ref.polynomial_apply(*A, [0], [], [], []) == ref.polynomial_apply(*A, [6], [], [], [9]) == ('ok', 0, []))
    expect(ref.check_solution(*A, [], []) == ('ok', True, 0) and ref.check_kernel(*A, []) == ('ok', False, 0))

    # the checks in their order, a later fault beside each
    for matrix, number in (((6, [0], [], []), 3), ((7, [], [], []), 4), ((7, [], [0], [1]), 4), ((7, [1], [], []), 5), ((7, [0], [0], [1]), 5),
                           ((7, [1], [0], [1]), 5), ((7, [0], [0], []), 5), ((7, [0], [], [1]), 5), ((7, [0], [0], [0]), 5)):
        for v in ([], [1], [7]):
            expect(ref.matrix_check(*matrix) == ('refused', number))
            expect(ref.product(*matrix, v, []) == ref.transposed_product(*matrix, v, []) == ('refused', number))
            expect(ref.polynomial_apply(*matrix, [1], v, [], []) == ('refused', number))
            expect(ref.solve(*matrix, [], v, [], 65, [], [9], [], [9] * 16) == ('refused', number))
            expect(ref.check_solution(*matrix, v, v) == ref.check_kernel(*matrix, v) == ('refused', number))
            expect(ref.write_system(*matrix, [], v, bytes(99)) == ('refused', number))
    for v in ([0], [7]):
        expect(ref.product(*A, v, [9]) == ref.transposed_product(*A, v, [9]) == ('refused', 8))
        expect(ref.polynomial_apply(*A, [1], v, [], []) == ref.solve(*A, [], v, [1], 65, [], [9], [], [9] * 16) == ('refused', 8))
        expect(ref.check_solution(*A, v, []) == ref.check_solution(*A, [], v) == ref.check_kernel(*A, v) == ('refused', 8))
        expect(ref.write_system(*A, [], v, b'') == ('refused', 8))
    for g, number in ([], 8), ([1, 1], 8), ([7, 7], 8), ([7], 9):
        expect(ref.polynomial_apply(*A, g, [], [9], []) == ('refused', number))
    for count in 1, 2, 64, 65:
        expect(ref.solve(*A, [], [], [1] * count, 65, [9], [9], [], []) == ('refused', 10))
    expect(ref.solve(*A, [], [], [], 65, [9], [9], [], []) == ('refused', 13))
    expect(ref.product(*A, [], [9]) == ref.transposed_product(*A, [], [9]) == ref.polynomial_apply(*A, [1], [], [9], []) == ('refused', 11))
    for vector, polynomial, work in (1, 1, 16), (0, 0, 16), (0, 2, 16), (0, 1, 15), (0, 1, 0):
        expect(ref.solve(*A, [], [], [], 64, [9] * vector, [9] * polynomial, [], [9] * work) == ('refused', 11))

    # texts
    text, answer = b'system\t7\t0\t0\nend\n', b'answer\tsolved\t0\t0\t0\t0\nclose\t0\nf\t0\t1\nend\n'
    expect(ref.write_system(*A, [], [], b'.' * 19) == ('ok', 17, text + b'..') and ref.write_system(*A, [], [], b'.' * 16) == ('refused', 11))
    expect(ref.read_system(text, [9], [], [], [], []) == ('ok', 7, 0, 0, [0], [], [], [], []))
    expect(ref.read_system(text, [9, 8], [7], [6], [3], [5, 4]) == ('ok', 7, 0, 0, [0, 8], [7], [6], [3], [5, 4]))
    expect(ref.read_system(text, [], [7], [6], [3], [5]) == ('refused', 11))
    expect(len(answer) > 18 and ref.text_call(text, b'.' * 7168) == ('ok', 40, answer + b'.' * 7128) and ref.program(text) == answer)
    expect(ref.text_call(text, bytes(7167)) == ('refused', 11))
    for line, number in ((b'system\t7\t0\t0\n', 2), (b'system\t7\t00\t0\nend\n', 2), (b'system\t9\t0\t1\nend\n', 3),
                         (b'system\t7\t4097\t0\nend\n', 4), (b'system\t7\t0\t1\nend\n', 5), (b'system\t7\t0\t0\na\t1\t1\t1\nend\n', 5),
                         (b'system\t7\t0\t1\na\t1\t1\t1\nend\n', 6), (b'system\t7\t0\t1\na\t0\t0\t0\nend\n', 6),
                         (b'system\t7\t0\t0\nb\t1\t1\nend\n', 6), (b'system\t7\t0\t0\nb\t0\t7\nend\n', 6)):
        expect(ref.read_system(line, [], [], [], [], []) == ref.text_call(line, b'') == ('refused', number), line)
        expect(ref.program(line) == b'refused\t%d\n' % number)


# ---------------------------------------------------------------- request (iii) of document 02: entries multiplied

def entry_cases():
    """What each call multiplies, worked out by hand.  A has 4 entries in 3 rows, one of them without any."""
    A = (7, [0, 3, 3, 4], [0, 1, 2, 1], [2, 1, 5, 3])
    zero, v = [0, 0, 0], [1, 0, 6]
    out, work = [9] * 3, [9] * 6
    expect(ref.product(*A, v, out) == ('ok', 4, [4, 0, 0]) and ref.product(*A, zero, out) == ('ok', 4, zero))
    expect(ref.transposed_product(*A, v, out) == ('ok', 4, [2, 5, 5]) and ref.transposed_product(*A, zero, out) == ('ok', 4, zero))
    for g, multiplied in ([3], 0), ([0], 0), ([0, 1], 4), ([0, 0], 4), ([1, 0, 0], 8), ([0, 0, 0, 1], 12):
        for w in v, zero:
            expect(ref.polynomial_apply(*A, g, w, out, work)[:2] == ('ok', multiplied))
    # yes and no, no at the first place and at the last, a zero vector
    for b, yes in ([4, 0, 0], True), ([5, 0, 0], False), ([4, 0, 1], False), (zero, False):
        expect(ref.check_solution(*A, v, b) == ('ok', yes, 4))
    expect(ref.check_solution(*A, zero, zero) == ('ok', True, 4) and ref.check_solution(*A, zero, v) == ('ok', False, 4))
    expect(ref.check_kernel(*A, zero) == ('ok', False, 4) and ref.check_kernel(*A, v) == ('ok', False, 4))
    expect(ref.check_kernel(*A, [1, 0, 1]) == ('ok', True, 4))
    # no entries, so nothing to multiply, though there are products: a pass of degree 0 (3), one of degree 1 (4), the close (0)
    none = (7, [0, 0, 0], [], [])
    expect(ref.product(*none, [1, 6], [9] * 2) == ref.transposed_product(*none, [1, 6], [9] * 2) == ('ok', 0, [0, 0]))
    expect(ref.polynomial_apply(*none, [1, 1, 1], [1, 6], [9] * 2, [9] * 4) == ('ok', 0, [1, 6]))
    expect(ref.check_solution(*none, [1, 6], [0, 0]) == ref.check_kernel(*none, [1, 6]) == ('ok', True, 0))
    expect(run(7, 2, none[1:], [0, 3], []) == ('ok', 'singular', 1, 2, 7, 0, [0, 3], [0, 1, 0], []))
    # b = 0: entries, and no product
    expect(run(*A[:1], 3, A[1:], zero, [1, 2, 3]) == ('ok', 'solved', 0, 0, 0, 0, zero, [1, 0, 0, 0], []))
    # as many entries as a matrix can have
    full = list(range(0, 65537, 16))
    expect(ref.product(2, full, list(range(16)) * 4096, [1] * 65536, [1] * 4096, [9] * 4096) == ('ok', 65536, [0] * 4096))


# ---------------------------------------------------------------- request (v) of document 02: the window

def window_cases():
    """Passes that end early, tests that fail and checks in their order, worked out by hand."""
    def diag(*values):
        return list(range(len(values) + 1)), list(range(len(values))), list(values)

    solved = ('solved', 1, 1)
    # terms 1, 2, 4, 1, 2, 4; discrepancies 1, 2, 0, 0, 0, 0; L = 1 from the first term on; f = z - 2 from the second on
    for window, made in (0, 6), (1, 3), (2, 4), (3, 5), (4, 6), (5, 6), (64, 6):
        expect(run(7, 3, diag(2, 3, 4), [1, 0, 0], [], [9] * 4, window) ==
               ('ok', *solved, made, 3 * made, [4, 0, 0], [5, 1, 0, 0], [3, 1, made, 9]), window)
    # the first f, z - 2 of u = (1, 0, 0), leaves (0, 1, 0): the test fails; the next pass ends with z - 3; then diag(2,3), where
    # the second pass has one left, and so its test would be due after its last term, if at all
    for window, first, second in (0, 6, 4), (1, 7, 3), (2, 7, 4), (3, 7, 4), (4, 6, 4), (64, 6, 4):
        made = first + second + 1
        expect(run(7, 3, diag(2, 3, 5), [1, 1, 0], [], [9] * 6, window) ==
               ('ok', 'solved', 2, 2, made, 3 * made, [4, 5, 0], [6, 2, 1, 0], [3, 1, first, 2, 1, second]), window)
    for window, first in (0, 4), (1, 5), (2, 4), (64, 4):
        expect(run(7, 2, diag(2, 3), [1, 1], [], [9] * 6, window) ==
               ('ok', 'solved', 2, 2, first + 3, 2 * first + 6, [4, 5], [6, 2, 1], [2, 1, first, 1, 1, 2]), window)
    # p = 2, terms 1, 0, 1, 0, 1, 0: z is tested after the second and does not kill b; z^2 + 1 would be due after the fourth
    swap = ([0, 1, 2, 2], [1, 0], [1, 1])
    for window, made in (0, 7), (1, 8), (2, 6), (3, 7), (64, 7):
        expect(run(2, 3, swap, [1, 0, 0], [], [9] * 3, window) ==
               ('ok', 'solved', 2, 1, made + 1, 2 * made + 2, [0, 1, 0], [1, 0, 1, 0], [3, 2, made]), window)
    # terms 0, 1, 0: no test while L = 0; then z^2, though 2L > 3
    for window, made in (0, 5), (1, 4), (2, 5), (64, 5):
        expect(run(7, 2, ([0, 1, 1], [1], [1]), [0, 1], [], [9] * 3, window) ==
               ('ok', 'singular', 2, 1, made + 1, made + 1, [1, 0], [0, 0, 1], [2, 2, made]), window)
    # nothing to test
    for window in 0, 1, 64:
        expect(run(7, 2, diag(2, 3), [0, 0], [1, 1], [], window) == ('ok', 'solved', 0, 0, 0, 0, [0, 0], [1, 0, 0], []))
        expect(run(2, 1, diag(1), [1], [], [9] * 3, window) == ('ok', 'solved', 1, 1, 2, 2, [1], [1, 1], [1, 1, 2]))

    # 13 stands after 10 and before 11
    for window in 65, 66, 2 ** 32 - 1:
        expect(run(7, 2, diag(2, 3), [1, 1], [], [], window) == ('refused', 13))
        expect(run(7, 2, diag(2, 3), [1, 1], [1], [], window) == ('refused', 10))
        expect(run(7, 2, diag(2, 3), [7, 1], [1], [], window) == ('refused', 9))
        for lengths in (1, 3, 48), (2, 2, 48), (2, 3, 47), (0, 0, 0):
            vector, polynomial, work = ([9] * k for k in lengths)
            expect(ref.solve(7, *diag(2, 3), [], [1, 1], [], window, vector, polynomial, [], work) == ('refused', 13))
            expect(ref.solve(7, *diag(2, 3), [], [1, 1], [1], window, vector, polynomial, [], work) == ('refused', 10))
            expect(ref.solve(7, *diag(2, 3), [], [1, 1], [], 64, vector, polynomial, [], work) == ('refused', 11))


def first_test(p, terms, window):
    """The first i below the number of all terms where a test is due, or None, by what each f predicts: the last `window` terms
    were those that the f before them recurs on."""
    f = [ref.shortest_recurrence(p, terms[:r])[1] for r in range(len(terms))]
    for i in range(max(window, 1), len(terms)):
        if window and len(f[i]) > 1 and all(ref.recurs(p, f[r - 1], terms[:r]) for r in range(i - window + 1, i + 1)):
            return i
    return None


# ---------------------------------------------------------------- request (vi) of document 02: scaled columns

def scale_cases():
    """Runs on AX, what they answer for A, the `s` lines, and each new cause of a refusal on either side of its bound; by hand."""
    diag, U, none = ([0, 1, 2], [0, 1], [2, 3]), ([0, 1, 1], [1], [1]), ([0, 0, 0], [], [])
    for p, n, S, X, b, words, window, want, bill in (
            # AX = diag(1,1): one pass of degree 1 and y = b, where diag(2,3) takes two; AX = diag(2,3), where diag(2,2) takes one
            (7, 2, diag, [4, 5], [1, 1], [], 0, ('solved', 1, 1, 4, 8, [4, 5], [6, 1, 0]), [2, 1, 4]),
            (7, 2, diag, [4, 5], [1, 1], [1, 1], 1, ('solved', 1, 1, 3, 6, [4, 5], [6, 1, 0]), [2, 1, 3]),
            (7, 2, ([0, 1, 2], [0, 1], [2, 2]), [1, 5], [1, 1], [], 0, ('solved', 2, 2, 7, 14, [4, 4], [6, 2, 1]), [2, 1, 4, 1, 1, 2]),
            # AX = 0 2 / 0 0: AXb = (2, 0), and X takes it to (6, 0); w = b = (1, 0), and X takes it to (3, 0)
            (7, 2, U, [3, 2], [0, 1], [], 0, ('singular', 2, 1, 6, 6, [6, 0], [0, 0, 1]), [2, 2, 5]),
            (7, 2, U, [3, 2], [1, 0], [], 0, ('singular', 1, 1, 4, 4, [3, 0], [0, 1, 0]), [2, 1, 4]),
            # no entries: w = b, then X; b = 0: nothing
            (7, 2, none, [3, 2], [0, 3], [], 0, ('singular', 1, 2, 7, 0, [0, 6], [0, 1, 0]), [2, 0, 3, 2, 1, 4]),
            (7, 2, diag, [4, 5], [0, 0], [1, 1], 0, ('solved', 0, 0, 0, 0, [0, 0], [1, 0, 0]), []),
            (2, 1, ([0, 1], [0], [1]), [1], [1], [], 0, ('solved', 1, 1, 2, 2, [1], [1, 1]), [1, 1, 2]),
            # values times scales beyond 32 bits: (p - 1)(p - 1) = 1
            (2147483647, 1, ([0, 1], [0], [2147483646]), [2147483646], [5], [], 0,
             ('solved', 1, 1, 2, 2, [2147483642], [2147483646, 1]), [1, 1, 2])):
        expect(run(p, n, S, b, words, bill, window, X) == ('ok', *want, bill), S, X, b, run(p, n, S, b, words, bill, window, X))
    # n ones act as none
    for X in [1, 1], []:
        expect(run(7, 2, diag, [1, 1], [], [], 0, X) == ('ok', 'solved', 2, 2, 7, 14, [4, 5], [6, 2, 1], []))
    # the two checks of offered answers stay with A
    expect(ref.check_solution(7, *diag, [4, 5], [1, 1]) == ('ok', True, 2) and ref.check_solution(7, *diag, [1, 1], [1, 1]) == ('ok', False, 2))

    # 5: neither 0 nor n of them; 7: 0 or at least p; the checks in their order, a later fault beside each
    for X, number in (([1], 5), ([1, 1, 1], 5), ([0], 5), ([7, 7, 7], 5), ([0, 1], 7), ([1, 0], 7), ([7, 1], 7), ([6, 7], 7), ([1, 8], 7),
                      ([2 ** 32 - 1, 1], 7), ([6, 6], 0)):
        for b, words, later in ([1, 1], [], 0), ([1, 1], [1], 10), ([1], [1], 8), ([1, 7], [1], 9):
            got = run(7, 2, diag, b, words, [], 0, X)
            expect(got == ('refused', number or later) if number or later else got[0] == 'ok', X, b, words, got)
        for b, room, later in ([1, 1], 99, 0), ([1, 1], 0, 11), ([1], 0, 8), ([1, 7], 0, 9):
            got = ref.write_system(7, *diag, X, b, bytes(room))
            expect(got == ('refused', number or later) if number or later else got[0] == 'ok', X, b, room, got)
    for S, X, number in ((([0, 1, 2], [0, 2], [2, 3]), [1], 5), (([0, 1, 2], [0, 2], [2, 3]), [0, 7], 6), (([0, 1, 2], [0, 1], [0, 3]), [1], 5),
                         (([0, 1, 2], [0, 1], [0, 3]), [4, 5], 7), (([], [], []), [1], 4), (([1, 1, 2], [0, 1], [2, 3]), [4, 5], 5)):
        expect(run(7, 2, S, [1, 1], [], [], 0, X) == ref.write_system(7, *S, X, [1, 1], bytes(99)) == ('refused', number))
        expect(ref.solve(8, *S, X, [1, 1], [], 0, [], [], [], []) == ref.write_system(8, *S, X, [1, 1], b'') == ('refused', 3))
    for X in [1], [0], [1, 1]:  # size 0 has none
        expect(run(7, 0, ([0], [], []), [], [], [], 0, X) == ref.write_system(7, [0], [], [], X, [], bytes(99)) == ('refused', 5))

    # the writer: `s` lines exactly if some scale isn't 1; the reader: what they say, or ones
    head, tail = b'system\t7\t2\t2\na\t1\t1\t2\na\t2\t2\t3\n', b'b\t1\t1\nb\t2\t1\nend\n'
    for X, lines, read in (([4, 5], b's\t1\t4\ns\t2\t5\n', [4, 5]), ([1, 2], b's\t1\t1\ns\t2\t2\n', [1, 2]), ([2, 1], b's\t1\t2\ns\t2\t1\n', [2, 1]),
                           ([1, 1], b'', [1, 1]), ([], b'', [1, 1])):
        text = head + lines + tail
        expect(ref.write_system(7, *diag, X, [1, 1], b'.' * (len(text) + 2)) == ('ok', len(text), text + b'..'))
        expect(ref.write_system(7, *diag, X, [1, 1], b'.' * (len(text) - 1)) == ('refused', 11))
        for places in 2, 3:
            expect(ref.read_system(text, [9] * 3, [9] * 2, [9] * 2, [9] * places, [9] * 2) ==
                   ('ok', 7, 2, 2, *diag, read + [9] * (places - 2), [1, 1]))
        expect(ref.read_system(text, [9] * 3, [9] * 2, [9] * 2, [9], [9] * 2) == ('refused', 11))
    expect(ref.program(head + b's\t1\t4\ns\t2\t5\n' + tail) ==
           b'answer\tsolved\t1\t1\t4\t8\npass\t1\t2\t1\t4\nclose\t0\nf\t0\t6\nf\t1\t1\nx\t1\t4\nx\t2\t5\nend\n')
    expect(ref.program(b'system\t7\t2\t1\na\t1\t2\t1\ns\t1\t3\ns\t2\t2\nb\t2\t1\nend\n') ==
           b'answer\tsingular\t2\t1\t6\t6\npass\t1\t2\t2\t5\nclose\t1\nf\t0\t0\nf\t1\t0\nf\t2\t1\nw\t1\t6\nw\t2\t0\nend\n')
    s = b's\t1\t4\ns\t2\t5\n'
    for text, number in ((head + s + tail, 0), (s + head + tail, 2), (head[:15] + s + head[15:] + tail, 2), (head + tail[:6] + s + tail[6:], 2),
                         (head + tail[:-4] + s + b'end\n', 2), (head + tail + s, 2), (head + b's\t1\ns\t2\n' + tail, 2),
                         (head + b's\t1\t4\t5\n' + tail, 2), (head + b's\n' + tail, 2), (head + b'S\t1\t4\ns\t2\t5\n' + tail, 2),
                         (head + b's\t1\t4\ns\t2\t05\n' + tail, 2), (head + b's 1\t4\ns\t2\t5\n' + tail, 2),
                         (head + b's\t1\t4\n' + tail, 5), (head + s + b's\t3\t1\n' + tail, 5), (head + b's\t3\t0\n' + tail, 5),
                         (head + b's\t1\t4\ns\t3\t5\n' + tail, 6), (head + b's\t0\t4\ns\t1\t5\n' + tail, 6), (head + b's\t2\t4\ns\t1\t5\n' + tail, 6),
                         (head + b's\t2\t4\ns\t2\t5\n' + tail, 6), (head + b's\t1\t0\ns\t1\t7\n' + tail, 6), (head + b's\t1\t1\ns\t2\t1\n' + tail, 6),
                         (head.replace(b'\t3\n', b'\t7\n') + b's\t1\t1\ns\t2\t1\n' + tail, 6), (head + s + b'b\t2\t1\nb\t1\t1\nend\n', 6),
                         (head + b's\t1\t0\ns\t2\t5\n' + tail, 7), (head + b's\t1\t4\ns\t2\t7\n' + tail, 7), (head + b's\t1\t6\ns\t2\t6\n' + tail, 0),
                         (head + b's\t1\t1\ns\t2\t0\n' + tail, 7), (head + b's\t1\t4294967295\ns\t2\t1\n' + tail, 7),
                         (head + b's\t1\t4294967296\ns\t2\t1\n' + tail, 2),
                         (b'system\t2\t1\t0\ns\t1\t1\nend\n', 6), (b'system\t2\t1\t0\ns\t1\t0\nend\n', 7), (b'system\t2\t1\t0\ns\t1\t2\nend\n', 7),
                         (b'system\t3\t1\t0\ns\t1\t2\nend\n', 0), (b'system\t7\t0\t0\ns\t1\t2\nend\n', 5), (b'system\t7\t0\t0\ns\t0\t2\nend\n', 5),
                         (b'system\t9\t1\t0\ns\t1\t2\ns\t2\t2\nend\n', 3), (b'system\t7\t4097\t0\ns\t1\t2\nend\n', 4)):
        got = ref.read_system(text, [9] * 3, [9] * 2, [9] * 2, [9] * 2, [9] * 2)
        expect(got == ('refused', number) if number else got[0] == 'ok', text, got)
        expect(ref.program(text).startswith(b'refused\t%d\n' % number if number else b'answer\t'), text)


# ---------------------------------------------------------------- solver against dense elimination

WINDOWS = (0, 0, 1, 1, 1, 2, 2, 3, 5, 64)


def check_system(p, n, A, b, words_list, windows=WINDOWS, X=()):
    """The run is on M = AX, built entry by entry, and its vector is an answer for A itself."""
    S = dense_to_sparse(A)
    M = d_scaled(A, X, p)
    krylov = [b]
    for _ in range(n):
        krylov.append(d_mul(M, krylov[-1], p))
    results = []
    for words in words_list:
        R = len(words) // n if n else 0
        bill = dirty(rng.randrange(3 * n + 4))
        window = rng.choice(windows)
        got = run(p, n, S, b, words, bill, window, X)
        expect(got[0] == 'ok', 'refused', got, p, A, X, b)
        _, kind, D, passes, applications, multiplied, vector, poly, billed = got
        where = (p, A, X, b, words, window, got)
        f = poly[:D + 1]
        expect(len(poly) == n + 1 and len(vector) == n and not any(poly[D + 1:]), 'lengths', where)
        expect(f[D] == 1 and all(0 <= c < p for c in poly + vector), 'monic', where)
        # minimal polynomial of b under A: D independent Krylov vectors, and f kills b
        expect(d_rank(krylov[:D], p) == D, 'least degree', where)
        expect(not any(d_apply_poly(M, f, b, p)), 'f(A)b', where)
        expect((kind == 'solved') == d_in_span(b, krylov[1:], p), 'kind', where)
        if kind == 'solved':
            expect(d_mul(A, vector, p) == b, 'Ax = b', where)
            expect(ref.check_solution(p, *S, vector, b) == ('ok', True, len(S[2])), where)
        else:
            expect(kind == 'singular' and any(vector) and not any(d_mul(A, vector, p)), 'Aw = 0', where)
            expect(d_rank(A, p) < n, 'singular matrix', where)
            expect(ref.check_kernel(p, *S, vector) == ('ok', True, len(S[2])), where)
        # y and w of AX are what X takes to the answer
        of_AX = d_apply_poly(M, f[1:], b, p)
        c = -d_inv(f[0], p) if kind == 'solved' and D else 1
        expect(vector == [c * y * (X[j] if X else 1) % p for j, y in enumerate(of_AX)], 'Xy', where)
        expect(passes <= R + n, 'passes', where)
        # the passes, one by one
        trace = ref.solver_steps(p, *S, list(X), b, words, window)[5]
        expect(len(trace) == passes, where)
        r, before, total, lines = b, 0, 0, []
        for k, (u, left, terms, g, after, test, made) in enumerate(trace):
            expect(any(r), 'pass on zero r', where)
            expect(left == n - before and left >= 1, 'left', where)
            want_u = [w % p for w in words[k * n:k * n + n]] if k < R else [int(i == k - R) for i in range(n)]
            expect(u == want_u, 'u', where)
            long = []
            v = r
            for _ in range(2 * n + 4):
                long.append(sum(x * y for x, y in zip(u, v)) % p)
                v = d_mul(M, v, p)
            # the test: where it is due, with which f, and what follows
            i = first_test(p, long[:2 * left], window)
            tested = ref.shortest_recurrence(p, long[:i])[1] if i else [1]
            ends = i is not None and not any(d_apply_poly(M, tested, r, p))
            expect(test == (i and (i, len(tested) - 1)), 'test', where)
            expect(terms == long[:i if ends else 2 * left] and (g == tested or not ends), 'terms', where)
            # g is the least recurrence of the long sequence too
            L, number, h = ref.least_recurrence_by_elimination(p, long)
            expect((L, h) == (len(g) - 1, g) and number == 'one', 'f of pass', where)
            r = d_apply_poly(M, g, r, p)
            expect(r == after, 'r after', where)
            expect(made == (i - 1 + L if ends else 2 * left - 1 + L + len(tested) - 1), 'applications of a pass', where)
            lines += [left, L, made]
            total += made
            before += L
            if i:
                count('passes that ended early' if ends else 'tests that failed')
            if L == 0:
                count('passes of degree 0')
            if k > 0 and L > 0:
                count('true restarts, p = %d' % p)
        expect(not any(r) and before == D, 'end', where)
        expect(applications == total + max(D - 1, 0), 'applications', where)
        if window == 0 and any(b):  # the third condition's formula
            expect(applications == sum(2 * left - 1 for left in lines[::3]) + 2 * D - 1, 'applications without a window', where)
        expect(multiplied == applications * len(S[2]), 'entries multiplied', where)
        written = min(len(bill) - len(bill) % 3, len(lines))
        expect(billed == lines[:written] + bill[written:], 'bill', where, bill)
        results.append((kind, D, vector, poly))
        count(kind + (', scaled' if any(x != 1 for x in X) else ''))
    expect(all(x == results[0] for x in results), 'words or windows change the answer', p, A, X, b, results)
    # text round trip
    X = list(X)
    length_out = ref.write_system(p, *S, X, b, b'\xee' * 5000)
    expect(length_out[0] == 'ok')
    text = length_out[2][:length_out[1]]
    expect(length_out[2] == text + b'\xee' * (5000 - len(text)))
    expect(ref.write_system(p, *S, X, b, b'\xee' * len(text)) == ('ok', len(text), text))
    expect(ref.write_system(p, *S, X, b, b'\xee' * (len(text) - 1)) == ('refused', 11))
    expect(text.count(b'\ns\t') == (n if any(x != 1 for x in X) else 0), 's lines', text)
    e = len(S[1])
    read_X = X or [1] * n
    back = ref.read_system(text, [77] * (n + 3), [78] * (e + 1), [79] * e, [81] * (n + 1), [80] * (n + 2))
    expect(back == ('ok', p, n, e, S[0] + [77] * 2, S[1] + [78], S[2], read_X + [81], list(b) + [80] * 2), 'read', back)
    expect(ref.write_system(p, *S, read_X, b, b'\xee' * len(text)) == ('ok', len(text), text), 'written again')
    # text call = solver without words
    got = run(p, n, S, b, [], [0] * (3 * n), 0, X)
    # n ones act as none
    if read_X == [1] * n:
        for Y in [], [1] * n:
            expect(run(p, n, S, b, [], [0] * (3 * n), 0, Y) == got and ref.system_text(p, *S, Y, b) == text, 'ones', p, A, b)
    answer = ref.text_call(text, b'\x01' * 7200)
    expect(answer[0] == 'ok' and answer[1] > 18)
    lines = answer[2][:answer[1]].decode().split('\n')
    expect(answer[2][answer[1]:] == b'\x01' * (7200 - answer[1]))
    expect(sum_of_bill(lines) == got[4], 'the printed sum', lines)
    want = ['answer\t%s\t%d\t%d\t%d\t%d' % got[1:6]]
    want += ['pass\t%d\t%d\t%d\t%d' % (k + 1, *got[8][3 * k:3 * k + 3]) for k in range(got[3])]
    want += ['close\t%d' % max(got[2] - 1, 0)] + ['f\t%d\t%d' % (i, got[7][i]) for i in range(got[2] + 1)]
    want += ['%s\t%d\t%d' % ('x' if got[1] == 'solved' else 'w', i + 1, got[6][i]) for i in range(n)] + ['end', '']
    expect(lines == want, lines, want)
    expect(ref.program(text) == answer[2][:answer[1]])


def solver_tests(rounds):
    # all systems with n <= 2, p <= 3 (n = 0 and 1: p <= 7; n = 3: p = 2), with all single word vectors
    for p, n in ((2, 0), (3, 0), (5, 0), (7, 0), (2, 1), (3, 1), (5, 1), (7, 1), (2, 2), (3, 2), (2, 3)):
        vectors = [list(v) for v in itertools.product(range(p), repeat=n)]
        for cells in itertools.product(range(p), repeat=n * n):
            M = [list(cells[i * n:(i + 1) * n]) for i in range(n)]
            for b in vectors:
                check_system(p, n, M, b, [[]] + vectors)
                count('exhaustive systems')
                for X in itertools.product(range(1, p), repeat=n):
                    if any(x != 1 for x in X):
                        check_system(p, n, M, b, [[], rng.choice(vectors)], X=list(X))
                        count('exhaustive systems, scaled')
    for _ in range(rounds):
        p = rng.choice(PRIMES)
        n = random_size(8)
        M = random_dense(p, n)
        style = rng.randrange(4)
        if style == 0:
            b = [rng.randrange(p) if rng.random() < 0.4 else 0 for _ in range(n)]
        elif style == 1:
            b = d_mul(M, [rng.randrange(p) for _ in range(n)], p)
        else:
            b = [rng.randrange(p) for _ in range(n)]
        X = random_scales(p, n)
        if style == 3:
            b = d_mul(d_scaled(M, X, p), [rng.randrange(p) for _ in range(n)], p)
        check_system(p, n, M, b, [[]] + [random_words(p, n) for _ in range(3)], X=X)
        count('random systems%s%s' % (', scaled' if any(x != 1 for x in X) else '', '' if n else ' of size 0'))


# ---------------------------------------------------------------- products, recurrence, field

def product_tests(rounds):
    for _ in range(rounds):
        p = rng.choice(PRIMES)
        n = random_size(8)
        M = random_dense(p, n)
        S = dense_to_sparse(M)
        entries = sum(x != 0 for row in M for x in row)
        v = [rng.randrange(p) for _ in range(n)]
        expect(ref.product(p, *S, v, [5] * n) == ('ok', entries, d_mul(M, v, p)))
        T = [[M[j][i] for j in range(n)] for i in range(n)]
        expect(ref.transposed_product(p, *S, v, [5] * n) == ('ok', entries, d_mul(T, v, p)))
        g = [rng.randrange(p) for _ in range(rng.randrange(1, n + 2))]
        expect(ref.polynomial_apply(p, *S, g, v, [5] * n, [6] * (2 * n)) ==
               ('ok', (len(g) - 1) * entries, d_apply_poly(M, g, v, p)))
        y = d_mul(M, v, p)
        expect(ref.check_solution(p, *S, v, y) == ('ok', True, entries))
        y2 = list(y)
        if n:
            y2[rng.randrange(n)] = rng.randrange(p)
        expect(ref.check_solution(p, *S, v, y2) == ('ok', y2 == y, entries))
        expect(ref.check_kernel(p, *S, v) == ('ok', any(v) and not any(y), entries))
        expect(ref.check_kernel(p, *S, [0] * n) == ('ok', False, entries))


def recurrence_one(p, s):
    L, f = ref.shortest_recurrence(p, s)
    expect(len(f) == L + 1 and f[L] == 1 and ref.recurs(p, f, s), 'recurs', p, s, f)
    least, number, h = ref.least_recurrence_by_elimination(p, s)
    expect(L == least, 'least', p, s, L, least)
    if 2 * L <= len(s):
        expect(number == 'one' and f == h, 'only one', p, s, f, h)
    else:
        count('recurrences with 2L > N')
    expect(ref.recurrence(p, s, [7] * (len(s) + 1), [8] * (4 * len(s) + 8)) == ('ok', L, f + [0] * (len(s) - L)))
    count('recurrences')


def recurrence_tests(rounds):
    for N in range(0, 11):
        for s in itertools.product(range(2), repeat=N):
            recurrence_one(2, list(s))
    for N in range(0, 7):
        for s in itertools.product(range(3), repeat=N):
            recurrence_one(3, list(s))
    for _ in range(rounds):
        p = rng.choice(PRIMES)
        N = rng.randrange(0, 20)
        style = rng.randrange(3)
        if style == 0:
            s = [rng.randrange(p) for _ in range(N)]
        elif style == 1:
            s = [rng.randrange(p) if rng.random() < 0.2 else 0 for _ in range(N)]
        else:
            k = rng.randrange(1, 7)
            c = [rng.randrange(p) for _ in range(k)]
            s = [rng.randrange(p) for _ in range(k)]
            while len(s) < N:
                s.append(sum(c[i] * s[len(s) - k + i] for i in range(k)) % p)
            s = s[:N]
        recurrence_one(p, s)


def field_tests():
    sieve = [True] * 3000
    sieve[0] = sieve[1] = False
    for i in range(2, 3000):
        if sieve[i]:
            for j in range(2 * i, 3000, i):
                sieve[j] = False
    for m in range(3000):
        expect(ref.is_prime(m) == sieve[m])
        expect(ref.field(m) == (('ok', m) if sieve[m] else ('refused', 3)))
    for m in (2147483646, 2147483648, 2147483659, 4294967291, 4294967295, 2147395600, 46337 * 46337, 1373653, 3215031751):
        expect(ref.field(m) == ('refused', 3), m)
    for p in (2, 3, 5, 7, 11, 13):
        for a in range(p + 3):
            for b in range(p + 3):
                ok = a < p and b < p
                expect(ref.field_sum(p, a, b) == (('ok', (a + b) % p) if ok else ('refused', 9)))
                expect(ref.field_difference(p, a, b) == (('ok', (a + p - b) % p) if ok else ('refused', 9)))
                expect(ref.field_product(p, a, b) == (('ok', a * b % p) if ok else ('refused', 9)))
            got = ref.field_inverse(p, a)
            expect(got == ('refused', 9) if a >= p else got == ('refused', 12) if a == 0 else got[1] * a % p == 1)
    for a in range(1, 251):
        expect(ref.field_inverse(251, a)[1] * a % 251 == 1)
    printed = ref.inverses_program()
    expect(printed.startswith(b'i\t1\t1\ni\t2\t126\n') and printed.endswith(b'\ni\t250\t250\n') and printed.count(b'\n') == 250)
    expect(ref.field_sum(9, 100, 100) == ('refused', 3))
    expect(ref.field_inverse(4, 0) == ('refused', 3))
    expect(ref.field_inverse(2147483647, 2147483646) == ('ok', 2147483646))


# ---------------------------------------------------------------- refusals against an independent list of causes

def matrix_causes(p, starts, columns, values):
    """All numbers 3..7 that apply, looked at separately; the call must give the least."""
    causes = set()
    prime = 2 <= p <= 2147483647 and all(p % d for d in range(2, min(p - 1, int(p ** 0.5) + 1) + 1) if d < p)
    if not prime:
        causes.add(3)
    n = len(starts) - 1
    if n < 0 or n > 4096:
        causes.add(4)
    m = len(columns)
    if len(starts) and (starts[0] != 0 or sorted(starts) != list(starts) or starts[-1] != m) or len(values) != m or m > 65536:
        causes.add(5)
    if not causes & {4, 5}:
        rows = [columns[starts[i]:starts[i + 1]] for i in range(n)]
        if any(c >= n for c in columns) or any(sorted(set(r)) != list(r) for r in rows):
            causes.add(6)
    if any(v < 1 or v > p - 1 for v in values):
        causes.add(7)
    return causes, n


def mutate(values, p):
    values = list(values)
    style = rng.randrange(5)
    if style == 0 and values:
        values[rng.randrange(len(values))] = rng.choice((0, 1, p, p - 1 if p else 0, 2 ** 32 - 1, rng.randrange(2 ** 32), rng.randrange(4)))
    elif style == 1 and values:
        del values[rng.randrange(len(values))]
    elif style == 2:
        values.insert(rng.randrange(len(values) + 1), rng.randrange(4))
    elif style == 3:
        values = values[::-1]
    else:
        values = []
    return values


def refusal_tests(rounds):
    for _ in range(rounds):
        p = rng.choice((2, 3, 5, 7, 101, 2147483647))
        n = random_size(4)
        starts, columns, values = dense_to_sparse(random_dense(p, n))
        v = [rng.randrange(p) for _ in range(n)]
        b = [rng.randrange(p) for _ in range(n)]
        g = [rng.randrange(p) for _ in range(rng.randrange(1, n + 2))]
        words = [rng.randrange(2 ** 32) for _ in range(n * rng.choice((0, 1, 2, 64)))]
        window = rng.choice((0, 1, 64)) if rng.random() < 0.7 else rng.choice((65, 66, 2 ** 32 - 1))
        scales = random_scales(p, n)
        slices = {'starts': starts, 'columns': columns, 'values': values, 'scales': scales, 'v': v, 'b': b, 'g': g, 'words': words,
                  'out': [9] * n, 'poly': [9] * (n + 1), 'bill': [9] * (3 * n), 'work': [9] * (16 * n + 16),
                  'gwork': [9] * (2 * n)}
        for _ in range(rng.choice((0, 1, 1, 2, 3))):
            if rng.random() < 0.15:
                p = rng.choice((0, 1, 4, 9, 91, 2147483646, 2147483648, 4294967291, 4294967295))
            name = rng.choice(list(slices))
            slices[name] = mutate(slices[name], p)
        starts, columns, values, scales, v, b, g, words = (slices[k] for k in ('starts', 'columns', 'values', 'scales', 'v', 'b', 'g', 'words'))
        causes, m = matrix_causes(p, starts, columns, values)
        A = (p, starts, columns, values)
        scaled = causes | ({5} if scales and len(scales) != m else set()) | ({7} if any(not 1 <= x < p for x in scales) else set())
        long_v = {8} if len(v) != m else set()
        long_b = {8} if len(b) != m else set()
        big = lambda x: {9} if any(c >= p for c in x) else set()
        w10 = {10} if (len(words) % m or len(words) // m > 64 if m > 0 else words) else set()
        o11 = {11} if len(slices['out']) != m else set()

        def same(got, all_causes, name):
            want = min(all_causes) if all_causes else None
            want = 13 if want == 10.5 else want
            expect((got[1] if got[0] == 'refused' else None) == want, name, got, all_causes, A, slices)
            count('refusal ' + str(want) if want else 'accepted' if m else 'accepted, size 0')

        same(ref.matrix_check(*A), causes, 'matrix_check')
        same(ref.product(*A, v, slices['out']), causes | long_v | big(v) | o11, 'product')
        same(ref.transposed_product(*A, v, slices['out']), causes | long_v | big(v) | o11, 'transposed')
        same(ref.polynomial_apply(*A, g, v, slices['out'], slices['gwork']),
             causes | long_v | ({8} if not 1 <= len(g) <= m + 1 else set()) | big(v) | big(g) | o11 |
             ({11} if len(slices['gwork']) < 2 * m else set()), 'polynomial_apply')
        # 13 stands between 10 and 11
        same(ref.solve(*A, scales, b, words, window, slices['out'], slices['poly'], slices['bill'], slices['work']),
             scaled | long_b | big(b) | w10 | ({10.5} if window > 64 else set()) | o11 |
             ({11} if len(slices['poly']) != m + 1 else set()) | ({11} if len(slices['work']) < 16 * m + 16 else set()), 'solve')
        same(ref.check_solution(*A, v, b), causes | long_v | long_b | big(v) | big(b), 'check_solution')
        same(ref.check_kernel(*A, v), causes | long_v | big(v), 'check_kernel')
        got = ref.write_system(*A, scales, b, bytes(2000))
        same(got, scaled | long_b | big(b), 'write')
        if got[0] == 'ok':
            expect(ref.write_system(*A, scales, b, bytes(got[1])) == ('ok', got[1], got[2][:got[1]]))
            same(ref.write_system(*A, scales, b, bytes(got[1] - 1)), {11}, 'write short')
        s = mutate(b, p)
        bp = {3} if 3 in causes else set()
        poly = [1] * (len(s) + rng.choice((1, 1, 1, 0, 2)))
        work = [1] * (4 * len(s) + rng.choice((8, 8, 9, 7)))
        same(ref.recurrence(p, s, poly, work), bp | big(s) | ({11} if len(poly) != len(s) + 1 or len(work) < 4 * len(s) + 8 else set()),
             'recurrence')
    expect(ref.recurrence(7, [0] * 8193, [0] * 8194, [0] * 40000) == ('refused', 8))
    expect(ref.recurrence(7, [7] * 8193, [0], []) == ('refused', 8))
    expect(ref.recurrence(6, [7] * 8193, [0], []) == ('refused', 3))
    expect(ref.recurrence(7, [0] * 8192, [0] * 8193, [0] * (4 * 8192 + 8)) == ('ok', 0, [1] + [0] * 8192))
    expect(ref.matrix_check(7, [0] * 4097, [], []) == ('ok', 4096))
    expect(ref.matrix_check(7, [0] * 4098, [], []) == ('refused', 4))
    full = [0] + [256 * (i + 1) for i in range(256)]
    expect(ref.matrix_check(7, full, list(range(256)) * 256, [1] * 65536) == ('ok', 256))
    more = full + [65537]
    expect(ref.matrix_check(7, more, list(range(256)) * 256 + [0], [1] * 65537) == ('refused', 5))


# ---------------------------------------------------------------- texts

NUM = rb'(?:0|[1-9][0-9]{0,9})'
FORM = re.compile(rb'system(?:\t' + NUM + rb'){3}\n(?:a(?:\t' + NUM + rb'){3}\n)*(?:s(?:\t' + NUM + rb'){2}\n)*(?:b(?:\t' + NUM +
                  rb'){2}\n)*end\n')


def text_causes(text):
    """All numbers 2..7 that apply; the reader must give the least."""
    if len(text) > 2097152 or not FORM.fullmatch(text) or any(int(x) > 4294967295 for x in re.findall(rb'[0-9]+', text)):
        return {2}, None
    causes = set()
    rows = [r.split(b'\t') for r in text.split(b'\n')]
    p, n, m = (int(x) for x in rows[0][1:])
    a = [tuple(int(x) for x in r[1:]) for r in rows if r[0] == b'a']
    s = [tuple(int(x) for x in r[1:]) for r in rows if r[0] == b's']
    b = [tuple(int(x) for x in r[1:]) for r in rows if r[0] == b'b']
    if p < 2 or p > 2147483647 or any(p % d == 0 for d in range(2, int(p ** 0.5) + 1)):
        causes.add(3)
    if n > 4096:
        causes.add(4)
    if m != len(a) or m > 65536 or s and len(s) != n:
        causes.add(5)
    places = [x[:2] for x in a]
    if sorted(set(places)) != places or any(not 1 <= i <= n for x in places for i in x):
        causes.add(6)
    for lines in s, b:
        if sorted({x[0] for x in lines}) != [x[0] for x in lines] or any(not 1 <= x[0] <= n for x in lines):
            causes.add(6)
    if {x[1] for x in s} == {1}:
        causes.add(6)
    if any(not 1 <= x[-1] < p for x in a + s + b):
        causes.add(7)
    return causes, (p, n, m, a, s, b)


def text_tests(rounds):
    pieces = [b'\t', b'\n', b'0', b'1', b'2', b'a', b's', b'b', b'end\n', b'a\t1\t1\t1\n', b's\t1\t1\n', b'b\t1\t1\n', b'system\t7\t2\t1\n', b' ', b'\r',
              b'-', b'+', b'9999999999', b'4294967295', b'4294967296', b'00', b'\x00', b'\xff', b'5' * 5000]
    for _ in range(rounds):
        p = rng.choice((2, 3, 5, 7, 101))
        n = random_size(3)
        S = dense_to_sparse(random_dense(p, n))
        b = [rng.randrange(p) for _ in range(n)]
        text = ref.system_text(p, *S, random_scales(p, n), b)
        if rng.random() < 0.1:  # `s` lines all of value 1
            text = re.sub(rb'(s\t[0-9]+)\t[0-9]+', rb'\1\t1', text)
        for _ in range(rng.choice((0, 1, 1, 1, 2, 2, 3))):
            style = rng.randrange(6)
            k = rng.randrange(len(text) + 1)
            if style == 0:
                text = text[:k] + rng.choice(pieces) + text[k:]
            elif style == 1:
                text = text[:k] + text[k + rng.randrange(1, 4):]
            elif style in (2, 3):
                nums = list(re.finditer(rb'[0-9]+', text))
                if nums:
                    m = rng.choice(nums)
                    new = str(rng.choice((0, 1, 2, 3, 4, 5, 6, 7, 8, 129, 4096, 4097, 4294967295, 4294967296))).encode()
                    text = text[:m.start()] + new + text[m.end():]
            elif style == 4:
                rows = text.split(b'\n')
                i, j = rng.randrange(len(rows)), rng.randrange(len(rows))
                rows[i], rows[j] = rows[j], rows[i]
                text = b'\n'.join(rows)
            else:
                rows = text.split(b'\n')
                i = rng.randrange(len(rows))
                rows.insert(i, rows[i])
                text = b'\n'.join(rows)
        causes, parsed = text_causes(text)
        lengths = [rng.choice((0, 1, 2, 3, 4, 10, 10, 10)) if rng.random() < 0.2 else 200 for _ in range(5)]
        got = ref.read_system(text, *[[9] * k for k in lengths])
        call = ref.text_call(text, bytes(rng.choice((7168, 7168, 7167, 4608, 0, 8000))) if rng.random() < 0.3 else bytes(7168))
        if causes:
            expect(got == ('refused', min(causes)), text, got, causes)
            expect(call == ('refused', min(causes)), text, call, causes)
            expect(ref.program(text) == b'refused\t%d\n' % min(causes))
            count('text refusal %d%s' % (min(causes), ' (of several)' if len(causes) > 1 else ''))
        else:
            p, n, m, a, sl, bl = parsed
            need = [n + 1, m, m, n, n]
            if any(x < y for x, y in zip(lengths, need)):
                expect(got == ('refused', 11))
                count('text refusal 11')
            else:
                expect(got[:4] == ('ok', p, n, m))
                expect([len(x) for x in got[4:]] == lengths)
                for x, y in zip(got[4:], need):
                    expect(set(x[y:]) <= {9})
                s, c, v, x, bb = (x[:y] for x, y in zip(got[4:], need))
                expect(ref.matrix_check(p, s, c, v) == ('ok', n))
                expect([(i + 1, c[k] + 1, v[k]) for i in range(n) for k in range(s[i], s[i + 1])] == a)
                expect(x == [1] * n if not sl else list(enumerate(x, 1)) == sl)
                expect([(i + 1, bb[i]) for i in range(n) if bb[i]] == bl)
                expect(ref.write_system(p, s, c, v, x, bb, bytes(len(text))) == ('ok', len(text), text), 'written again')
                count('text read%s' % (', scaled' if sl else '' if n else ', size 0'))
                if n <= 128:
                    expect((call[0] == 'ok') or call == ('refused', 11))
                else:
                    expect(call == ('refused', 11))
    # sizes
    answer = bytes(7168)
    short = b'system\t7\t1\t0\nend\n'
    expect(ref.text_call(short, answer)[1] > 18)
    expect(ref.text_call(b'', answer) == ('refused', 2) and ref.program(b'') == b'refused\t2\n')
    expect(ref.text_call(b'x' * 26625, b'') == ('refused', 1) and ref.text_call(b'x' * 26624, b'') == ('refused', 2))
    expect(ref.text_call(short, bytes(7167)) == ('refused', 11))
    big = ref.system_text(7, *dense_to_sparse([[1] * 33 for _ in range(33)]), [], [0] * 33)
    expect(len(big) <= 26624 and ref.text_call(big, answer) == ('refused', 11))
    M = [[1] * 32 for _ in range(32)]
    big = ref.system_text(7, *dense_to_sparse(M), [], [0] * 32)
    expect(ref.text_call(big, answer)[0] == 'ok')
    many = b'system\t7\t300\t65537\n' + b''.join(b'a\t%d\t%d\t1\n' % (i // 300 + 1, i % 300 + 1) for i in range(65537)) + b'end\n'
    expect(ref.read_system(many, [0] * 301, [0] * 70000, [0] * 70000, [0] * 300, [0] * 300) == ('refused', 5))
    many = b'system\t7\t300\t65536\n' + b''.join(b'a\t%d\t%d\t1\n' % (i // 300 + 1, i % 300 + 1) for i in range(65536)) + b'end\n'
    expect(ref.read_system(many, [0] * 301, [0] * 65536, [0] * 65536, [0] * 300, [0] * 300)[:4] == ('ok', 7, 300, 65536))
    expect(ref.read_system(b'\n' * 2097153, [], [], [], [], []) == ('refused', 2))
    # longest answers: of one pass, and of a pass for each place
    p, n = 2147483647, 128
    M = [[0] * n for _ in range(n)]
    for i in range(n):
        M[i][(i + 1) % n] = p - 1 - i
        M[i][(i + 7) % n] = p - 2 - 3 * i
    one = ref.system_text(p, *dense_to_sparse(M), [], [p - 1 - i for i in range(n)])
    each = ref.system_text(p, list(range(n + 1)), list(range(n)), [p - 1 - i * i for i in range(n)], [], [p - 1 - i for i in range(n)])
    scaled = ref.system_text(p, list(range(n + 1)), list(range(n)), [p - 1 - i * i for i in range(n)], [p - 1] * n, [p - 1 - i for i in range(n)])
    for text, passes in (one, 1), (each, n), (scaled, n):
        got = ref.text_call(text, answer)
        expect(got[0] == 'ok' and got[1] <= 7168)
        expect(got[2].split(b'\n')[passes].startswith(b'pass\t%d\t' % passes) and got[2].split(b'\n')[passes + 1].startswith(b'close\t'))
        counts['longest answer seen'] = max(got[1], counts.get('longest answer seen', 0))


if __name__ == '__main__':
    rounds = int(sys.argv[1]) if len(sys.argv) > 1 else 1500
    document_cases()
    bill_cases()
    empty_cases()
    entry_cases()
    window_cases()
    scale_cases()
    field_tests()
    product_tests(rounds)
    recurrence_tests(rounds)
    refusal_tests(rounds * 4)
    text_tests(rounds * 8)
    solver_tests(rounds)
    for name in sorted(counts):
        print('%-40s %d' % (name, counts[name]))
    print('all passed')
