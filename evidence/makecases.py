"""Writes cases.txt.  Every answer is computed by reference.py."""

import mutants
import reference as ref
import selftest

out = []


def put(s=''):
    out.append(s)


def nums(v):
    return ' '.join(str(x) for x in v) if len(v) else '(none)'


def esc(b):
    return b.decode('latin-1').replace('\t', '\\t').replace('\n', '\\n').replace('\r', '\\r')


def rows(M):
    return ' / '.join(' '.join(str(x) for x in r) for r in M) or '(none)'


def answer_line(got):
    if got[0] == 'refused':
        return 'refused %d' % got[1]
    return None


put('Cases worked out by reference.py (made by makecases.py; do not edit by hand).')
put('Matrices are given as dense rows "r1 / r2 / .." and as slices (starts; columns; values, columns from 0).')
put('Polynomials lowest power first.  Output slices have exactly the stated length and hold 9 before, unless said.')
put('"tells apart" names the wrong solvers of mutants.py that give another answer (kind, D, passes, applications, entries multiplied, vector, f, bill, close; or refusal),')
put('and the wrong readers and writers of scales.')
put()

# ------------------------------------------------------------------ systems
put('=== 1. SYSTEMS (solver call; bill slice of 3 x (R + n) places, of which the three of each pass are given; window 0 and no scales unless said) ===')
systems = [
    ('restart, p = 2, first factor z; the vector needs the whole F', 2, [[0, 0], [0, 1]], [1, 1], []),
    ('restart, p = 3, solved; one word vector, then unit vectors; a pass of degree 0 in the middle', 3,
     [[1, 0, 0], [0, 2, 0], [0, 0, 2]], [2, 2, 1], [5, 5, 2]),
    ('two word vectors, first one zero modulo p; unit vectors begin at 1 again', 3, [[1, 0, 0], [0, 0, 1], [0, 1, 0]], [1, 2, 0],
     [3, 0, 6, 4, 2, 5]),
    ('3 passes of degree 1 each', 5, [[1, 0, 0], [0, 2, 0], [0, 0, 3]], [1, 1, 1], []),
    ('the same with words: one pass is enough, the second word vector stays unused', 5, [[1, 0, 0], [0, 2, 0], [0, 0, 3]], [1, 1, 1], [6, 11, 4294967294, 1, 0, 0]),
    ('zero matrix, no entries; a pass of degree 0 first', 5, [[0, 0], [0, 0]], [0, 3], []),
    ('n = 1, singular (zero matrix)', 11, [[0]], [4], []),
    ('n = 1, solved', 13, [[5]], [3], [26]),
    ('singular matrix, but solved', 7, [[2, 0], [0, 0]], [1, 0], []),
    ('p = 2, singular though the system has a solution; 3 passes 0, 1, 1', 2, [[0, 0, 0], [1, 0, 0], [0, 1, 0]], [0, 1, 0], []),
    ('p = 2, two word vectors, 4 passes 0, 1, 0, 1', 2, [[0, 0, 1], [1, 0, 0], [0, 0, 0]], [1, 1, 0], [2, 2, 3, 1, 0, 3]),
    ('p = 3, b = 0 with words: nothing counted', 3, [[1, 2], [0, 0]], [0, 0], [1, 1]),
    ('one pass of full degree, n = 3, dense', 13, [[1, 2, 3], [4, 5, 6], [7, 8, 10]], [1, 2, 0], []),
    ('EXTRA, n = 4: t kept (unshifted) over a restart shows only from n = 4', 2,
     [[1, 1, 0, 0], [1, 0, 0, 0], [0, 0, 0, 1], [0, 0, 0, 0]], [1, 0, 0, 1], []),
    ('EXTRA, n = 4, the same with p = 3', 3, [[0, 2, 0, 0], [0, 0, 0, 0], [0, 0, 0, 1], [0, 0, 2, 0]], [2, 2, 1, 0], []),
    ('document 01, two passes', 7, [[2, 0], [0, 3]], [1, 1], []),
    ('document 01, three passes, the first of degree 0', 7, [[2, 0], [0, 3]], [1, 1], [0, 0]),
    ('size 0: the empty vector, f = 1, no pass', 7, [], [], []),
    ('size 0, p = 2147483647', 2147483647, [], [], []),
]
diagonal = [[2, 0, 0], [0, 3, 0], [0, 0, 4]]
swap = [[0, 1, 0], [1, 0, 0], [0, 0, 0]]
shift = [[0, 1, 0], [0, 0, 1], [1, 0, 0]]
chain = [[0, 0, 0], [0, 0, 1], [1, 0, 0]]
windowed = [
    (1, 'window: the pass ends after its third term', 7, diagonal, [1, 0, 0], []),
    (2, 'window: the same, after the fourth', 7, diagonal, [1, 0, 0], []),
    (3, 'window: the same, after the last but one', 7, diagonal, [1, 0, 0], []),
    (4, 'window: the same; due after the last term only, so not tested', 7, diagonal, [1, 0, 0], []),
    (64, 'window: the same, never due', 7, diagonal, [1, 0, 0], []),
    (2, 'window: degree 2, with words', 7, [[2, 0, 0, 0], [0, 3, 0, 0], [0, 0, 5, 0], [0, 0, 0, 5]], [1, 1, 0, 0], [1, 1, 0, 0]),
    (1, 'window: the test fails, and would be due again', 2, swap, [1, 0, 0], []),
    (2, 'window: the same, and the pass ends early', 2, swap, [1, 0, 0], []),
    (2, 'window: zeros while L = 0 don\'t count; the test fails', 2, shift, [0, 0, 1], []),
    (1, 'window: zeros while L = 0 don\'t count; 2L > i, and f is that of the steps', 2, [[0, 1], [0, 0]], [0, 1], []),
    (1, 'window: the test fails since u sees one place only; the second pass ends early', 7, [[2, 0, 0], [0, 3, 0], [0, 0, 5]], [1, 1, 0], []),
    (2, 'window: due after the last term only, where the test would fail', 7, [[2, 0], [0, 3]], [1, 1], []),
    (1, 'window: a pass of degree 0 is not tested', 7, [[2, 0], [0, 3]], [1, 1], [0, 0]),
    (1, 'window: the second pass begins with a zero, and has a test of its own', 5, chain, [1, 1, 0], []),
    (64, 'window, b = 0', 7, [[2, 0], [0, 3]], [0, 0], [1, 1]),
    (64, 'window, size 0', 7, [], [], []),
]
two, three = [[2, 0], [0, 3]], [[0, 1, 0], [2, 0, 3], [0, 4, 0]]
badly, often = [[6, 0, 0], [0, 3, 0], [5, 0, 2]], [[0, 0, 0, 3], [5, 0, 6, 5], [2, 0, 0, 6], [5, 0, 0, 0]]
with_scales = [
    ([4, 5], 0, 'scales: AX = diag(1,1), so one pass is made, where A alone takes two', 7, two, [1, 1], []),
    ([1, 5], 0, 'scales: AX = diag(2,3), so two passes are made, where A alone takes one', 7, [[2, 0], [0, 2]], [1, 1], []),
    ([3, 2], 0, 'scales: singular, AXb = (2,0) and X takes it to (6,0)', 7, [[0, 1], [0, 0]], [0, 1], []),
    ([3, 2], 0, 'scales: singular, w = b = (1,0) and X takes it to (3,0)', 7, [[0, 1], [0, 0]], [1, 0], []),
    ([1, 2], 0, 'scales: solved, where A alone is singular (Ab = 0)', 7, [[1, 1], [6, 6]], [1, 6], []),
    ([1, 4], 0, 'scales: singular, where A alone solves', 7, [[1, 2], [6, 5]], [1, 6], []),
    ([1, 1], 0, 'scales: ones act as none', 7, two, [1, 1], []),
    ([4, 1, 6], 0, 'scales: one pass, where A alone takes three', 7, badly, [2, 2, 1], []),
    ([4, 1, 6], 2, 'scales and a window: the same, and the pass ends early', 7, badly, [2, 2, 1], []),
    ([2, 3, 5], 1, 'scales, a window and words: a pass of degree 0, then one that ends early', 7, three, [2, 1, 1], [0, 0, 0]),
    ([2, 3, 5], 0, 'scales, with words', 7, three, [1, 0, 2], [1, 2, 3]),
    ([5, 2, 6, 4], 0, 'scales: a restart on AX, two passes of degree 2', 7, often, [2, 1, 0, 1], []),
    ([5, 2, 6, 4], 1, 'scales and a window: the same, and the test of the first pass fails', 7, often, [2, 1, 0, 1], []),
    ([3, 2], 0, 'scales: no entries', 7, [[0, 0], [0, 0]], [0, 3], []),
    ([4, 5], 0, 'scales: b = 0', 7, two, [0, 0], [1, 1]),
    ([5], 0, 'scales: n = 1', 7, [[3]], [2], []),
    ([1, 1], 0, 'scales: p = 2, where ones are the only ones', 2, [[0, 0], [0, 1]], [1, 1], []),
    ([2147483646, 65536, 2], 0, 'scales: p = 2147483647', 2147483647, [[2147483646, 0, 5], [0, 65536, 0], [7, 0, 2147483645]], [1, 2, 3], []),
]
told = set()
for k, (X, window, what, p, M, b, words) in enumerate([([], 0, *system) for system in systems] + [([], *system) for system in windowed] + with_scales, 1):
    n = len(M)
    S = selftest.dense_to_sparse(M)
    selftest.check_system(p, n, M, b, [words, []], [window], X)
    got = ref.solve(p, *S, X, b, words, window, [9] * n, [9] * (n + 1), [9] * (3 * (ref.vectors_of(n, words) + n)), [9] * (16 * n + 16))
    kind, D, passes, apps, multiplied, vector, poly, bill = got[1:]
    put('1.%d  %s' % (k, what))
    put('   p = %d, n = %d, A = %s   (starts %s; columns %s; values %s)' % (p, n, rows(M), nums(S[0]), nums(S[1]), nums(S[2])))
    put('   b = %s; words = %s%s%s' % (nums(b), nums(words), '; window = %d' % window if window else '', '; scales = %s' % nums(X) if X else ''))
    put('   -> %s, D = %d, passes = %d, applications = %d, multiplied = %d, %s = %s, polynomial slice = %s, bill = %s, close = %d' %
        (kind, D, passes, apps, multiplied, 'x' if kind == 'solved' else 'w', nums(vector), nums(poly), nums(bill[:3 * passes]),
         ref.close_of(D)))
    for i, (u, left, terms, f, after, test, made) in enumerate(ref.solver_steps(p, *S, X, b, words, window)[5], 1):
        ended = 'it ends the pass' if len(terms) < 2 * left else 'it fails'
        put('      pass %d: u = %s, left = %d, terms = %s, %sf = %s, degree %d, r becomes %s, applications %d' %
            (i, nums(u), left, nums(terms), 'test after term %d with L = %d: %s, ' % (*test, ended) if test else '', nums(f),
             len(f) - 1, nums(after), made))
    if 'full degree' in what or 'one pass is enough' in what:
        assert D == n and passes == 1, (D, passes)
    apart = mutants.told_apart(p, S, X, b, words, window)
    told.update(apart)
    put('   tells apart: ' + (', '.join(apart) or '(none)'))
put()

# ------------------------------------------------------------------ sequences
put('=== 2. SEQUENCES (recurrence call; answer L and the polynomial slice of N + 1 places) ===')
for k, (what, p, s) in enumerate([
        ('empty list', 7, []),
        ('all zeros', 5, [0, 0, 0, 0]),
        ('2L > N: late nonzero', 7, [0, 0, 0, 3]),
        ('2L > N: f not unique, the steps decide', 7, [0, 2, 1]),
        ('p = 2, 8 terms, L = 3 (z^3 + z + 1)', 2, [1, 0, 0, 1, 0, 1, 1, 1]),
        ('Fibonacci modulo 13', 13, [0, 1, 1, 2, 3, 5, 8, 0]),
        ('L goes 1, 2, 3 at terms 1, 3, 5', 3, [1, 1, 2, 0, 1, 1]),
        ('ends in a jump: 2L > N', 5, [1, 2, 4, 3, 0]),
        ('one nonzero at the start: f = z', 11, [4, 0, 0, 0]),
        ('single term: 2L > N', 3, [2]),
], 1):
    N = len(s)
    got = ref.recurrence(p, s, [9] * (N + 1), [9] * (4 * N + 8))
    L, number, f = ref.least_recurrence_by_elimination(p, s)
    if what.startswith('L goes'):
        assert [ref.shortest_recurrence(p, s[:r])[0] for r in range(1, 7)] == [1, 1, 2, 2, 3, 3]
    assert got[1] == L and (2 * L > N or f == got[2][:L + 1])
    put('2.%d  %s: p = %d, s = %s  ->  L = %d, slice = %s   [2L %s N; %s f of that degree recurs(s)]' %
        (k, what, p, nums(s), L, nums(got[2]), '<=' if 2 * L <= N else '>', 'one' if number == 'one' else 'more than one'))
put('2.r1 p = 4, s = 5, slice and work as stated -> ' + answer_line(ref.recurrence(4, [5], [9] * 2, [9] * 12)))
put('2.r2 p = 7, s = 1 7, polynomial slice of 2 (3 wanted) -> ' + answer_line(ref.recurrence(7, [1, 7], [9] * 2, [9] * 16)))
put('2.r3 p = 7, s = 1 6, polynomial slice of 4 (3 wanted) -> ' + answer_line(ref.recurrence(7, [1, 6], [9] * 4, [9] * 16)))
put('2.r4 p = 7, s = 1 6, work slice of 15 (16 wanted) -> ' + answer_line(ref.recurrence(7, [1, 6], [9] * 3, [9] * 15)))
put('2.r5 p = 7, 8193 zeros, slices as stated -> ' + answer_line(ref.recurrence(7, [0] * 8193, [9] * 8194, [9] * 40000)))
put()

# ------------------------------------------------------------------ products
put('=== 3. PRODUCTS (the answer, and how many entries were multiplied) ===')
A3 = [[1, 2, 0], [0, 0, 3], [4, 0, 0]]
S3 = selftest.dense_to_sparse(A3)
U = [[0, 1], [0, 0]]
SU = selftest.dense_to_sparse(U)
Z = selftest.dense_to_sparse([[0, 0], [0, 0]])


def show(tag, call, p, M, v, got, g=None):
    S = selftest.dense_to_sparse(M)
    put('%s %s: p = %d, A = %s (starts %s; columns %s; values %s), %sv = %s -> %s' %
        (tag, call, p, rows(M), nums(S[0]), nums(S[1]), nums(S[2]), '' if g is None else 'g = %s, ' % nums(g), nums(v),
         '%s, multiplied = %d' % (nums(got[2]), got[1]) if got[0] == 'ok' else 'refused %d' % got[1]))


def offered(tag, what, got):
    put('%s check %s -> %s' % (tag, what, '%s, multiplied = %d' % got[1:] if got[0] == 'ok' else answer_line(got)))


show('3.1', 'product', 5, A3, [1, 2, 3], ref.product(5, *S3, [1, 2, 3], [9] * 3))
show('3.2', 'transposed product', 5, A3, [1, 2, 3], ref.transposed_product(5, *S3, [1, 2, 3], [9] * 3))
show('3.3', 'product', 7, U, [3, 5], ref.product(7, *SU, [3, 5], [9] * 2))
show('3.4', 'transposed product', 7, U, [3, 5], ref.transposed_product(7, *SU, [3, 5], [9] * 2))
show('3.5', 'g(A)v', 5, A3, [1, 2, 3], ref.polynomial_apply(5, *S3, [2, 0, 1, 4], [1, 2, 3], [9] * 3, [9] * 6), [2, 0, 1, 4])
show('3.6', 'g(A)v', 7, U, [3, 5], ref.polynomial_apply(7, *SU, [6], [3, 5], [9] * 2, [9] * 4), [6])
show('3.7', 'g(A)v', 7, [[2, 0], [0, 3]], [1, 1], ref.polynomial_apply(7, [0, 1, 2], [0, 1], [2, 3], [6, 2, 1], [1, 1], [9] * 2, [9] * 4), [6, 2, 1])
show('3.8', 'g(A)v', 3, U, [1, 2], ref.polynomial_apply(3, *SU, [0, 0, 0], [1, 2], [9] * 2, [9] * 4), [0, 0, 0])
show('3.9', 'product', 2, [[0, 0], [0, 0]], [1, 1], ref.product(2, *Z, [1, 1], [9] * 2))
show('3.10', 'product', 7, [], [], ref.product(7, [0], [], [], [], []))
show('3.11', 'transposed product', 7, [], [], ref.transposed_product(7, [0], [], [], [], []))
show('3.12', 'g(A)v', 7, [], [], ref.polynomial_apply(7, [0], [], [], [6], [], [], []), [6])
show('3.13', 'g(A)v with a work slice of 1', 7, [], [], ref.polynomial_apply(7, [0], [], [], [0], [], [], [9]), [0])
show('3.14', 'product', 5, A3, [0, 0, 0], ref.product(5, *S3, [0, 0, 0], [9] * 3))
show('3.15', 'transposed product', 5, A3, [0, 0, 0], ref.transposed_product(5, *S3, [0, 0, 0], [9] * 3))
show('3.16', 'g(A)v', 5, A3, [0, 0, 0], ref.polynomial_apply(5, *S3, [1, 1], [0, 0, 0], [9] * 3, [9] * 6), [1, 1])
show('3.17', 'g(A)v', 5, A3, [1, 2, 3], ref.polynomial_apply(5, *S3, [4], [1, 2, 3], [9] * 3, [9] * 6), [4])
show('3.18', 'g(A)v', 2, [[0, 0], [0, 0]], [1, 1], ref.polynomial_apply(2, *Z, [1, 1, 1], [1, 1], [9] * 2, [9] * 4), [1, 1, 1])
show('3.r1', 'g(A)v', 7, U, [3, 5], ref.polynomial_apply(7, *SU, [], [3, 5], [9] * 2, [9] * 4), [])
show('3.r2', 'g(A)v', 7, U, [3, 5], ref.polynomial_apply(7, *SU, [1, 1, 1, 1], [3, 5], [9] * 2, [9] * 4), [1, 1, 1, 1])
show('3.r3', 'g(A)v with g[1] = p and out of 1 place', 7, U, [3, 5], ref.polynomial_apply(7, *SU, [1, 7], [3, 5], [9], [9] * 4), [1, 7])
show('3.r4', 'g(A)v with a work slice of 3', 7, U, [3, 5], ref.polynomial_apply(7, *SU, [1, 1], [3, 5], [9] * 2, [9] * 3), [1, 1])
show('3.r5', 'product with out of 3 places', 7, U, [3, 5], ref.product(7, *SU, [3, 5], [9] * 3))
show('3.r6', 'product', 7, [], [0], ref.product(7, [0], [], [], [0], []))
show('3.r7', 'transposed product with out of 1 place', 7, [], [], ref.transposed_product(7, [0], [], [], [], [9]))
show('3.r8', 'g(A)v', 7, [], [], ref.polynomial_apply(7, [0], [], [], [], [], [], []), [])
show('3.r9', 'g(A)v', 7, [], [], ref.polynomial_apply(7, [0], [], [], [1, 1], [], [], []), [1, 1])
show('3.r10', 'g(A)v', 7, [], [], ref.polynomial_apply(7, [0], [], [], [7], [], [], []), [7])
show('3.r11', 'g(A)v with out of 1 place', 7, [], [], ref.polynomial_apply(7, [0], [], [], [1], [], [9], []), [1])
UA = 'p = 7, A = 0 1 / 0 0'
offered('3.c1', 'Ax = b: %s, x = 0 1, b = 1 0' % UA, ref.check_solution(7, *SU, [0, 1], [1, 0]))
offered('3.c2', 'Ax = b: %s, x = 1 0, b = 1 0' % UA, ref.check_solution(7, *SU, [1, 0], [1, 0]))
offered('3.c3', 'Ax = b: %s, x = 0 8, b = 1 0' % UA, ref.check_solution(7, *SU, [0, 8], [1, 0]))
offered('3.c4', 'w: %s, w = 5 0' % UA, ref.check_kernel(7, *SU, [5, 0]))
offered('3.c5', 'w: %s, w = 0 0' % UA, ref.check_kernel(7, *SU, [0, 0]))
offered('3.c6', 'w: %s, w = 0 1' % UA, ref.check_kernel(7, *SU, [0, 1]))
offered('3.c7', 'w: %s, w = 7 0 0' % UA, ref.check_kernel(7, *SU, [7, 0, 0]))
E = 'p = 7, A = (none) (starts 0; columns (none); values (none))'
offered('3.c8', 'Ax = b: %s, x = (none), b = (none)' % E, ref.check_solution(7, [0], [], [], [], []))
offered('3.c9', 'Ax = b: %s, x = (none), b = 0' % E, ref.check_solution(7, [0], [], [], [], [0]))
offered('3.c10', 'Ax = b: %s, x = 7, b = (none)' % E, ref.check_solution(7, [0], [], [], [7], []))
offered('3.c11', 'w: %s, w = (none)' % E, ref.check_kernel(7, [0], [], [], []))
offered('3.c12', 'w: %s, w = 1' % E, ref.check_kernel(7, [0], [], [], [1]))
A3A = 'p = 5, A = %s (starts %s; columns %s; values %s)' % (rows(A3), nums(S3[0]), nums(S3[1]), nums(S3[2]))
offered('3.c13', 'Ax = b: %s, x = 1 2 3, b = 1 4 4' % A3A, ref.check_solution(5, *S3, [1, 2, 3], [1, 4, 4]))
offered('3.c14', 'Ax = b: %s, x = 1 2 3, b = 0 4 4' % A3A, ref.check_solution(5, *S3, [1, 2, 3], [0, 4, 4]))
offered('3.c15', 'Ax = b: %s, x = 0 0 0, b = 0 0 0' % A3A, ref.check_solution(5, *S3, [0, 0, 0], [0, 0, 0]))
offered('3.c16', 'w: %s, w = 0 0 0' % A3A, ref.check_kernel(5, *S3, [0, 0, 0]))
ZA = 'p = 2, A = 0 0 / 0 0 (starts 0 0 0; columns (none); values (none))'
offered('3.c17', 'Ax = b: %s, x = 1 1, b = 0 0' % ZA, ref.check_solution(2, *Z, [1, 1], [0, 0]))
offered('3.c18', 'w: %s, w = 0 1' % ZA, ref.check_kernel(2, *Z, [0, 1]))
# what a run with scales answers is right for A; what it has found on AX, before X, isn't
for k, (M, X, b, vectors) in enumerate([([[1, 1], [6, 6]], [1, 2], [1, 6], ([6, 2], [6, 1])), ([[1, 2], [6, 5]], [1, 4], None, ([1, 3], [1, 6]))]):
    S = selftest.dense_to_sparse(M)
    A = 'p = 7, A = %s (starts %s; columns %s; values %s)' % (rows(M), nums(S[0]), nums(S[1]), nums(S[2]))
    for m, v in enumerate(vectors):
        told.update(mutants.checks_told_apart(7, S, X, v, b))
        if b:
            offered('3.c%d' % (19 + 2 * k + m), 'Ax = b: %s, x = %s, b = %s' % (A, nums(v), nums(b)), ref.check_solution(7, *S, v, b))
        else:
            offered('3.c%d' % (19 + 2 * k + m), 'w: %s, w = %s' % (A, nums(v)), ref.check_kernel(7, *S, v))
put()

# ------------------------------------------------------------------ reader
put('=== 4. TEXTS FOR THE READER (lent: starts 5, columns 4, values 4, scales 4, b 4 places, all 9 before, unless said) ===')
good = b'system\t7\t2\t3\na\t1\t1\t2\na\t1\t2\t1\na\t2\t2\t3\nb\t1\t1\nb\t2\t1\nend\n'
texts = [
    ('good', good, None),
    ('good, no entries, no b lines', b'system\t2\t1\t0\nend\n', None),
    ('good, empty row 1 and row 3, b line for row 3 only', b'system\t11\t3\t1\na\t2\t3\t10\nb\t3\t4\nend\n', None),
    ('2: no end line', b'system\t7\t1\t0\n', None),
    ('2: last byte 10 missing', b'system\t7\t1\t0\nend', None),
    ('2: byte after end', b'system\t7\t1\t0\nend\n\n', None),
    ('2: a line after b line (and p = 4, 3)', b'system\t4\t1\t1\nb\t1\t1\na\t1\t1\t1\nend\n', None),
    ('2: leading zero', b'system\t7\t1\t1\na\t01\t1\t1\nend\n', None),
    ('2: numeral 4294967296', b'system\t7\t1\t1\na\t1\t1\t4294967296\nend\n', None),
    ('7: numeral 4294967295 is a numeral', b'system\t7\t1\t1\na\t1\t1\t4294967295\nend\n', None),
    ('2: blank for tab', b'system 7\t1\t0\nend\n', None),
    ('2: carriage return', b'system\t7\t1\t0\r\nend\r\n', None),
    ('2: empty text', b'', None),
    ('3: p = 9 (and n = 4097, 4)', b'system\t9\t4097\t0\nend\n', None),
    ('3: p = 1', b'system\t1\t1\t0\nend\n', None),
    ('4: n = 4097', b'system\t7\t4097\t0\nend\n', None),
    ('4: n = 4097 (and count 1 without a lines, 5)', b'system\t7\t4097\t1\nend\n', None),
    ('5: header says 2, one a line (and it is out of range, 6)', b'system\t7\t1\t2\na\t1\t2\t1\nend\n', None),
    ('6: rows out of order (and a value 0, 7)', b'system\t7\t2\t2\na\t2\t1\t0\na\t1\t1\t1\nend\n', None),
    ('6: same place twice', b'system\t7\t2\t2\na\t1\t1\t1\na\t1\t1\t2\nend\n', None),
    ('6: row 0', b'system\t7\t1\t1\na\t0\t1\t1\nend\n', None),
    ('6: column 0', b'system\t7\t1\t1\na\t1\t0\t1\nend\n', None),
    ('6: b rows fall (and an a value of 7, 7)', b'system\t7\t2\t1\na\t1\t1\t7\nb\t2\t1\nb\t1\t1\nend\n', None),
    ('6: b row 3 of n = 2', b'system\t7\t2\t0\nb\t3\t1\nend\n', None),
    ('7: a value = p', b'system\t7\t1\t1\na\t1\t1\t7\nend\n', None),
    ('7: b value 0 (and lent b too short, 11)', b'system\t7\t1\t0\nb\t1\t0\nend\n', (2, 0, 0, 4, 0)),
    ('11: starts of 2 places for n = 2', good, (2, 4, 4, 4, 4)),
    ('11: columns of 2 places for 3 entries', good, (5, 2, 4, 4, 4)),
    ('good: slices exactly long enough', good, (3, 3, 3, 2, 2)),
    ('good, size 0', b'system\t7\t0\t0\nend\n', None),
    ('good, size 0, slices exactly long enough', b'system\t7\t0\t0\nend\n', (1, 0, 0, 0, 0)),
    ('2: size 00', b'system\t7\t00\t0\nend\n', None),
    ('3: size 0, p = 9 (and count 1 without a lines, 5)', b'system\t9\t0\t1\nend\n', None),
    ('5: size 0, count 1 without a lines', b'system\t7\t0\t1\nend\n', None),
    ('5: size 0, count 0 and an a line (out of range, 6)', b'system\t7\t0\t0\na\t1\t1\t1\nend\n', None),
    ('6: size 0 and an a line (of value 7, 7)', b'system\t7\t0\t1\na\t1\t1\t7\nend\n', None),
    ('6: size 0 and a b line', b'system\t7\t0\t0\nb\t1\t1\nend\n', None),
    ('6: size 0 and a b line of row 0', b'system\t7\t0\t0\nb\t0\t1\nend\n', None),
    ('11: size 0, no place for its start', b'system\t7\t0\t0\nend\n', (0, 4, 4, 4, 4)),
]


def scaled_text(*s, head=(7, 2, 2), a=((1, 1, 2), (2, 2, 3)), b=((1, 1), (2, 1))):
    """diag(2,3), b = (1,1) and these `s` lines."""
    return b''.join(ref.line(*fields) for fields in [('system', *head), *[('a', *e) for e in a], *[('s', *e) for e in s], *[('b', *e) for e in b], ('end',)])


s45 = b's\t1\t4\ns\t2\t5\n'
plain = scaled_text()
texts += [
    ('good, scales', scaled_text((1, 4), (2, 5)), None),
    ('good, scales, slices exactly long enough', scaled_text((1, 4), (2, 5)), (3, 2, 2, 2, 2)),
    ('good, the first scale 1', scaled_text((1, 1), (2, 6)), None),
    ('good, the last scale 1', scaled_text((1, 6), (2, 1)), None),
    ('good, no s lines, a slice of exactly n scales', plain, (5, 4, 4, 2, 4)),
    ('good, scales, no a lines and no b lines', scaled_text((1, 2), head=(3, 1, 0), a=(), b=()), None),
    ('good, three scales, two rows empty', scaled_text((1, 1), (2, 10), (3, 4), head=(11, 3, 1), a=[(2, 3, 10)], b=[(3, 4)]), None),
    ('2: s lines after the b lines', plain.replace(b'end', s45 + b'end'), None),
    ('2: an s line between the b lines', plain.replace(b'b\t2', s45 + b'b\t2'), None),
    ('2: s lines before the a lines', plain.replace(b'a\t1', s45 + b'a\t1'), None),
    ('2: s lines between the a lines', plain.replace(b'a\t2', s45 + b'a\t2'), None),
    ('2: s lines of one number', scaled_text([1], [2]), None),
    ('2: s lines of three numbers', scaled_text((1, 4, 1), (2, 5, 1)), None),
    ('2: an s line without numbers', scaled_text([]), None),
    ('2: leading zero in an s line', scaled_text((1, '04'), (2, 5)), None),
    ('2: numeral 4294967296 in an s line', scaled_text((1, 4294967296), (2, 5)), None),
    ('3: p = 9 (and one s line, 5)', scaled_text((1, 4), head=(9, 2, 2)), None),
    ('4: n = 4097 (and two s lines, 5)', scaled_text((1, 4), (2, 5), head=(7, 4097, 2)), None),
    ('5: one s line of two', scaled_text((1, 4)), None),
    ('5: one s line of two, out of range (6) and of value 0 (7)', scaled_text((3, 0)), None),
    ('5: one s line more than n', scaled_text((1, 4), (2, 5), (3, 1)), None),
    ('5: as many s lines as entries', scaled_text((1, 4), head=(7, 2, 1), a=[(1, 1, 2)]), None),
    ('5: two s lines, count 3 with two a lines', scaled_text((1, 4), (2, 5), head=(7, 2, 3)), None),
    ('5: size 0 and an s line', scaled_text((1, 2), head=(7, 0, 0), a=(), b=()), None),
    ('6: s place 3 of n = 2', scaled_text((1, 4), (3, 5)), None),
    ('6: s place 0', scaled_text((0, 4), (1, 5)), None),
    ('6: s places fall', scaled_text((2, 4), (1, 5)), None),
    ('6: the same s place twice (and values 0 and 7, 7)', scaled_text((1, 0), (1, 7)), None),
    ('6: the same s place twice', scaled_text((2, 4), (2, 5)), None),
    ('6: s values all 1', scaled_text((1, 1), (2, 1)), None),
    ('6: s values all 1, p = 2', scaled_text((1, 1), head=(2, 1, 0), a=(), b=()), None),
    ('6: s values all 1 (and an a value of 7, 7)', scaled_text((1, 1), (2, 1), a=((1, 1, 2), (2, 2, 7))), None),
    ('7: s value 0', scaled_text((1, 1), (2, 0)), None),
    ('7: s value = p', scaled_text((1, 7), (2, 5)), None),
    ('7: s value 8, which is 1 modulo p', scaled_text((1, 8), (2, 1)), None),
    ('7: s value 2, p = 2', scaled_text((1, 2), head=(2, 1, 0), a=(), b=()), None),
    ('7: s value 4294967295 (and a slice of 1 scale, 11)', scaled_text((1, 4294967295), (2, 5)), (5, 4, 4, 1, 4)),
    ('11: a slice of 1 scale for n = 2', scaled_text((1, 4), (2, 5)), (5, 4, 4, 1, 4)),
    ('11: a slice of 1 scale for n = 2, no s lines', plain, (5, 4, 4, 1, 4)),
]
USUAL = (5, 4, 4, 4, 4)
for k, (what, text, lengths) in enumerate(texts, 1):
    lengths = lengths or USUAL
    got = ref.read_system(text, *[[9] * m for m in lengths])
    put('4.%d  %s: "%s"%s' % (k, what, esc(text), '' if lengths == USUAL else '  lent lengths %s' % nums(lengths)))
    if got[0] == 'refused':
        assert what.startswith('%d:' % got[1]), (what, got)
        put('   -> refused %d' % got[1])
    else:
        assert what.startswith('good')
        put('   -> p = %d, n = %d, entries = %d; starts %s; columns %s; values %s; scales %s; b %s' % (*got[1:4], *map(nums, got[4:])))
    apart = mutants.reads_told_apart(text, lengths)
    told.update(apart)
    if apart:
        put('   tells apart: ' + ', '.join(apart))
put()

# ------------------------------------------------------------------ text call
put('=== 5. TEXTS FOR THE TEXT CALL (answer slice of 7168; the program prints the same bytes) ===')
for k, (what, text) in enumerate([
        ('document 01', good),
        ('singular, restart, p = 2', b'system\t2\t2\t1\na\t2\t2\t1\nb\t1\t1\nb\t2\t1\nend\n'),
        ('b = 0', b'system\t3\t2\t1\na\t1\t2\t2\nend\n'),
        ('n = 1', b'system\t13\t1\t1\na\t1\t1\t5\nb\t1\t3\nend\n'),
        ('no entries, degree-0 pass first', b'system\t5\t2\t0\nb\t2\t3\nend\n'),
        ('3 passes', b'system\t5\t3\t3\na\t1\t1\t1\na\t2\t2\t2\na\t3\t3\t3\nb\t1\t1\nb\t2\t1\nb\t3\t1\nend\n'),
        ('diag(2,3), 2 passes', b'system\t7\t2\t2\na\t1\t1\t2\na\t2\t2\t3\nb\t1\t1\nb\t2\t1\nend\n'),
        ('size 0', b'system\t7\t0\t0\nend\n'),
        ('size 0, p = 2', b'system\t2\t0\t0\nend\n'),
        ('scales, AX = diag(1,1)', scaled_text((1, 4), (2, 5))),
        ('scales, singular', scaled_text((1, 3), (2, 2), head=(7, 2, 1), a=[(1, 2, 1)], b=[(2, 1)])),
        ('scales, solved where A alone is singular', scaled_text((1, 1), (2, 2), head=(7, 2, 4), a=[(1, 1, 1), (1, 2, 1), (2, 1, 6), (2, 2, 6)], b=[(1, 1), (2, 6)])),
        ('scales, singular where A alone solves', scaled_text((1, 1), (2, 4), head=(7, 2, 4), a=[(1, 1, 1), (1, 2, 2), (2, 1, 6), (2, 2, 5)], b=[(1, 1), (2, 6)])),
        ('scales, one pass where A alone takes three', scaled_text((1, 4), (2, 1), (3, 6), head=(7, 3, 4), a=[(1, 1, 6), (2, 2, 3), (3, 1, 5), (3, 3, 2)],
                                                                   b=[(1, 2), (2, 2), (3, 1)])),
        ('scales, no entries, b = 0', scaled_text((1, 2), head=(3, 1, 0), a=(), b=())),
], 1):
    got = ref.text_call(text, bytes([9]) * 7168)
    assert got[0] == 'ok' and got[2][got[1]:] == bytes([9]) * (7168 - got[1])
    assert ref.program(text) == got[2][:got[1]]
    put('5.%d  %s: "%s"' % (k, what, esc(text)))
    put('   -> %d, "%s"' % (got[1], esc(got[2][:got[1]])))
    told.update(mutants.calls_told_apart(text, 7168))
for k, (what, text, length, printed) in enumerate([
        ('26,625 bytes "x"', b'x' * 26625, 0, True),
        ('26,624 bytes "x"', b'x' * 26624, 0, True),
        ('n = 129, no entries: "system\\t7\\t129\\t0\\nend\\n"', b'system\t7\t129\t0\nend\n', 7168, True),
        ('n = 129 and b value 7: "system\\t7\\t129\\t0\\nb\\t1\\t7\\nend\\n"', b'system\t7\t129\t0\nb\t1\t7\nend\n', 7168, True),
        ('n = 4097: "system\\t7\\t4097\\t0\\nend\\n"', b'system\t7\t4097\t0\nend\n', 7168, True),
        ('answer slice of 7,167: "system\\t7\\t1\\t0\\nend\\n"', b'system\t7\t1\t0\nend\n', 7167, False),
        ('answer slice of 4,608, enough before the bill: "system\\t7\\t1\\t0\\nend\\n"', b'system\t7\t1\t0\nend\n', 4608, False),
        ('p = 6 and answer slice of 0: "system\\t6\\t1\\t0\\nend\\n"', b'system\t6\t1\t0\nend\n', 0, True),
        ('size 0 and answer slice of 7,167: "system\\t7\\t0\\t0\\nend\\n"', b'system\t7\t0\t0\nend\n', 7167, False),
        ('size 0 and a b line: "system\\t7\\t0\\t0\\nb\\t1\\t1\\nend\\n"', b'system\t7\t0\t0\nb\t1\t1\nend\n', 7168, True),
        ('size 0 and count 1: "system\\t7\\t0\\t1\\nend\\n"', b'system\t7\t0\t1\nend\n', 7168, True),
        ('24,577 bytes "x"', b'x' * 24577, 0, True),
        *[('%s: "%s"' % (what, esc(text)), text, 7168, True) for what, text in (
            ('s lines after the b lines', plain.replace(b'end', s45 + b'end')),
            ('one s line of two', scaled_text((1, 4))),
            ('s values all 1', scaled_text((1, 1), (2, 1))),
            ('s value = p', scaled_text((1, 4), (2, 7))),
            ('n = 129 and one s line', b'system\t7\t129\t0\ns\t1\t2\nend\n'))],
        ('scales and answer slice of 7,167: "%s"' % esc(scaled_text((1, 4), (2, 5))), scaled_text((1, 4), (2, 5)), 7167, False),
], 1):
    got = ref.text_call(text, bytes(length))
    told.update(mutants.calls_told_apart(text, length))
    put('5.r%d %s -> refused %d%s' % (k, what, got[1], '; program prints "%s"' % esc(ref.program(text)) if printed else ''))
put()

# ------------------------------------------------------------------ writer
put('=== 6. WRITER (bytes before: all "."; n from the starts) ===')
for k, (what, p, M, X, b, extra) in enumerate([
        ('out of exactly the length', 7, [[2, 1], [0, 3]], [], [1, 1], 0),
        ('3 bytes more, they stay', 11, [[0, 0, 0], [0, 0, 10], [0, 0, 0]], [], [0, 0, 4], 3),
        ('no entries, b = 0', 2, [[0]], [], [0], 0),
        ('size 0', 7, [], [], [], 0),
        ('size 0, 2 bytes more, they stay', 2147483647, [], [], [], 2),
        ('scales', 7, two, [4, 5], [1, 1], 0),
        ('scales, 2 bytes more, they stay', 7, two, [4, 5], [1, 1], 2),
        ('the first scale 1', 7, two, [1, 5], [1, 1], 0),
        ('the last scale 1', 7, two, [4, 1], [1, 1], 0),
        ('all scales 1: no s lines', 7, two, [1, 1], [1, 1], 0),
        ('no scales: no s lines', 7, two, [], [1, 1], 0),
        ('scales, no entries, b = 0', 11, [[0] * 3] * 3, [1, 10, 1], [0, 0, 0], 0),
        ('scales, p = 2', 2, [[0]], [1], [1], 0),
        ('scales, widest numbers', 2147483647, [[2147483646]], [2147483646], [2147483646], 0),
], 1):
    S = selftest.dense_to_sparse(M)
    m = len(ref.system_text(p, *S, X, b))
    got = ref.write_system(p, *S, X, b, b'.' * (m + extra))
    put('6.%d  %s: p = %d, starts %s; columns %s; values %s%s; b %s; out of %d bytes' %
        (k, what, p, nums(S[0]), nums(S[1]), nums(S[2]), '; scales %s' % nums(X) if X else '', nums(b), m + extra))
    put('   -> %d, "%s"' % (got[1], esc(got[2])))
    got = ref.write_system(p, *S, X, b, b'.' * (m - 1))
    put('   out of %d bytes -> refused %d' % (m - 1, got[1]))
    apart = mutants.writes_told_apart(p, S, X, b, m + extra) + mutants.writes_told_apart(p, S, X, b, m - 1)
    told.update(apart)
    if apart:
        put('   tells apart: ' + ', '.join(sorted(set(apart), key=mutants.TEXT_NAMES.index)))
put('6.r1 p = 7, diag(2,3), b = 1 7, out of 0 bytes -> ' + answer_line(ref.write_system(7, [0, 1, 2], [0, 1], [2, 3], [], [1, 7], b'')))
put('6.r2 p = 7, diag(2,3), b = 1, out of 100 bytes -> ' + answer_line(ref.write_system(7, [0, 1, 2], [0, 1], [2, 3], [], [1], bytes(100))))
put('6.r3 p = 7, starts 0; columns (none); values (none); b 0; out of 0 bytes -> ' + answer_line(ref.write_system(7, [0], [], [], [], [0], b'')))
put('6.r4 p = 7, starts (none); columns (none); values (none); b (none); out of 100 bytes -> ' +
    answer_line(ref.write_system(7, [], [], [], [], [], bytes(100))))
for k, (X, b, room) in enumerate([([4], [1, 1], 100), ([4, 5, 1], [1, 1], 100), ([4, 0], [1, 1], 100), ([7, 5], [1, 1], 100), ([1], [1, 7], 0), ([0, 1], [1], 0),
                                  ([4, 5], [1], 0)], 5):
    put('6.r%d p = 7, diag(2,3), scales = %s, b = %s, out of %d bytes -> %s' %
        (k, nums(X), nums(b), room, answer_line(ref.write_system(7, [0, 1, 2], [0, 1], [2, 3], X, b, bytes(room)))))
put('6.r12 p = 7, starts 0; columns (none); values (none); scales 1; b (none); out of 100 bytes -> ' +
    answer_line(ref.write_system(7, [0], [], [], [1], [], bytes(100))))
put()

# ------------------------------------------------------------------ refusals of the solver
put('=== 7. REFUSALS OF THE SOLVER CALL, AND BILLS OF EVERY LENGTH (slices: vector 2, polynomial 3, bill 6, work 48; window 0 and no scales unless said) ===')
base = dict(p=7, starts=[0, 1, 2], columns=[0, 1], values=[2, 3], scales=[], b=[1, 1], words=[], window=0, vector=2, polynomial=3, bill=6, work=48)
empty = dict(starts=[0], columns=[], values=[], b=[], vector=0, polynomial=1, work=16)
for number, what, change in [
        (3, 'p = 1', dict(p=1)),
        (3, 'p = 9, and starts empty (4)', dict(p=9, starts=[])),
        (3, 'p = 2147483646', dict(p=2147483646)),
        (3, 'p = 4294967291, a prime over the limit', dict(p=4294967291)),
        (4, 'no starts, and columns and values differ (5)', dict(starts=[], columns=[])),
        (5, 'starts begin at 1', dict(starts=[1, 1, 2])),
        (5, 'starts fall', dict(starts=[0, 2, 1, 2])),
        (5, 'starts end at 1 with 2 entries', dict(starts=[0, 1, 1])),
        (5, '3 columns, 2 values, and column 5 (6)', dict(columns=[0, 1, 5])),
        (6, 'column 2 with n = 2, and value 0 (7)', dict(columns=[0, 2], values=[0, 3])),
        (6, 'columns 1 0 in one row', dict(starts=[0, 2, 2], columns=[1, 0])),
        (6, 'column 1 twice in one row', dict(starts=[0, 2, 2], columns=[1, 1])),
        (7, 'value 0', dict(values=[2, 0])),
        (7, 'value 7 = p, and b of 3 elements (8)', dict(values=[7, 3], b=[1, 1, 1])),
        (8, 'b of 1 element', dict(b=[1])),
        (8, 'b of 3 elements, one of them 7 (9)', dict(b=[1, 7, 1])),
        (9, 'b element 7 = p', dict(b=[7, 1])),
        (9, 'b element 4294967295, and 3 words (10), and vector of 1 place (11)', dict(b=[1, 4294967295], words=[1, 1, 1], vector=1)),
        (10, '3 words', dict(words=[1, 1, 1])),
        (10, '130 words, and work of 0 places (11)', dict(words=[1] * 130, work=0)),
        (11, 'vector of 3 places', dict(vector=3)),
        (11, 'polynomial of 2 places', dict(polynomial=2)),
        (11, 'polynomial of 4 places', dict(polynomial=4)),
        (11, 'work of 47 places', dict(work=47)),
        (11, 'work of 47 places, and no bill', dict(work=47, bill=0)),
        (0, 'work of 49 places, 128 words of 4294967295', dict(work=49, words=[4294967295] * 128)),
        (0, 'nothing wrong', dict()),
        (0, 'no bill', dict(bill=0)),
        (0, 'bill of 1 place', dict(bill=1)),
        (0, 'bill of 2 places', dict(bill=2)),
        (0, 'bill of 3 places: one pass', dict(bill=3)),
        (0, 'bill of 5 places: one pass, two places stay', dict(bill=5)),
        (0, 'bill of 8 places: both passes, two places stay', dict(bill=8)),
        (0, 'three passes, the first of degree 0, bill of 7 places', dict(words=[0, 0], bill=7)),
        (0, 'three passes, bill of 10 places', dict(words=[0, 0], bill=10)),
        (0, 'b = 0: no pass, bill of 4 places stays', dict(b=[0, 0], bill=4)),
        (0, 'size 0, bill of 6 places stays', empty),
        (0, 'size 0, no bill', dict(empty, bill=0)),
        (0, 'size 0, work of 17 places', dict(empty, work=17)),
        (3, 'size 0 and p = 4', dict(empty, p=4)),
        (4, 'no starts, no entries', dict(empty, starts=[])),
        (4, 'no starts, no entries, and one word (10)', dict(empty, starts=[], words=[1])),
        (5, 'one start, which is 1', dict(empty, starts=[1])),
        (5, 'one start, which is 0, and an entry', dict(empty, columns=[0], values=[1])),
        (5, 'one start, which is 1, and an entry', dict(empty, starts=[1], columns=[0], values=[1])),
        (5, 'size 0 and a value', dict(empty, values=[1])),
        (8, 'size 0, b of 1 element, and one word (10)', dict(empty, b=[7], words=[1])),
        (10, 'size 0, one word, and polynomial of 0 places (11)', dict(empty, words=[1], polynomial=0)),
        (10, 'size 0, 64 words', dict(empty, words=[0] * 64)),
        (11, 'size 0, vector of 1 place', dict(empty, vector=1)),
        (11, 'size 0, polynomial of 0 places', dict(empty, polynomial=0)),
        (11, 'size 0, polynomial of 2 places', dict(empty, polynomial=2)),
        (11, 'size 0, work of 15 places', dict(empty, work=15)),
        (0, 'window 64', dict(window=64)),
        (0, 'window 1: both passes, the first with a test that fails, two places stay', dict(window=1, bill=8)),
        (13, 'window 65', dict(window=65)),
        (13, 'window 4294967295', dict(window=4294967295)),
        (13, 'window 65, and vector of 1 place (11)', dict(window=65, vector=1)),
        (13, 'window 65, and polynomial and work of 0 places (11)', dict(window=65, polynomial=0, work=0)),
        (10, 'window 65 (13), and 3 words', dict(window=65, words=[1, 1, 1])),
        (10, 'window 65 (13), 130 words, and work of 0 places (11)', dict(window=65, words=[1] * 130, work=0)),
        (9, 'window 65 (13), and b element 7 = p', dict(window=65, b=[7, 1])),
        (3, 'window 65 (13), and p = 4', dict(window=65, p=4)),
        (11, 'window 64, and work of 47 places', dict(window=64, work=47)),
        (0, 'size 0, window 64', dict(empty, window=64)),
        (13, 'size 0, window 65', dict(empty, window=65)),
        (10, 'size 0, window 65 (13), and one word', dict(empty, window=65, words=[1])),
        (13, 'size 0, window 65, and polynomial of 0 places (11)', dict(empty, window=65, polynomial=0)),
        (0, 'scales: one pass, three places stay', dict(scales=[4, 5])),
        (0, 'scales all 1: two passes', dict(scales=[1, 1])),
        (0, 'scales 6, the largest', dict(scales=[6, 6])),
        (5, 'one scale for n = 2', dict(scales=[4])),
        (5, 'three scales for n = 2', dict(scales=[4, 5, 1])),
        (5, 'three scales for n = 2, all 0 (7)', dict(scales=[0, 0, 0])),
        (5, 'one scale, and column 2 with n = 2 (6)', dict(scales=[4], columns=[0, 2])),
        (5, 'one scale, and value 0 (7), and b of 1 element (8)', dict(scales=[4], values=[2, 0], b=[1])),
        (5, 'right scales, and starts that end at 1 with 2 entries', dict(scales=[4, 5], starts=[0, 1, 1])),
        (4, 'one scale (5), and no starts', dict(empty, starts=[], scales=[1])),
        (3, 'one scale (5), and p = 8', dict(scales=[4], p=8)),
        (6, 'a scale 0 (7), and column 2 with n = 2', dict(scales=[0, 5], columns=[0, 2])),
        (7, 'a scale 0, the first', dict(scales=[0, 5])),
        (7, 'a scale 0, the last', dict(scales=[4, 0])),
        (7, 'a scale 7 = p, the first', dict(scales=[7, 5])),
        (7, 'a scale 7 = p, the last', dict(scales=[4, 7])),
        (7, 'a scale 8, which is 1 modulo p', dict(scales=[8, 1])),
        (7, 'a scale 4294967295', dict(scales=[4, 4294967295])),
        (7, 'a scale 2 with p = 2', dict(p=2, values=[1, 1], scales=[1, 2])),
        (7, 'a scale 0, and b of 1 element (8)', dict(scales=[4, 0], b=[1])),
        (7, 'a scale 7 = p, and b element 7 (9), 3 words (10), window 65 (13), and vector of 1 place (11)',
         dict(scales=[7, 5], b=[1, 7], words=[1, 1, 1], window=65, vector=1)),
        (8, 'right scales, and b of 1 element', dict(scales=[4, 5], b=[1])),
        (9, 'right scales, and b element 7 = p', dict(scales=[4, 5], b=[1, 7])),
        (11, 'right scales, and work of 47 places', dict(scales=[4, 5], work=47)),
        (5, 'size 0 and one scale', dict(empty, scales=[1])),
        (5, 'size 0 and one scale 0 (7), and one word (10)', dict(empty, scales=[0], words=[1])),
]:
    d = dict(base)
    d.update(change)
    got = ref.solve(d['p'], d['starts'], d['columns'], d['values'], d['scales'], d['b'], d['words'], d['window'], [9] * d['vector'],
                    [9] * d['polynomial'], [9] * d['bill'], [9] * d['work'])
    assert (got == ('refused', number)) if number else got[0] == 'ok', (what, got)
    put('%s: p = %d; starts %s; columns %s; values %s%s; b %s; words %s%s; vector %d, polynomial %d, bill %d, work %d' %
        (what, d['p'], nums(d['starts']), nums(d['columns']), nums(d['values']), '; scales %s' % nums(d['scales']) if d['scales'] else '', nums(d['b']),
         nums(d['words']) if len(d['words']) < 10 else '%d times %d' % (len(d['words']), d['words'][0]),
         '; window %d' % d['window'] if d['window'] else '', d['vector'], d['polynomial'], d['bill'], d['work']))
    put('   -> ' + ('refused %d' % number if number else
                    '%s, D = %d, passes = %d, applications = %d, multiplied = %d, vector %s, polynomial %s, bill %s' %
                    (*got[1:6], nums(got[6]), nums(got[7]), nums(got[8]))))
    if (len(d['starts']) <= 1 or d['window'] or d['scales']) and number != 11:  # mutants.py lends slices of the right lengths
        apart = mutants.told_apart(d['p'], (d['starts'], d['columns'], d['values']), d['scales'], d['b'], d['words'], d['window'])
        told.update(apart)
        put('   tells apart: ' + (', '.join(apart) or '(none)'))
put()
hidden = set(mutants.NAMES + mutants.TEXT_NAMES + mutants.CHECK_NAMES) - told
assert hidden == set(mutants.HIDDEN), hidden

# ------------------------------------------------------------------ field
put('=== 8. FIELD ===')
for s, got in [
        ('field(2147483647)', ref.field(2147483647)), ('field(2147483646)', ref.field(2147483646)), ('field(0)', ref.field(0)),
        ('sum p=7 5 6', ref.field_sum(7, 5, 6)), ('difference p=7 2 5', ref.field_difference(7, 2, 5)),
        ('product p=2147483647 2147483646 2147483646', ref.field_product(2147483647, 2147483646, 2147483646)),
        ('inverse p=7 3', ref.field_inverse(7, 3)), ('inverse p=2 1', ref.field_inverse(2, 1)),
        ('inverse p=2147483647 2', ref.field_inverse(2147483647, 2)),
        ('inverse p=7 0', ref.field_inverse(7, 0)), ('inverse p=7 7', ref.field_inverse(7, 7)),
        ('inverse p=6 0', ref.field_inverse(6, 0)), ('inverse p=251 0', ref.field_inverse(251, 0)), ('inverse p=251 251', ref.field_inverse(251, 251)),
        *[('inverse p=251 %d' % a, ref.field_inverse(251, a)) for a in range(1, 251)],
        *[('inverse p=241 %d' % a, ref.field_inverse(241, a)) for a in (1, 2, 126, 240)], ('sum p=7 7 0', ref.field_sum(7, 7, 0)), ('sum p=1 0 0', ref.field_sum(1, 0, 0))]:
    put('%s -> %s' % (s, '%d' % got[1] if got[0] == 'ok' else 'refused %d' % got[1]))

open('cases.txt', 'w').write('\n'.join(out) + '\n')
print(len(out), 'lines')
