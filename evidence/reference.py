"""Reference implementation of document 01 (Wiedemann solver modulo word-size primes).

Plain Python 3, standard library only.  Written from 00-conditions.md, 01-scope.md, requests (i) to (iii) and (v) to (vii) of
02-change-requests.md and source 002 alone; but whoever wrote the cases of n = 0 had seen the library's checks 4 and 10,
whoever wrote the window (B 33) had been told how the library reads request (v), though not seen its code, whoever wrote
the scales (B 35 to 39) had read how the library defines them, before there was code, and whoever wrote the lines of the
inverses (inverses_program) had written the library's.

Every public call takes lists of ints (32-bit numbers, 0 .. 2**32 - 1) or bytes, never changes an argument, and
returns either ('ok', ...) or ('refused', number).  A lent slice that is written is passed in with its old contents
(its length is checked) and its final contents are among the results.  After a refusal all lent slices keep their
contents, so nothing more is returned.  Work slices: only the length is looked at.

OPEN POINTS AND WHAT IS CHOSEN HERE
===================================
A. Checks of each call, in the order made.  Order = rising number, but 13 comes after 10 and before 11; each is made over
   the whole input before the next.
     field(p)                      3
     field_sum/difference/product  3, 9 (either operand >= p)
     field_inverse                 3, 9, 12
     matrix_check                  3, 4, 5, 6, 7            (my own helper call; the paper names no such call)
     product, transposed_product   3, 4, 5, 6, 7, 8 (len v != n), 9 (v), 11 (len out != n)
     polynomial_apply  g(A)v       3, 4, 5, 6, 7, 8 (len v != n or len g not 1..n+1), 9 (v, g),
                                   11 (len out != n or len work < 2n)
     recurrence                    3, 8 (N > 8192), 9 (s), 11 (len poly != N+1 or len work < 4N+8)
     solve                         3, 4, 5 (also: number of scales neither 0 nor n), 6, 7 (also: a scale 0 or >= p),
                                   8 (len b != n), 9 (b), 10, 13 (window > 64),
                                   11 (len vector != n, len poly != n+1, len work < 16n+16; never the bill)
     check_solution  (Ax = b)      3, 4, 5, 6, 7, 8 (len x != n or len b != n), 9 (x, b)
     check_kernel                  3, 4, 5, 6, 7, 8 (len w != n), 9 (w)
     read_system                   2, 3, 4, 5, 6, 7, 11 (starts < n+1, columns < entries, values < entries, scales < n, b < n)
     write_system                  3, 4, 5 and 7 as for solve, 6, 8 (len b != n), 9 (b), 11 (out shorter than the text)
     text_call                     1, 2, 3, 4, 5, 6, 7, 11 (n > 128, entries > 1024, or answer slice < 7168)
     program                       as text_call, with an answer slice that is long enough (only n and entries give 11)
B. Choices.
  1. "Slices as long as stated": where the paper says "has n places", "n + 1 places", "N + 1 places" the length must be
     EXACTLY that (longer is refused, 11); where it says "at least" a longer slice is taken.  Exactly: out of the three
     products, recurrence polynomial, solver vector and polynomial.  At least: all work slices, the reader's five slices,
     the text call's answer (7168), the writer's out (its text's length).
  2. Elements (9) come before output lengths (11), and words (10) stand between them.  So an element >= p wins over a
     short out slice, and also over bad words.
  3. Words are "any 32-bit numbers": neither 8 nor 9 looks at them, only 10.
  4. The values of a matrix and the scales are looked at by 7, never 9; elements of b given as a slice are looked at by 9
     (0 is fine there), `b` lines of a text by 7 (0 is refused there).
  5. Check 4 on a matrix: len(starts) - 1 not in 0..4096; no starts -> 4.  One start is n = 0 (request (ii)); 5 then wants
     it to be 0 and no entries, so that no entry is left for 6 and 7 to look at.
  6. Check 5 on a matrix: starts[0] != 0, or starts fall anywhere, or starts[n] != len(columns), or
     len(columns) != len(values), or more than 65536 entries (either slice), or a wrong number of scales (B 36).  All one
     number, so no inner order.
  7. Check 6 on a matrix: a column >= n, or not strictly above the one before it in its row (equal -> 6).  The rows of a
     matrix in slices cannot be out of order by themselves (falling starts are 5).
  8. A field record with a bad p is 3 in every call that takes a field, also the recurrence; 3 comes before everything
     except 1 and 2.  32-bit primes above 2147483647 -> 3.
  9. The recurrence's list of more than 8192 elements -> 8 (also when the poly slice is right for it).  N = 0 is taken:
     L = 0, f = 1, poly slice of one place.
 10. g of length 0 or over n + 1 -> 8.  g's leading coefficients may be 0, and g may be all zeros.
 11. Text, check 2 ("line forms and order of letters"): the whole text must be  system-line, a-lines, s-lines, b-lines,
     `end`, each with exactly its number of tab-parted fields and each closed by byte 10, nothing after the `end` line.  So 2
     for: empty text; missing last byte 10; bytes (even a byte 10) after end; missing end; `b` before `a` or `s`, `s` before
     `a`; a second system line; blank line; blank instead of tab; carriage return; empty numeral; sign; leading zero (00, 01);
     numeral over 4294967295; wrong number of fields; upper case.  A missing end, or an a-line after a b-line, is 2 even where
     3..7 apply too.
 12. A numeral over 4294967295 is 2 everywhere, also in the place of p, n, count, row, column or value.
 13. Header p bad (incl. 0, 1) -> 3; header n over 4096 -> 4 (0 is taken, request (ii)); header count != number of `a`
     lines, or over 65536 `a` lines (= count), or a wrong number of `s` lines (B 37) -> 5, before any look at rows (6) or
     values (7).  All in that order whatever the order in the text.  With n = 0 every `a` line that is counted right, and every `b`
     line, is out of range -> 6.
 14. Row 0 or column 0 in a text, or over n -> 6; equal (row, column) twice -> 6; `b` rows and `s` places the same.  6 of a
     `b` line comes before 7 of an `a` line.
 15. The reader answers p, n and the entry count, beside the five slices.  It writes n+1 starts, `entries` columns and
     values (columns from 0), n scales (ones if there are no `s` lines) and n elements of b (zeros for the rows that have no
     `b` line); the rest stays.
 16. The reader's slice lengths (11) come after 7.  Its entry count there is the header's (equal to the `a` lines by then).
 17. The writer has no check 2: the longest text possible (n = 4096, 65536 entries, scales) is under 1,700,000 bytes.
 18. The text call: n of 129..4096 -> 11, n over 4096 -> 4; a text that is over 128 / 1024 and has a fault of 2..7 gets the
     lower number.  A short answer slice (< 7168) is 11 even where the answer would fit, and only after 1..7.
 19. The text call's 26,624 bytes (request (vi)) is below the reader's 2,097,152, so the length part of 2 is never reached
     there.  No text that fits its arrays is longer: 25,488 bytes is the longest of 128 places and 1,024 entries with scales.
 20. Answer lines: tab-parted, byte 10 at the end, as in the system text.  f lines for ALL powers 0..D (zeros too, the
     leading 1 too); x / w lines for ALL places (zeros too).
 21. Program: prints "refused" TAB number LF.  The paper names no exit status and no standard-error text: none here (0).
 22. "kind" is the string 'solved' or 'singular' here.  b = 0: solved, f = 1, D = 0, 0 passes, 0 applications.
 23. The offered-answer checks answer True / False after their refusals; an offered vector with an element >= p is 9, one
     of wrong length 8 (not "no").
 24. "for j from 0 to N - L - 1": with L = N there is no j, so any monic f of degree N recurs.
 25. The recurrence's result f is always taken from the steps (where 2L <= N it is the only one anyway).
 26. Empty words (R = 0) are taken: 0 is a multiple of n.  For n = 0 only they are (request (ii)): one word or more -> 10,
     and R is 0 there by definition, not by a division.
 27. u (a words vector) is reduced modulo p element by element before use.
 28. `if 2 x L < r`: L is the value before this step (002 prints l_r, the misprint).
 29. Request (i), the bill: a `pass` line for EVERY pass, also of degree 0, left being that before the pass; one `close` line
     always, also where no pass was made.  The applications of a pass are counted here as they are made, and so is the total.
 30. The solver's bill slice is not in the papers: three numbers (left, t, applications) for each pass, as many whole passes
     as it has room for; the places behind them stay.  Any length is taken, so no check looks at it.
 31. Request (ii), n = 0: every call with a matrix takes it.  The empty vector is zero, so the solver makes no pass (solved,
     f = 1, D = 0) and check_kernel says no; A takes it to itself, so check_solution says yes.  All lengths follow from their
     formulas: one coefficient for g, work of 0 places there, polynomial of 1 place and work of 16 for the solver.
 32. Request (iii): the entries multiplied are counted here one by one, inside the two products, and every caller adds up
     what these answer; nothing is worked out from the applications.  Each entry of A is multiplied, also with an element
     that is 0, and a check of an offered answer makes its one product whatever is offered: a zero vector, a first element
     that differs.  The number stands beside what the product, the transposed product, g(A)v, the two checks and the
     solver answer; the bill has no such field.
 33. Request (v), the window w: "the last w discrepancies were all 0" asks for w of them in this pass, so i is at least w,
     and counts none of an earlier pass.  The test is made at the first i where all of its conditions hold, and at no other
     of that pass, whatever it gave.  f is that of the steps on the first i terms, also where 2L > i.  w = 0 is no window:
     nothing is tested, though "the last 0 discrepancies" are all 0.  Where the test fails its L products are charged, and
     f(A)r is worked out again with the f of all terms, also if that is the same f.
 34. The text call and the program have no window: theirs is 0, and 13 is no check of theirs.
 35. Request (vi): AX has the starts and columns of A, and each value times the scale of its column modulo p, which is not 0.
     It is built here entry by entry, and the whole run is made on it: kind, f, D, passes, bill, applications and entries
     multiplied are those of AX, which has as many entries as A.  The vector slice gets X times the vector of that run,
     solved or singular.  Products, g(A)v and the two checks of offered answers know no scales.
 36. A slice of scales has 0 or n elements (5), each 1 to p - 1 (7).  None, and n ones, are the same system; no check turns
     n ones in a slice down (6 is for a text with `s` lines).
 37. A text has 0 or n `s` lines, n being the header's, also if it is 0 (5).  Their places are 1 to n and rise strictly (6), so
     those of n lines are 1, 2, .., n; "values all 1" is 6 too, and so before a value of an `a` line (7).  Modulo 2 every
     text with `s` lines is refused.
 38. The reader fills n scales whether the text has `s` lines or not; a slice of less than n places is 11 in both cases.
 39. The writer puts n `s` lines exactly if some scale isn't 1, so none and n ones give the same text.  A text read and written
     again is the same; a system written and read has the same scales, n ones for none.
"""

import sys
from functools import lru_cache

MAX_P = 2147483647
MAX_N = 4096
MAX_ENTRIES = 65536
MAX_LIST = 8192
MAX_VECTORS = 64
MAX_WINDOW = 64
MAX_NUMERAL = 4294967295
MAX_TEXT = 2097152
CALL_TEXT = 26624
CALL_N = 128
CALL_ENTRIES = 1024
CALL_ANSWER = 7168


def refused(number):
    return ('refused', number)


# ---------------------------------------------------------------- field

@lru_cache(maxsize=None)
def is_prime(m):
    if m < 2:
        return False
    d = 2
    while d * d <= m:
        if m % d == 0:
            return False
        d += 1
    return True


def inverse_mod(a, p):
    """a^(p-2); a not 0, p prime."""
    return pow(a, p - 2, p) if p > 2 else a


def field(p):
    if bad3(p):
        return refused(3)
    return ('ok', p)


def field_sum(p, a, b):
    if bad3(p):
        return refused(3)
    if a >= p or b >= p:
        return refused(9)
    return ('ok', (a + b) % p)


def field_difference(p, a, b):
    if bad3(p):
        return refused(3)
    if a >= p or b >= p:
        return refused(9)
    return ('ok', (a - b) % p)


def field_product(p, a, b):
    if bad3(p):
        return refused(3)
    if a >= p or b >= p:
        return refused(9)
    return ('ok', (a * b) % p)


def field_inverse(p, a):
    if bad3(p):
        return refused(3)
    if a >= p:
        return refused(9)
    if a == 0:
        return refused(12)
    return ('ok', inverse_mod(a, p))


# ---------------------------------------------------------------- checks (True: turned down)

def bad3(p):
    return not (2 <= p <= MAX_P and is_prime(p))


def bad4(starts):
    return len(starts) == 0 or not (0 <= len(starts) - 1 <= MAX_N)


def bad5(starts, columns, values, scales):
    if starts[0] != 0:
        return True
    for i in range(len(starts) - 1):
        if starts[i] > starts[i + 1]:
            return True
    if starts[len(starts) - 1] != len(columns):
        return True
    if len(columns) != len(values):
        return True
    if len(scales) != 0 and len(scales) != len(starts) - 1:
        return True
    return len(columns) > MAX_ENTRIES


def bad6(starts, columns):
    n = len(starts) - 1
    for i in range(n):
        for k in range(starts[i], starts[i + 1]):
            if columns[k] >= n:
                return True
            if k > starts[i] and columns[k] <= columns[k - 1]:
                return True
    return False


def bad7(p, values):
    for c in values:
        if c == 0 or c >= p:
            return True
    return False


def bad9(p, elements):
    for c in elements:
        if c >= p:
            return True
    return False


def bad10(n, words):
    if n == 0:
        return len(words) != 0
    return len(words) % n != 0 or len(words) > MAX_VECTORS * n


def bad13(window):
    return window > MAX_WINDOW


def vectors_of(n, words):
    """R"""
    return 0 if n == 0 else len(words) // n


def matrix_refusal(p, starts, columns, values, scales=()):
    """The first of 3, 4, 5, 6, 7 that turns p, the matrix and its scales down, or 0."""
    if bad3(p):
        return 3
    if bad4(starts):
        return 4
    if bad5(starts, columns, values, scales):
        return 5
    if bad6(starts, columns):
        return 6
    if bad7(p, values) or bad7(p, scales):
        return 7
    return 0


def matrix_check(p, starts, columns, values):
    number = matrix_refusal(p, starts, columns, values)
    if number:
        return refused(number)
    return ('ok', len(starts) - 1)


# ---------------------------------------------------------------- scales (request (vi), on accepted input)

def scale_of(scales, j):
    """That of column j, from 0; no scales stand for ones."""
    return scales[j] if len(scales) else 1


def scaled_values(p, columns, values, scales):
    """The values of AX; its starts and columns are those of A."""
    return [values[k] * scale_of(scales, columns[k]) % p for k in range(len(values))]


def scaled_vector(p, scales, v):
    """Xv"""
    return [v[j] * scale_of(scales, j) % p for j in range(len(v))]


# ---------------------------------------------------------------- products (meanings, on accepted input)

def times(p, starts, columns, values, v):
    """(Av, entries multiplied)"""
    n = len(starts) - 1
    result = []
    multiplied = 0
    for i in range(n):
        total = 0
        for k in range(starts[i], starts[i + 1]):
            total += values[k] * v[columns[k]]
            multiplied += 1
        result.append(total % p)
    return result, multiplied


def transposed_times(p, starts, columns, values, v):
    """(v times A, entries multiplied)"""
    n = len(starts) - 1
    result = [0] * n
    multiplied = 0
    for i in range(n):
        for k in range(starts[i], starts[i + 1]):
            result[columns[k]] = (result[columns[k]] + values[k] * v[i]) % p
            multiplied += 1
    return result, multiplied


def polynomial_times(p, starts, columns, values, g, v):
    """(g(A)v, products made, entries multiplied): the sum of g[i] x A^i v, with len(g) - 1 products."""
    n = len(starts) - 1
    power = list(v)
    result = [0] * n
    made = 0
    multiplied = 0
    for i in range(len(g)):
        if i > 0:
            power, more = times(p, starts, columns, values, power)
            made += 1
            multiplied += more
        for k in range(n):
            result[k] = (result[k] + g[i] * power[k]) % p
    return result, made, multiplied


def polynomial_product(p, f, g):
    result = [0] * (len(f) + len(g) - 1)
    for i in range(len(f)):
        for j in range(len(g)):
            result[i + j] = (result[i + j] + f[i] * g[j]) % p
    return result


def dot(p, u, v):
    return sum(a * b for a, b in zip(u, v)) % p


# ---------------------------------------------------------------- product calls
# ('ok', entries multiplied, out slice) or a refusal

def product(p, starts, columns, values, v, out):
    number = matrix_refusal(p, starts, columns, values)
    if number:
        return refused(number)
    n = len(starts) - 1
    if len(v) != n:
        return refused(8)
    if bad9(p, v):
        return refused(9)
    if len(out) != n:
        return refused(11)
    result, multiplied = times(p, starts, columns, values, v)
    return ('ok', multiplied, result)


def transposed_product(p, starts, columns, values, v, out):
    number = matrix_refusal(p, starts, columns, values)
    if number:
        return refused(number)
    n = len(starts) - 1
    if len(v) != n:
        return refused(8)
    if bad9(p, v):
        return refused(9)
    if len(out) != n:
        return refused(11)
    result, multiplied = transposed_times(p, starts, columns, values, v)
    return ('ok', multiplied, result)


def polynomial_apply(p, starts, columns, values, g, v, out, work):
    number = matrix_refusal(p, starts, columns, values)
    if number:
        return refused(number)
    n = len(starts) - 1
    if len(v) != n or not (1 <= len(g) <= n + 1):
        return refused(8)
    if bad9(p, v) or bad9(p, g):
        return refused(9)
    if len(out) != n or len(work) < 2 * n:
        return refused(11)
    result, made, multiplied = polynomial_times(p, starts, columns, values, g, v)
    return ('ok', multiplied, result)


# ---------------------------------------------------------------- shortest recurrence

def coefficient(q, i):
    return q[i] if i < len(q) else 0


class Steps:
    """The steps of document 01, an r at a time: q, t, L and e, and the discrepancies so far."""

    def __init__(self, p):
        self.p, self.q, self.t, self.L, self.e, self.discrepancies = p, [1], [0], 0, 1, []

    def take(self, s, r):
        """The step of r, which looks at the first r elements of s."""
        p, q, L = self.p, self.q, self.L
        d = 0
        for i in range(0, L + 1):
            d += coefficient(q, i) * s[r - 1 - i]
        d = d % p
        self.discrepancies.append(d)
        zt = [0] + self.t
        if d == 0:
            self.t = zt
            return
        c = d * inverse_mod(self.e, p) % p
        new_q = []
        for i in range(max(len(q), len(zt))):
            new_q.append((coefficient(q, i) - c * coefficient(zt, i)) % p)
        if 2 * L < r:
            self.t = q
            self.L = r - L
            self.e = d
        else:
            self.t = zt
        self.q = new_q

    def f(self):
        """z to the power L times q(1/z): L + 1 coefficients, lowest power first."""
        return [coefficient(self.q, self.L - i) for i in range(self.L + 1)]


def shortest_recurrence(p, s):
    """(L, f) by the steps of document 01."""
    steps = Steps(p)
    for r in range(1, len(s) + 1):
        steps.take(s, r)
    return steps.L, steps.f()


def recurs(p, f, s):
    """Document 01's definition: monic f of degree L = len(f) - 1 recurs on s."""
    L = len(f) - 1
    if f[L] != 1:
        return False
    for j in range(0, len(s) - L):
        if sum(f[i] * s[i + j] for i in range(L + 1)) % p != 0:
            return False
    return True


def solve_linear(p, rows, right, unknowns):
    """('none',) or ('one', x) or ('many', x) for rows x = right, by elimination."""
    m = [list(rows[k]) + [right[k]] for k in range(len(rows))]
    pivots = []
    r = 0
    for c in range(unknowns):
        k = r
        while k < len(m) and m[k][c] % p == 0:
            k += 1
        if k == len(m):
            continue
        m[r], m[k] = m[k], m[r]
        inv = inverse_mod(m[r][c] % p, p)
        m[r] = [x * inv % p for x in m[r]]
        for k in range(len(m)):
            if k != r and m[k][c] % p != 0:
                h = m[k][c]
                m[k] = [(m[k][j] - h * m[r][j]) % p for j in range(unknowns + 1)]
        pivots.append(c)
        r += 1
    for k in range(r, len(m)):
        if m[k][unknowns] % p != 0:
            return ('none',)
    x = [0] * unknowns
    for k in range(len(pivots)):
        x[pivots[k]] = m[k][unknowns]
    return ('one' if len(pivots) == unknowns else 'many', x)


def least_recurrence_by_elimination(p, s):
    """(least L, 'one' or 'many', an f) straight from the definition: for L = 0, 1, .. solve for f[0..L-1]."""
    N = len(s)
    for L in range(0, N + 1):
        rows = [[s[i + j] for i in range(L)] for j in range(N - L)]
        right = [(-s[L + j]) % p for j in range(N - L)]
        found = solve_linear(p, rows, right, L)
        if found[0] != 'none':
            return L, found[0], found[1] + [1]


def recurrence(p, s, polynomial, work):
    if bad3(p):
        return refused(3)
    if len(s) > MAX_LIST:
        return refused(8)
    if bad9(p, s):
        return refused(9)
    if len(polynomial) != len(s) + 1 or len(work) < 4 * len(s) + 8:
        return refused(11)
    L, f = shortest_recurrence(p, s)
    return ('ok', L, f + [0] * (len(s) - L))


# ---------------------------------------------------------------- solver

def due(window, steps):
    """Request (v): whether L is at least 1 and the last `window` discrepancies, as many as there must be, were all 0."""
    if window == 0 or len(steps.discrepancies) < window:
        return False
    return steps.L >= 1 and not any(steps.discrepancies[-window:])


def make_pass(p, starts, columns, values, u, r, left, window):
    """One pass with projection u; products with A, and entries, are counted as they are made.

    Returns the terms that were taken, f, r after, (i, L) of the test that was made or None, applications and entries."""
    applications = 0
    multiplied = 0
    steps = Steps(p)
    terms = []
    test = None
    power = list(r)
    for i in range(1, 2 * left + 1):
        if i > 1:
            power, more = times(p, starts, columns, values, power)
            applications += 1
            multiplied += more
        terms.append(dot(p, u, power))
        steps.take(terms, i)
        if i < 2 * left and test is None and due(window, steps):
            test = (i, steps.L)
            after, made, more = polynomial_times(p, starts, columns, values, steps.f(), r)
            applications += made
            multiplied += more
            if not any(after):
                return terms, steps.f(), after, test, applications, multiplied
    after, made, more = polynomial_times(p, starts, columns, values, steps.f(), r)
    return terms, steps.f(), after, test, applications + made, multiplied + more


def run_on(p, starts, columns, values, b, words, window):
    """The steps of document 01, with the window of request (v), on accepted input: the run on this matrix.

    Returns kind, F, vector, applications, entries multiplied, and a list of passes (u, left, terms, f, r after,
    test, applications)."""
    n = len(starts) - 1
    R = vectors_of(n, words)
    r = list(b)
    F = [1]
    D = 0
    applications = 0
    multiplied = 0
    passes = []
    while any(r):
        j = len(passes)
        if j < R:
            u = [w % p for w in words[j * n:(j + 1) * n]]
        else:
            u = [1 if k == j - R else 0 for k in range(n)]
        left = n - D
        terms, f, r, test, made, more = make_pass(p, starts, columns, values, u, r, left, window)
        applications += made
        multiplied += more
        F = polynomial_product(p, F, f)
        D = D + len(f) - 1
        passes.append((u, left, terms, f, r, test, made))
    G = F[1:]
    if D == 0:
        return 'solved', F, [0] * n, applications, multiplied, passes
    vector, made, more = polynomial_times(p, starts, columns, values, G, b)
    applications += made
    multiplied += more
    if F[0] != 0:
        c = (-inverse_mod(F[0], p)) % p
        return 'solved', F, [c * x % p for x in vector], applications, multiplied, passes
    return 'singular', F, vector, applications, multiplied, passes


def solver_steps(p, starts, columns, values, scales, b, words, window=0):
    """The run on AX, and X times its vector; what run_on returns."""
    kind, F, vector, *rest = run_on(p, starts, columns, scaled_values(p, columns, values, scales), b, words, window)
    return (kind, F, scaled_vector(p, scales, vector), *rest)


def bill_of(passes):
    """The bill's lines: left, t and applications of each pass."""
    return [(left, len(f) - 1, applications) for u, left, terms, f, after, test, applications in passes]


def close_of(D):
    """The number of the `close` line."""
    return D - 1 if D > 0 else 0


def bill_slice(lines, bill):
    """The slice's final contents: the lines that have room for all three numbers, then what stood there."""
    numbers = [x for row in lines[:len(bill) // 3] for x in row]
    return numbers + list(bill[len(numbers):])


def solve(p, starts, columns, values, scales, b, words, window, vector, polynomial, bill, work):
    """('ok', kind, D, passes, applications, entries multiplied, vector slice, polynomial slice, bill slice) or a refusal."""
    number = matrix_refusal(p, starts, columns, values, scales)
    if number:
        return refused(number)
    n = len(starts) - 1
    if len(b) != n:
        return refused(8)
    if bad9(p, b):
        return refused(9)
    if bad10(n, words):
        return refused(10)
    if bad13(window):
        return refused(13)
    if len(vector) != n or len(polynomial) != n + 1 or len(work) < 16 * n + 16:
        return refused(11)
    kind, F, x, applications, multiplied, passes = solver_steps(p, starts, columns, values, scales, b, words, window)
    D = len(F) - 1
    return ('ok', kind, D, len(passes), applications, multiplied, x, F + [0] * (n - D), bill_slice(bill_of(passes), bill))


# ---------------------------------------------------------------- checks of offered answers
# ('ok', yes or no, entries multiplied) or a refusal

def check_solution(p, starts, columns, values, x, b):
    number = matrix_refusal(p, starts, columns, values)
    if number:
        return refused(number)
    n = len(starts) - 1
    if len(x) != n or len(b) != n:
        return refused(8)
    if bad9(p, x) or bad9(p, b):
        return refused(9)
    image, multiplied = times(p, starts, columns, values, x)
    return ('ok', image == list(b), multiplied)


def check_kernel(p, starts, columns, values, w):
    number = matrix_refusal(p, starts, columns, values)
    if number:
        return refused(number)
    n = len(starts) - 1
    if len(w) != n:
        return refused(8)
    if bad9(p, w):
        return refused(9)
    image, multiplied = times(p, starts, columns, values, w)
    return ('ok', any(w) and not any(image), multiplied)


# ---------------------------------------------------------------- system text

def numeral(field_bytes):
    """The number, or None if it is no numeral."""
    if len(field_bytes) == 0 or len(field_bytes) > 10:
        return None
    for c in field_bytes:
        if not (48 <= c <= 57):
            return None
    if len(field_bytes) > 1 and field_bytes[0] == 48:
        return None
    number = int(field_bytes.decode('ascii'))
    return number if number <= MAX_NUMERAL else None


def parse_line(line, word, count):
    """The `count` numbers of a line `word`, number, .., number; None if the line has another form."""
    fields = line.split(b'\t')
    if len(fields) != count + 1 or fields[0] != word:
        return None
    numbers = [numeral(x) for x in fields[1:]]
    if None in numbers:
        return None
    return numbers


def parse_lines(lines, k, word, count):
    """The numbers of each of the lines from k on that begin with the word, and where they end; None if one has another form."""
    found = []
    while k < len(lines) and lines[k].startswith(word + b'\t'):
        numbers = parse_line(lines[k], word, count)
        if numbers is None:
            return None
        found.append(numbers)
        k += 1
    return found, k


def parse_text(text):
    """(p, n, count, a lines, s lines, b lines), or None where check 2 turns the text down."""
    text = bytes(text)
    if len(text) > MAX_TEXT:
        return None
    if not text.endswith(b'\n'):
        return None
    lines = text[:-1].split(b'\n')
    header = parse_line(lines[0], b'system', 3)
    if header is None:
        return None
    k = 1
    parts = []
    for word, count in (b'a', 3), (b's', 2), (b'b', 2):
        found = parse_lines(lines, k, word, count)
        if found is None:
            return None
        part, k = found
        parts.append(part)
    if k != len(lines) - 1 or lines[k] != b'end':
        return None
    return (*header, *parts)


def places_bad(lines, n):
    """Whether the first numbers of these lines are out of 1 to n or don't rise strictly."""
    before = 0
    for place, value in lines:
        if not (1 <= place <= n) or place <= before:
            return True
        before = place
    return False


def parse_system(text):
    """Checks 2 to 7 on a text: ('ok', p, n, starts, columns, values, scales, b), all of exact length, or a refusal."""
    parsed = parse_text(text)
    if parsed is None:
        return refused(2)
    p, n, count, a_lines, s_lines, b_lines = parsed
    if bad3(p):
        return refused(3)
    if not (0 <= n <= MAX_N):
        return refused(4)
    if count != len(a_lines) or len(a_lines) > MAX_ENTRIES:
        return refused(5)
    if len(s_lines) != 0 and len(s_lines) != n:
        return refused(5)
    before = (0, 0)
    for row, column, value in a_lines:
        if not (1 <= row <= n and 1 <= column <= n) or (row, column) <= before:
            return refused(6)
        before = (row, column)
    if places_bad(s_lines, n) or places_bad(b_lines, n):
        return refused(6)
    if len(s_lines) != 0 and all(value == 1 for place, value in s_lines):
        return refused(6)
    for *place, value in a_lines + s_lines + b_lines:
        if value == 0 or value >= p:
            return refused(7)
    starts = [0] * (n + 1)
    for row, column, value in a_lines:
        starts[row] += 1
    for i in range(n):
        starts[i + 1] += starts[i]
    columns = [column - 1 for row, column, value in a_lines]
    values = [value for row, column, value in a_lines]
    scales = [1] * n
    for place, value in s_lines:
        scales[place - 1] = value
    b = [0] * n
    for row, value in b_lines:
        b[row - 1] = value
    return ('ok', p, n, starts, columns, values, scales, b)


def read_system(text, starts, columns, values, scales, b):
    """('ok', p, n, entries, starts, columns, values, scales, b), slices with their final contents, or a refusal."""
    system = parse_system(text)
    if system[0] == 'refused':
        return system
    p, n, starts1, columns1, values1, scales1, b1 = system[1:]
    entries = len(values1)
    if len(starts) < n + 1 or len(columns) < entries or len(values) < entries or len(scales) < n or len(b) < n:
        return refused(11)
    return ('ok', p, n, entries,
            starts1 + list(starts[n + 1:]),
            columns1 + list(columns[entries:]),
            values1 + list(values[entries:]),
            scales1 + list(scales[n:]),
            b1 + list(b[n:]))


def line(*fields):
    return '\t'.join(str(x) for x in fields).encode('ascii') + b'\n'


def system_text(p, starts, columns, values, scales, b):
    n = len(starts) - 1
    text = line('system', p, n, len(values))
    for i in range(n):
        for k in range(starts[i], starts[i + 1]):
            text += line('a', i + 1, columns[k] + 1, values[k])
    if any(x != 1 for x in scales):
        for j in range(n):
            text += line('s', j + 1, scales[j])
    for i in range(n):
        if b[i] != 0:
            text += line('b', i + 1, b[i])
    return text + line('end')


def write_system(p, starts, columns, values, scales, b, out):
    """('ok', length, out with its final contents) or a refusal."""
    number = matrix_refusal(p, starts, columns, values, scales)
    if number:
        return refused(number)
    n = len(starts) - 1
    if len(b) != n:
        return refused(8)
    if bad9(p, b):
        return refused(9)
    text = system_text(p, starts, columns, values, scales, b)
    if len(out) < len(text):
        return refused(11)
    return ('ok', len(text), text + bytes(out[len(text):]))


# ---------------------------------------------------------------- text call and program

def text_call(text, answer):
    """('ok', length, answer slice with its final contents) or a refusal."""
    if len(text) > CALL_TEXT:
        return refused(1)
    system = parse_system(text)
    if system[0] == 'refused':
        return system
    p, n, starts, columns, values, scales, b = system[1:]
    if n > CALL_N or len(values) > CALL_ENTRIES or len(answer) < CALL_ANSWER:
        return refused(11)
    kind, F, vector, applications, multiplied, passes = solver_steps(p, starts, columns, values, scales, b, [])
    D = len(F) - 1
    result = line('answer', kind, D, len(passes), applications, multiplied)
    for number, row in enumerate(bill_of(passes), 1):
        result += line('pass', number, *row)
    result += line('close', close_of(D))
    for i in range(D + 1):
        result += line('f', i, F[i])
    for i in range(n):
        result += line('x' if kind == 'solved' else 'w', i + 1, vector[i])
    result += line('end')
    return ('ok', len(result), result + bytes(answer[len(result):]))


def text_call_number(text, answer):
    """The one number that the exported call returns."""
    return text_call(text, answer)[1]


def program(standard_input):
    """The bytes printed."""
    result = text_call(standard_input, bytes(CALL_ANSWER))
    if result[0] == 'refused':
        return line('refused', result[1])
    return result[2][:result[1]]


def inverses_program():
    """The bytes printed by request (vii)'s program: a line for each element of the field of 251."""
    return b''.join(line('i', a, inverse_mod(a, 251)) for a in range(1, 251))


if __name__ == '__main__':
    sys.stdout.buffer.write(program(sys.stdin.buffer.read()))
