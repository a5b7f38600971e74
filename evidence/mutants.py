"""Wrong solvers (document 01, 'Tempting here', and a few more), wrong bills (document 02, request (i)), mistakes about
size 0 (request (ii)), wrong counts of the entries multiplied (request (iii)), wrong windows (request (v)), and wrong scales,
in the solver and in texts (request (vi)).  Used to say which case tells which one apart.

keep_t_e / keep_e carry t, e over a restart exactly in the form of document 01's steps (t shifted at every term).  They are
NOT observable: the last t = q of a pass happens at a term r1 <= 2*L1 - 1 (or t is still 0), so the kept t is z^k times a
polynomial with k >= 2*left - 2*L1 + 1 > twice the degree still to come, and what it adds to the next q stays above index L.
keep_t_unshifted is the same mistake in the usual program form (t stored unshifted beside a counter that is reset).  It shows
only from n = 4 on: a pass of degree >= 2 followed by one of degree >= 2 is needed (none in 60,000 random systems of n <= 3).

window_over_restarts carries the zero discrepancies of one pass into the next.  It is NOT observable either: L is at least 1
only after a discrepancy of this pass that is not 0, and from there on none of an earlier pass is among the last ones.
window_stale_L is the same mistake with L >= 1 carried over too: then f = 1 is tested, and the pass has had its test.
A test after term 2 x left (window_at_end) shows only where it fails; where it doesn't, its cost is that of the full pass.

scale_terms_A and scale_f_A have A in place of AX in one of the two products of a pass alone, scale_close_A in the close."""

import re

import reference as ref

NAMES = ['keep_t_e', 'keep_e', 'keep_t_unshifted', 'keep_all', 'stale_q',
         'first_pass_only', 'stop_at_D_n', 'singular_on_arrival', 'last_factor_x', 'G_on_last_r',
         'columns_space_kind', 'word_stride_1', 'units_after_R', 'left_n_always', 'f_unreversed', 'no_degree0_pass_count',
         'bill_left_after', 'bill_no_degree0', 'bill_no_t', 'close_D',
         'size0_refused', 'no_starts_taken', 'size0_words_taken', 'size0_pass',
         'entries_n', 'entries_no_close', 'entries_no_f', 'entries_once', 'entries_not_zeros',
         'window_ignored', 'window_trusted', 'window_unchecked', 'window_twice', 'window_fail_free', 'window_stop_free',
         'window_full_cost', 'window_keeps_f', 'window_at_end', 'window_L0', 'window_short', 'window_long', 'window_0_tests',
         'window_over_restarts', 'window_stale_L', 'window_once_in_run', 'window_65_taken', 'window_before_10',
         'scale_y', 'scale_x_only', 'scale_w_only', 'scale_twice', 'scale_divided', 'scale_ignored', 'scale_run_on_A', 'scale_rows',
         'scale_terms_A', 'scale_f_A', 'scale_close_A', 'scale_b_too', 'scale_counted', 'scale_few_taken', 'scale_many_taken',
         'scale_0_taken', 'scale_p_taken', 'scale_number_8', 'scale_value_9', 'scale_after_matrix', 'scale_value_before_6',
         'scale_ones_refused']
TEXT_NAMES = ['s_after_b_taken', 's_before_a_taken', 's_few_taken', 's_many_taken', 's_number_of_entries', 's_range_unchecked',
              's_order_unchecked', 's_twice_taken', 's_ones_taken', 's_ones_7', 's_0_taken', 's_p_taken', 's_ignored', 's_none_zeros',
              's_none_left', 's_room_unchecked', 's_room_without_lines', 's_ones_written', 's_none_written', 's_not_written',
              's_one_line_each', 's_after_b_written', 's_24576', 's_26625_taken']
CHECK_NAMES = ['check_with_AX']
HIDDEN = ['keep_t_e', 'keep_e', 'window_over_restarts']


def recurrence_from(p, s, t, e, q, L):
    """The steps from a given state; also answers the last t that was set by t = q, without the later shifts."""
    unshifted = t
    for r in range(1, len(s) + 1):
        d = sum(ref.coefficient(q, i) * s[r - 1 - i] for i in range(min(L, r - 1) + 1)) % p
        zt = [0] + t
        if d == 0:
            t = zt
        else:
            c = d * ref.inverse_mod(e, p) % p
            nq = [(ref.coefficient(q, i) - c * ref.coefficient(zt, i)) % p for i in range(max(len(q), len(zt)))]
            if 2 * L < r:
                t, L, e = q, r - L, d
                unshifted = q
            else:
                t = zt
            q = nq
    return L, q, t, e, unshifted


def billed(name, left, t, made):
    """The bill's lines of one pass."""
    if name == 'bill_no_degree0' and t == 0:
        return []
    return [(left - t if name == 'bill_left_after' else left, t, made - t if name == 'bill_no_t' else made)]


def multiplied_by(name, S, v, part):
    """The entries counted for one product with v, which is made for the terms, for f(A)r or for the close."""
    if name == 'entries_no_close' and part == 'close' or name == 'entries_no_f' and part == 'f':
        return 0
    if name == 'entries_n':
        return len(v)
    if name == 'entries_not_zeros':
        return sum(v[column] != 0 for column in S[1])
    return len(S[1])


def counted_polynomial_times(name, p, S, g, v, part):
    """(g(A)v, products made, entries counted)"""
    result, made, _ = ref.polynomial_times(p, *S, g, v)
    counted = 0
    for _ in range(made):
        counted += multiplied_by(name, S, v, part)
        v = ref.times(p, *S, v)[0]
    return result, made, counted


def refusal(p, S, X, b, words, window):
    """The first of checks 3 to 10, and then 13, that turns the call down, or 0."""
    n = len(S[0]) - 1
    later = 8 if len(b) != n else 9 if ref.bad9(p, b) else 10 if ref.bad10(n, words) else 13 if ref.bad13(window) else 0
    return ref.matrix_refusal(p, *S, X) or later


class Windowed:
    """A pass with a window, and what a wrong run carries from pass to pass: discrepancies, whether L was 1, whether it tested."""

    def __init__(self, name, p, S, window):
        self.name, self.p, self.S, self.window = name, p, S, window
        self.carried, self.had_L, self.tested = [], False, False

    def due(self, steps):
        """As the mistake has it."""
        name, wanted = self.name, self.window
        past = steps.discrepancies
        if name in ('window_over_restarts', 'window_stale_L'):
            past = self.carried + past
        wanted += (name == 'window_long') - (name == 'window_short')
        if self.window == 0:
            return name == 'window_0_tests' and steps.L >= 1
        long_enough = steps.L >= 1 or name == 'window_L0' or name == 'window_stale_L' and self.had_L
        return long_enough and len(past) >= wanted and not any(past[len(past) - wanted:])

    def make(self, u, r, left):
        """f, r after, applications"""
        name, S, steps = self.name, self.S, ref.Steps(self.p)
        if name != 'window_once_in_run':
            self.tested = False
        terms, power, made, last = [], r, 0, 2 * left if name == 'window_at_end' else 2 * left - 1
        kept = None
        for i in range(1, 2 * left + 1):
            if i > 1:
                power, made = ref.times(self.p, *S, power)[0], made + 1
            terms.append(ref.dot(self.p, u, power))
            steps.take(terms, i)
            if i <= last and not self.tested and self.due(steps):
                self.tested = name != 'window_twice'
                f = steps.f()
                after = ref.polynomial_times(self.p, *S, f, r)[0]
                if name == 'window_unchecked':
                    return f, [0] * len(r), made
                if not any(after) or name == 'window_trusted':
                    end = 2 * left - 1 if name == 'window_full_cost' else made
                    return f, after, end + (0 if name == 'window_stop_free' else steps.L)
                made += 0 if name == 'window_fail_free' else steps.L
                kept = f
        self.carried, self.had_L = self.carried + steps.discrepancies, self.had_L or steps.L >= 1
        f = kept if kept and name == 'window_keeps_f' else steps.f()
        return f, ref.polynomial_times(self.p, *S, f, r)[0], made + len(f) - 1


def windowed(name, p, S, b, words, window):
    """The solver with a window, by the wrong rule of that name."""
    n = len(S[0]) - 1
    R = ref.vectors_of(n, words)
    if name == 'window_65_taken' and window == 65:
        window = 64
    number = refusal(p, S, [], b, words, window)
    if name == 'window_before_10' and number == 10 and ref.bad13(window):
        number = 13
    if number:
        return 'refused', number
    if name == 'window_ignored':
        window = 0
    rule = Windowed(name, p, S, window)
    r, F, bill = list(b), [1], []
    while any(r) and len(bill) < R + n and len(F) - 1 < n:
        k = len(bill)
        u = [w % p for w in words[k * n:k * n + n]] if k < R else [int(i == k - R) for i in range(n)]
        left = n + 1 - len(F)
        f, r, made = rule.make(u, r, left)
        F = ref.polynomial_product(p, F, f)
        bill.append((left, len(f) - 1, made))
    D = len(F) - 1
    applications = sum(row[2] for row in bill) + ref.close_of(D)
    vector = ref.polynomial_times(p, *S, F[1:], b)[0] if D else [0] * n
    if F[0] and D:
        c = -ref.inverse_mod(F[0], p) % p
        vector = [c * x % p for x in vector]
    return ('solved' if F[0] else 'singular', D, len(bill), applications, applications * len(S[1]), vector,
            (F + [0] * n)[:n + 1], bill, ref.close_of(D))


def scaled_refusal(name, p, S, X, b, words, window):
    """The first check that turns the call down, by the wrong rule of that name, or 0; and the scales that are taken then."""
    n, checked = len(S[0]) - 1, X
    if name == 'scale_few_taken' and len(X) < n:
        X = checked = X + [1] * (n - len(X))
    if name == 'scale_many_taken':
        X = checked = X[:max(n, 0)]
    if name == 'scale_0_taken':
        checked = [x or 1 for x in X]
    if name == 'scale_p_taken':
        checked = [min(x, p - 1) for x in X]
    number = refusal(p, S, checked, b, words, window)
    without = refusal(p, S, [], b, words, window)
    wrong_number = len(X) not in (0, n)
    if name == 'scale_number_8' and wrong_number and number == 5:
        number = without if 0 < without < 8 else 8
    if name == 'scale_value_9' and ref.bad7(p, X) and number == 7:
        number = without if 0 < without < 9 else 9
    if name == 'scale_after_matrix' and number == 5:
        number = ref.matrix_refusal(p, *S) or 5
    if name == 'scale_value_before_6' and number == 6 and ref.bad7(p, X):
        number = 7
    if name == 'scale_ones_refused' and X and set(X) == {1} and not number:
        number = 6
    return number, X


def scaled(name, p, S, X, b, words, window):
    """The solver with scales, by the wrong rule of that name; scale_terms_A and scale_f_A know no window."""
    number, X = scaled_refusal(name, p, S, X, b, words, window)
    if number:
        return 'refused', number
    n, (starts, columns, values) = len(b), S
    AX = starts, columns, ref.scaled_values(p, columns, values, X)
    if name == 'scale_rows' and X:
        rows = [i for i in range(n) for _ in range(starts[i], starts[i + 1])]
        AX = starts, columns, [x * X[i] % p for x, i in zip(values, rows)]
    if name in ('scale_ignored', 'scale_run_on_A'):
        AX = S
    terms = S if name == 'scale_terms_A' else AX
    factor = S if name == 'scale_f_A' else AX
    close = S if name == 'scale_close_A' else AX
    right_side = ref.scaled_vector(p, X, b) if name == 'scale_b_too' else b
    R, r, F, bill = ref.vectors_of(n, words), list(right_side), [1], []
    while any(r) and len(bill) < R + n and len(F) - 1 < n:
        k = len(bill)
        u = [w % p for w in words[k * n:k * n + n]] if k < R else [int(i == k - R) for i in range(n)]
        left = n + 1 - len(F)
        if terms == factor:
            _, f, r, _, made, _ = ref.make_pass(p, *AX, u, r, left, window)
        else:
            _, f, _, _, made, _ = ref.make_pass(p, *terms, u, r, left, 0)
            r = ref.polynomial_times(p, *factor, f, r)[0]
        F = ref.polynomial_product(p, F, f)
        bill.append((left, len(f) - 1, made))
    D = len(F) - 1
    applications = sum(row[2] for row in bill) + ref.close_of(D)
    vector = ref.polynomial_times(p, *close, F[1:], right_side)[0] if D else [0] * n
    kind = 'solved' if F[0] else 'singular'
    if F[0] and D:
        c = -ref.inverse_mod(F[0], p) % p
        vector = [c * x % p for x in vector]
    times = {'scale_y': 0, 'scale_ignored': 0, 'scale_twice': 2, 'scale_x_only': int(kind == 'solved'),
             'scale_w_only': int(kind == 'singular')}.get(name, 1)
    for _ in range(times):
        vector = ref.scaled_vector(p, [ref.inverse_mod(x, p) for x in X] if name == 'scale_divided' else X, vector)
    multiplied = applications * (len(columns) + (n if name == 'scale_counted' and X else 0))
    return kind, D, len(bill), applications, multiplied, vector, (F + [0] * n)[:n + 1], bill, ref.close_of(D)


def solve(name, p, S, X, b, words, window):
    """By the wrong solver of that name.  Those of scales and window apart, they know neither: they are told apart without."""
    if name.startswith('scale'):
        return scaled(name, p, S, X, b, words, window)
    if name.startswith('window'):
        return windowed(name, p, S, b, words, window)
    if name == 'no_starts_taken':
        S = (S[0] or [0], *S[1:])
    n = len(S[0]) - 1
    if name == 'size0_words_taken' and n == 0:
        words = []
    number = refusal(p, S, [], b, words, window)
    if name == 'size0_refused' and n == 0 and number != 3:
        number = 4
    if number:
        return 'refused', number
    if name == 'size0_pass' and n == 0:
        return 'solved', 0, 1, 0, 0, [], [1], [(0, 0, 0)], 0
    R = ref.vectors_of(n, words)
    r, F, D, apps, multiplied, k, counted, bill = list(b), [1], 0, 0, 0, 0, 0, []
    t, e, q, L, unshifted = [0], 1, [1], 0, [0]
    last = [1]
    while any(r) if name != 'stop_at_D_n' else (any(b) and D < n):
        if k >= R + n:
            break
        if k < R:
            at = k if name == 'word_stride_1' else k * n
            u = [w % p for w in words[at:at + n]]
        else:
            i = (k % n) if name == 'units_after_R' else k - R
            u = [int(j == i) for j in range(n)]
        left = n if name == 'left_n_always' else n - D
        earlier = apps
        terms, v = [], r
        for i in range(2 * left):
            if i:
                multiplied += multiplied_by(name, S, v, 'terms')
                v = ref.times(p, *S, v)[0]
                apps += 1
            terms.append(ref.dot(p, u, v))
        if name not in ('keep_t_e', 'keep_t_unshifted', 'keep_all'):
            t = [0]
        if name == 'keep_t_unshifted':
            t = unshifted
        if name not in ('keep_t_e', 'keep_e', 'keep_t_unshifted', 'keep_all'):
            e = 1
        if name != 'keep_all':
            q, L = ([1] + q[1:] if name == 'stale_q' else [1]), 0
        L, q, t, e, unshifted = recurrence_from(p, terms, t, e, q, L)
        if name == 'f_unreversed':
            f = [ref.coefficient(q, i) for i in range(L + 1)]
        else:
            f = [ref.coefficient(q, L - i) for i in range(L + 1)]
        before = r
        r, made, more = counted_polynomial_times(name, p, S, f, r, 'f')
        apps += made
        multiplied += more
        bill += billed(name, left, L, apps - earlier)
        F = ref.polynomial_product(p, F, f)
        D += L
        k += 1
        if L > 0 or name != 'no_degree0_pass_count':
            counted += 1
        last = f
        if name == 'first_pass_only' or (name == 'singular_on_arrival' and f[0] == 0):
            break
        if D > n:
            break
    if D == 0:
        return 'solved', 0, counted, apps, multiplied, [0] * n, [1] + [0] * n, bill, 0
    G = F[1:]
    vec, made, more = counted_polynomial_times(name, p, S, G, before if name == 'G_on_last_r' else b, 'close')
    apps += made
    multiplied = len(S[1]) if name == 'entries_once' else multiplied + more
    kind = 'solved' if F[0] else 'singular'
    if name == 'columns_space_kind' and kind == 'singular':
        rows = [[0] * n for _ in range(n)]
        for i in range(n):
            for m in range(S[0][i], S[0][i + 1]):
                rows[i][S[1][m]] = S[2][m]
        if ref.solve_linear(p, rows, b, n)[0] != 'none':
            kind = 'solved'
    if F[0]:
        c0 = last[0] if name == 'last_factor_x' else F[0]
        c = -ref.inverse_mod(c0, p) % p
        vec = [c * x % p for x in vec]
    return kind, D, counted, apps, multiplied, vec, (F + [0] * n)[:n + 1], bill, D if name == 'close_D' else made


def right(p, S, X, b, words, window):
    """What the reference gives: kind, D, passes, applications, entries multiplied, vector, f, bill, close; or the refusal."""
    if refusal(p, S, X, b, words, window):
        return 'refused', refusal(p, S, X, b, words, window)
    n = len(S[0]) - 1
    kind, F, vector, applications, multiplied, passes = ref.solver_steps(p, *S, X, b, words, window)
    D = len(F) - 1
    return kind, D, len(passes), applications, multiplied, vector, F + [0] * (n - D), ref.bill_of(passes), ref.close_of(D)


def told_apart(p, S, X, b, words, window=0):
    """Where there are scales, of their mistakes alone, and where there is a window, of its: the others would differ for not
    knowing it."""
    names = [m for m in NAMES if m.startswith('scale' if X else 'window') or not X and window == 0]
    if window:
        names = [m for m in names if m not in ('scale_terms_A', 'scale_f_A')]
    return [m for m in names if solve(m, p, S, X, b, words, window) != right(p, S, X, b, words, window)]


# ---------------------------------------------------------------- checks of offered answers

def checks_told_apart(p, S, X, vector, b=None):
    """Of Ax = b, or without b of Aw = 0."""
    AX = S[0], S[1], ref.scaled_values(p, S[1], S[2], X)
    check = (lambda M: ref.check_solution(p, *M, vector, b)) if b is not None else (lambda M: ref.check_kernel(p, *M, vector))
    return ['check_with_AX'] if check(S) != check(AX) else []


# ---------------------------------------------------------------- texts with scales

def without_scales(text):
    return re.sub(rb'\ns\t.*', b'', text)


def document(name, text):
    """What a text says, or None: check 2 of the reader of that name."""
    lines = text.split(b'\n')
    letters = ''.join(line[:1].decode('latin-1') for line in lines[1:-2])
    if re.fullmatch({'s_after_b_taken': 'a*b+s+', 's_before_a_taken': 's+a+b*'}.get(name, 'x'), letters):
        lines[1:-2] = sorted(lines[1:-2], key=lambda line: 'asb'.find(line[:1].decode()))
        text = b'\n'.join(lines)
    return ref.parse_text(text)


def text_refusal(name, text):
    """The first of checks 2 to 7 that turns the text down, by the reader of that name, or 0."""
    parsed = document(name, text)
    if parsed is None:
        return 2
    p, n, count, a, s, b = parsed
    places, values = [j for j, x in s], [x for j, x in s]
    ones = len(s) > 0 and set(values) == {1}
    wanted = count if name == 's_number_of_entries' else n
    causes = {
        5: 0 < len(s) < wanted and name != 's_few_taken' or len(s) > wanted and name != 's_many_taken',
        6: any(not 1 <= j <= n for j in places) and name != 's_range_unchecked' or
        any(j > k for j, k in zip(places, places[1:])) and name != 's_order_unchecked' or
        any(j == k for j, k in zip(places, places[1:])) and name != 's_twice_taken' or ones and name not in ('s_ones_taken', 's_ones_7'),
        7: 0 in values and name != 's_0_taken' or any(x >= p for x in values) and name != 's_p_taken' or ones and name == 's_ones_7'}
    rest = ref.parse_system(without_scales(text))
    return min([number for number in causes if causes[number]] + ([rest[1]] if rest[0] == 'refused' else []), default=0)


def read(name, text, lengths):
    """The reader of that name, into slices of these lengths that hold 9; ('ok', scales) where it takes the text."""
    number = text_refusal(name, text)
    if number:
        return 'refused', number
    p, n, count, a, s, b = document(name, text)
    starts, columns, values, scales, right_side = lengths
    unmeasured = name == 's_room_unchecked' or name == 's_room_without_lines' and not s
    if starts < n + 1 or min(columns, values) < count or right_side < n or scales < n and not unmeasured:
        return 'refused', 11
    filled = [{'s_none_zeros': 0, 's_none_left': 9}.get(name, 1) if not s else 1] * n
    for j, x in s if name != 's_ignored' else []:
        filled[min(max(j, 1), n) - 1] = x
    return 'ok', filled + [9] * (scales - n)


def write(name, p, S, X, b, room):
    """The writer of that name, into that many bytes "."."""
    n = len(b)
    number = ref.matrix_refusal(p, *S, X) or (8 if n != len(S[0]) - 1 else 9 if ref.bad9(p, b) else 0)
    if number:
        return 'refused', number
    lines = [('s', j + 1, X[j] if X else 1) for j in range(n)]
    if name == 's_one_line_each':
        lines = [line for line in lines if line[2] != 1]
    if name == 's_not_written' or all(x == 1 for x in X) and name != ('s_ones_written' if X else 's_none_written'):
        lines = []
    text = ref.system_text(p, *S, [], b)
    at = re.search(rb'\nend' if name == 's_after_b_written' else rb'\n(b\t|end)', text).start() + 1
    text = text[:at] + b''.join(ref.line(*line) for line in lines) + text[at:]
    return ('refused', 11) if len(text) > room else ('ok', len(text), text + b'.' * (room - len(text)))


def call(name, text, room):
    """The text call of that name; ('taken',) where it takes a text that has no answer."""
    if len(text) > {'s_24576': 24576, 's_26625_taken': 26625}.get(name, ref.CALL_TEXT):
        return 'refused', 1
    number = text_refusal(name, text)
    if number:
        return 'refused', number
    answer = ref.text_call(without_scales(text) if name == 's_ignored' else text, bytes(room))
    return answer if answer[0] == 'ok' or answer[1] == 11 else ('taken',)


def reads_told_apart(text, lengths):
    got = ref.read_system(text, *[[9] * k for k in lengths])
    return [m for m in TEXT_NAMES if read(m, text, lengths) != (got if got[0] == 'refused' else ('ok', got[7]))]


def writes_told_apart(p, S, X, b, room):
    return [m for m in TEXT_NAMES if write(m, p, S, X, b, room) != ref.write_system(p, *S, X, b, b'.' * room)]


def calls_told_apart(text, room):
    return [m for m in TEXT_NAMES if call(m, text, room) != ref.text_call(text, bytes(room))]
