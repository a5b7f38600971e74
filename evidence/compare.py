#!/usr/bin/env python3
"""Holds the solver against other tools, on systems that its authors did not choose.

    evidence/compare.py COUNT SEED [--largest N] [--budget B]
    evidence/compare.py --gate

Makes COUNT systems from SEED (systems.py), each with words and a window, half of them with scales, every other one with a
small p, where tests of the window often fail, and one that multiplies over 2³² entries, gives each to the static library
through driver.cpp, and holds
  - kind, D, passes, applications, entries multiplied, the bill's lines, vector and polynomial to a second implementation
    (second.cpp), and where the system is small also to the reference in Python (reference.py), two programs that share
    no code with the library and count the entries one by one;
  - kind, D, vector and polynomial to what the library says without the window;
  - all of it to what the library says of AX, made here entry by entry, without scales, but for the vector, which is X times
    that; and where there are no scales, to what it says with n ones;
  - kind, D and f to dense elimination: the ranks of the Krylov vectors b, Ab, .. and of Ab, A²b, .. (AX for A), and their
    first dependence; by dense.cpp, by FLINT (Debian's libflint-dev) and by PARI (pari-gp), where these are installed;
  - the vector to its meaning, Ax = b, or w is not zero and Aw = 0, with A itself; the bill to its sum; and the entries
    multiplied to applications × entries.

--gate is a small fixed set that needs python3 and g++ only. The library is crates/host/out/libhost.a, or what
FILZEUR_LIBRARY names. Exit status 0: nothing differs."""

import argparse
import collections
import random
import shutil
import subprocess
import sys
import time

import reference
import systems
import tools

REFERENCE_SIZE = 24  # the reference is slow
PARI_SIZE = 40
ONES_SIZE = 300  # beyond it a run takes long
KINDS = {1: 'solved', 2: 'singular'}
# places of a system's parts: what, p, starts, columns, values, scales, b, words, window
SCALES, RIGHT, WINDOW = 5, 6, 8


def line_of(system):
    what, p, starts, columns, values, scales, b, words, window = system
    n = len(b)
    bill = 3 * (reference.vectors_of(n, words) + n)
    return tools.spell('solve', p, starts, columns, values, scales, b, words, window, n, n + 1, bill, 16 * n + 16)


def size_of(system):
    return len(system[RIGHT])


class Answer:
    def __init__(self, line, n):
        self.harm = line.startswith('harm')
        numbers = [int(word) for word in line.replace('harm', '').split()]
        self.refusal, self.kind, self.degree, self.passes, self.applications, self.multiplied, billed = numbers[:7]
        self.bill = [tuple(numbers[k:k + 3]) for k in range(7, 7 + billed, 3)]
        slices = numbers[7 + billed:]
        self.vector = slices[1:1 + n]
        self.polynomial = slices[2 + n:]

    def all(self):
        return (self.kind, self.degree, self.passes, self.applications, self.multiplied, self.bill, self.vector,
                self.polynomial)

    def verdict(self):
        return self.kind, self.degree, self.vector, self.polynomial


def saved(line):
    """What a pass has cost less than all of its terms and one f(A)r: above 0 if it ended early, below 0 if its test failed."""
    left, degree, applications = line
    return 2 * left - 1 + degree - applications


def could_be(line, window):
    """Whether a pass can have such a line. A test of degree L comes after term L + window at the earliest, before the last; at
    term i it ends a pass of i - 1 + L applications, or costs L."""
    left, degree, applications = line
    if saved(line) > 0:
        return window >= 1 and degree >= 1 and degree + window <= applications + 1 - degree
    return saved(line) == 0 or window >= 1 and -saved(line) <= degree and window - saved(line) < 2 * left


def adds_up(answer, n, window):
    """A line for each pass: left falls from n by the degrees, and the applications are the passes' and the close's."""
    left = n
    for line in answer.bill:
        if line[0] != left or not could_be(line, window):
            return False
        left -= line[1]
    total = sum(applications for _, _, applications in answer.bill) + max(answer.degree - 1, 0)
    return len(answer.bill) == answer.passes and left == n - answer.degree and total == answer.applications


def holds_itself(system, answer):
    """What can be said of the answer alone: its vector's meaning, a monic f, zeros after it, its bill, its count of entries."""
    what, p, starts, columns, values, scales, b, words, window = system
    n, D = len(b), answer.degree
    if answer.harm or answer.refusal or answer.kind not in KINDS:
        return False
    image, entries = reference.times(p, starts, columns, values, answer.vector)
    right = image == b if answer.kind == 1 else any(answer.vector) and not any(image)
    shape = D <= n and answer.polynomial[D] == 1 and not any(answer.polynomial[D + 1:])
    counted = adds_up(answer, n, window) and answer.multiplied == answer.applications * entries
    return right and shape and answer.passes <= reference.vectors_of(n, words) + n and counted


def on_AX(system):
    """The system with AX in A's place and no scales."""
    what, p, starts, columns, values, scales, *rest = system
    return what, p, starts, columns, [value * scales[column] % p for column, value in zip(columns, values)], [], *rest


def is_X_times(system, answer, other):
    """Whether the answer is that of AX, and its vector X times that vector."""
    p, scales = system[1], system[SCALES]
    other.vector = [x * scale % p for x, scale in zip(other.vector, scales)]
    return answer.all() == other.all()


def by_reference(system):
    n = size_of(system)
    kind, F, vector, applications, multiplied, passes = reference.solver_steps(*system[1:])
    number = 1 if kind == 'solved' else 2
    bill = reference.bill_of(passes)
    return (number, len(F) - 1, len(passes), applications, multiplied, bill, vector, F + [0] * (n + 1 - len(F)))


def agrees_with_dense(report, answer):
    """The report: D, the rank of Ab, A²b, .., and f. The kind is solved exactly if b adds nothing to those."""
    degree, shifted, *f = [int(word) for word in report.split()]
    kind = 1 if shifted == degree else 2
    return (kind, degree, f) == (answer.kind, answer.degree, answer.polynomial[:answer.degree + 1])


def pari_lines(chosen):
    """For each system, a line as dense.cpp gives it."""
    script = ['report(p, A, b) = { my(n = #b, v = b, K = Mat(b), D, S, c);'
              ' for(i = 1, n, v = A * v; K = matconcat([K, v]));'
              ' D = matrank(K); S = matrank(K[, 2..n + 1]);'
              ' c = if(D, matinverseimage(K[, 1..D], K[, D + 1]), []~);'
              ' print1(D, " ", S); for(i = 1, D, print1(" ", lift(-c[i]))); print(" 1"); }']
    for what, p, starts, columns, values, scales, b, words, window in chosen:
        n = len(b)
        script.append('A = matrix(%d, %d) * Mod(1, %d);' % (n, n, p))
        for i in range(n):
            for k in range(starts[i], starts[i + 1]):
                script.append('A[%d, %d] = Mod(%d, %d);' % (i + 1, columns[k] + 1, values[k], p))
        if scales:
            script.append('A = A * matdiagonal([%s]);' % ', '.join(map(str, scales)))
        script.append('report(%d, A, [%s]~ * Mod(1, %d));' % (p, ', '.join(map(str, b)), p))
    done = subprocess.run(['gp', '-q', '-f'], input='\n'.join(script) + '\n', stdout=subprocess.PIPE, text=True)
    return done.stdout.splitlines()


class Tally:
    """Counts what was held to what, and prints the differences."""

    def __init__(self):
        self.held = collections.Counter()
        self.differ = 0

    def hold(self, tool, system, same):
        self.held[tool] += 1
        if not same:
            self.differ += 1
            print('DIFFERS from %s: %s' % (tool, system[0]))


def by_library(made):
    lines = tools.ask(tools.driver(), [line_of(system) for system in made])
    return [Answer(line, size_of(system)) for line, system in zip(lines, made)]


def with_ones(system):
    return (*system[:SCALES], [1] * size_of(system), *system[RIGHT:])


def compare(made, budget, packages):
    tally = Tally()
    lines = [line_of(system) for system in made]
    answers = by_library(made)

    for system, answer in zip(made, answers):
        tally.hold('the meaning of its vector, the sum of its bill and applications × entries', system,
                   holds_itself(system, answer))

    windowed = [(system, answer) for system, answer in zip(made, answers) if system[WINDOW] > 0]
    for (system, answer), other in zip(windowed, by_library([(*system[:WINDOW], 0) for system, answer in windowed])):
        tally.hold('itself without the window', system, other.verdict() == answer.verdict())

    scaled = [(system, answer) for system, answer in zip(made, answers) if system[SCALES]]
    for (system, answer), other in zip(scaled, by_library([on_AX(system) for system, answer in scaled])):
        tally.hold('itself on AX', system, is_X_times(system, answer, other))
    plain = [(system, answer) for system, answer in zip(made, answers) if not system[SCALES] and 0 < size_of(system) <= ONES_SIZE]
    for (system, answer), other in zip(plain, by_library([with_ones(system) for system, answer in plain])):
        tally.hold('itself with n ones', system, other.all() == answer.all())

    second = tools.ask(tools.build('second', 'second.cpp'), lines)
    for system, answer, line in zip(made, answers, second):
        tally.hold('the second implementation', system, Answer(line, size_of(system)).all() == answer.all())

    for system, answer in zip(made, answers):
        if size_of(system) <= REFERENCE_SIZE:
            tally.hold('the reference in Python', system, by_reference(system) == answer.all())

    dense = {'dense elimination': tools.build('dense', 'dense.cpp')}
    if packages:
        dense['FLINT'] = tools.build('dense-flint', 'dense.cpp', '-DWITH_FLINT', '-lflint', needed=False)
    for tool, program in dense.items():
        if program is None:
            print('%s is left out: it needs the package libflint-dev' % tool)
            continue
        for system, answer, report in zip(made, answers, tools.ask(program, lines, str(budget))):
            if report != 'skipped':
                tally.hold(tool, system, agrees_with_dense(report, answer))

    if packages and shutil.which('gp') is None:
        print('PARI is left out: it needs the package pari-gp')
    elif packages:
        # not of size 0, where the script's ranges of columns are empty
        chosen = [(s, a) for s, a in zip(made, answers) if 0 < size_of(s) <= PARI_SIZE]
        reports = pari_lines([system for system, answer in chosen])
        for (system, answer), report in zip(chosen, reports + [''] * len(chosen)):
            tally.hold('PARI', system, report != '' and agrees_with_dense(report, answer))

    return tally, answers


def gate_set():
    """Fixed: many small systems, some of a few hundred rows (one in ten of both without a row), many with a small p, half of
    all with scales, and two of the largest, one with a first pass of degree 0, a window and scales."""
    made = [systems.make(random.Random(k), 32) for k in range(300)]
    made += [systems.make(random.Random(1000 + k), 300) for k in range(30)]
    made += [systems.make(random.Random(2000 + k), 32, systems.SMALL_PRIMES[k % 5]) for k in range(300)]
    large = random.Random(5)
    for shape, p, zeros, window in ((systems.permutation, 2147483647, 0, 0), (systems.block, 65537, 4096, 64)):
        matrix = systems.slices(shape(large, p, 4096))
        b = [large.randrange(p) for _ in range(4096)]
        words = [0] * zeros + [large.randrange(2 ** 32) for _ in range(2 * 4096)]
        scales = [1 + large.randrange(p - 1) for _ in range(zeros)]
        made.append(('%s of 4,096 rows, window %d, %d scales' % (shape.__name__, window, len(scales)), p, *matrix, scales, b, words, window))
    return made


def beyond_32_bits():
    """As many entries as there can be, in a matrix of rank 16, and eight vectors of zeros before one that ends the run: over 2³²
    entries are multiplied."""
    source, p, n = random.Random(6), 2147483647, 4096
    columns = list(range(n - 16, n)) * n
    values = [1 + source.randrange(p - 1) for _ in columns]
    b = [source.randrange(p) for _ in range(n)]
    words = [0] * (8 * n) + [source.randrange(2 ** 32) for _ in range(n)]
    return 'over 2³² entries multiplied', p, list(range(0, 16 * n + 1, 16)), columns, values, [], b, words, 0


def main():
    parser = argparse.ArgumentParser(description='Holds the solver against other tools.')
    parser.add_argument('count', type=int, nargs='?', default=300)
    parser.add_argument('seed', type=int, nargs='?', default=1)
    parser.add_argument('--largest', type=int, default=4096, help='rows of the largest system')
    parser.add_argument('--budget', type=float, default=1e9, help='n × D × D up to which elimination is done')
    parser.add_argument('--gate', action='store_true', help='the small fixed set')
    chosen = parser.parse_args()

    began = time.time()
    if chosen.gate:
        made = gate_set()
    else:
        source = random.Random(chosen.seed)
        made = [systems.make(source, chosen.largest, source.choice(systems.SMALL_PRIMES) if k % 2 else None)
                for k in range(chosen.count)]
    made.append(beyond_32_bits())
    tally, answers = compare(made, 3e7 if chosen.gate else chosen.budget, not chosen.gate)

    kinds = collections.Counter(KINDS.get(answer.kind, 'refused') for answer in answers)
    several = sum(answer.passes > 1 for answer in answers)
    bills = [line for answer in answers for line in answer.bill]
    sizes = [size_of(system) for system in made]
    print('%d systems of %d to %d rows, %d of them of size 0, %d with a window, %d with scales that are not all 1: %s; %d with more '
          'than one pass; %d passes billed, of which %d ended early and %d went on after a test that failed; at most %d entries '
          'multiplied; %.0f seconds' % (
              len(made), min(sizes), max(sizes), sizes.count(0), sum(system[WINDOW] > 0 for system in made),
              sum(any(scale != 1 for scale in system[SCALES]) for system in made),
              ', '.join('%d %s' % (kinds[kind], kind) for kind in sorted(kinds)), several,
              len(bills), sum(saved(line) > 0 for line in bills), sum(saved(line) < 0 for line in bills),
              max(answer.multiplied for answer in answers), time.time() - began))
    for tool, held in tally.held.items():
        print('%6d held to %s' % (held, tool))
    print('compare: %d differ' % tally.differ)
    sys.exit(tally.differ != 0)


if __name__ == '__main__':
    main()
