#!/usr/bin/env python3
"""Makes the table (Markdown) and the picture (SVG) of what bench.cpp measured, and prints the ratios.

    bench/report.py TIMES TABLE PICTURE

Where TABLE is there already and has a line `<!-- bench: begin -->` and a line `<!-- bench: end -->`, only what stands
between them is replaced."""

import collections
import datetime
import math
import os
import re
import subprocess
import sys

OURS, PLAIN, LINBOX, ROWS, FLINT = 'Filzeur', 'plain C', 'LinBox', 'LinBox CSR', 'FLINT dense'
NAMES = [OURS, PLAIN, LINBOX, ROWS, FLINT]
WINDOWED, SCALED = 'Filzeur, window 20', 'Filzeur, scales'
LARGE = 2147483647
PRODUCTS = 64  # Contestant::products

# What is to be reached at the largest p: (operation, rows, entries in a row, beside whom, at most).
GOALS = [
    ('product', 4096, 16, LINBOX, 0.45),
    ('horner', 4096, 16, LINBOX, 0.45),
    ('recurrence', 4096, 16, LINBOX, 0.45),
    ('solve', 1000, 10, LINBOX, 0.55),
    ('solve', 2000, 16, LINBOX, 0.55),
    ('solve', 4096, 16, LINBOX, 0.55),
    ('solve', 4096, 4, LINBOX, 0.75),
    ('solve', 1000, 10, FLINT, 1.0),
    ('solve', 2000, 16, FLINT, 1.0),
    ('solve', 4096, 4, FLINT, 1.0),
    ('solve', 4096, 16, FLINT, 1.0),
]

# Runs of ours with an option beside runs without it: whose time, the option, and what is to be reached, of the time
# without it at 4,096 × 16.
OPTIONS = {
    'short': (WINDOWED, 'window 20', 0.22),
    'full': (WINDOWED, 'window 20', None),
    'scales': (SCALED, 'scales', 1.15),
}
OPTION_NAMES = [OURS, WINDOWED, SCALED, LINBOX, ROWS, 'LinBox of b', 'LinBox of b, CSR']

Key = collections.namedtuple('Key', 'what n k p')


class Times:
    def __init__(self, path):
        self.seconds = collections.defaultdict(dict)  # Key -> name -> seconds
        self.turns = collections.defaultdict(dict)  # Key -> name -> rounds that it took part in
        self.wrong = set()  # (Key, name) whose solve gave no right answer
        self.lent, self.memory = {}, collections.defaultdict(dict)
        self.says = collections.defaultdict(lambda: collections.defaultdict(collections.Counter))
        with open(path, encoding='utf-8') as lines:
            for line in lines:
                self.take(line.rstrip('\n').split('\t'))

    def take(self, fields):
        what = fields[0]
        if what == 'says':
            label, p, name, verdict, truth = fields[1:]
            self.says[label, int(p)][name][verdict + (', ' + truth if truth else '')] += 1
            return
        n, k, p = map(int, fields[1:4])
        if what == 'lent':
            self.lent[n] = int(fields[5])
        elif what == 'memory':
            self.memory[n][fields[4]] = int(fields[5])
        else:
            key = Key(what, n, k, p)
            name = fields[4].strip()
            self.seconds[key][name] = float(fields[5])
            self.turns[key][name] = int(fields[6])
            if what in ('solve', 'short', 'full', 'scales', 'growth', 'small') and fields[8] not in ('Ax = b', 'Aw = 0'):
                self.wrong.add((key, name))

    def rounds(self, *whats):
        """The most rounds that a row of these operations has."""
        return max((turns for key, row in self.turns.items() if key.what in whats for turns in row.values()), default=0)

    def remark(self, key, name):
        """What the reader of a time is to know: that it is of fewer rounds, that the answer was wrong."""
        turns = self.turns[key].get(name, 0)
        fewer = ['%d round%s' % (turns, 's' * (turns > 1))] if 0 < turns < self.rounds(key.what) else []
        wrong = ['no right answer'] if (key, name) in self.wrong else []
        return ' (%s)' % ', '.join(fewer + wrong) if fewer or wrong else ''

    def names(self):
        present = {name for row in self.seconds.values() for name in row}
        return [name for name in NAMES if name in present]

    def compiler(self, key):
        """The one that made the C of a kernel row, whose name it is."""
        return next(name for name in self.seconds[key] if name != OURS)

    def keys(self, what):
        return [key for key in self.seconds if key.what == what]


def count(number):
    return format(number, ',')


def ratio(times, key, name):
    row = times.seconds.get(key, {})
    return row[OURS] / row[name] if name in row and OURS in row else None


def show(number, digits=2):
    return '' if number is None else '%.*f' % (digits, number)


def rows_of(table, align='---:'):
    """Markdown of a list of rows, the first being the head."""
    head, *body = table
    lines = ['| ' + ' | '.join(head) + ' |', '|' + '|'.join(['---'] + [align] * (len(head) - 1)) + '|']
    return '\n'.join(lines + ['| ' + ' | '.join(row) + ' |' for row in body])


def operation_table(times, what, scale, digits):
    """A row for each size and prime; scale gives the printed number of a time in seconds."""
    keys = times.keys(what)
    names = [name for name in times.names() if any(name in times.seconds[key] for key in keys)]
    others = names[1:]
    table = [['rows × entries, p'] + names + ['to ' + name for name in others]]
    for key in keys:
        row = ['%s × %d, %s' % (count(key.n), key.k, count(key.p))]
        for name in names:
            seconds = times.seconds[key].get(name)
            row.append('' if seconds is None else show(scale(key, seconds), digits) + times.remark(key, name))
        row += [show(ratio(times, key, name)) for name in others]
        table.append(row)
    return rows_of(table)


def goal_table(times):
    words = {'product': 'product, a single call', 'horner': 'product, in a polynomial of the matrix',
             'recurrence': 'recurrence', 'solve': 'solve'}
    table = [['p = %s' % count(LARGE), 'beside', 'at most', 'measured', '']]
    for what, n, k, name, most in GOALS:
        measured = ratio(times, Key(what, n, k, LARGE), name)
        if measured is not None:
            size = '%s terms' % count(2 * n) if what == 'recurrence' else '%s × %d' % (count(n), k)
            table.append(['%s, %s' % (words[what], size), name, show(most), show(measured),
                          'reached' if measured <= most else 'missed by %.2f' % (measured - most)])
    return rows_of(table)


def growth_table(times):
    keys = sorted(times.keys('growth'), key=lambda key: key.n)
    table = [['solve, milliseconds'] + ['n = %s' % count(key.n) for key in keys] + ['exponent']]
    for name in times.names():
        taken = [times.seconds[key].get(name) for key in keys]
        if None in taken:
            continue
        exponent = math.log(taken[-1] / taken[0]) / math.log(keys[-1].n / keys[0].n)
        cells = [show(1e3 * seconds, 1) + times.remark(key, name) for key, seconds in zip(keys, taken)]
        table.append([name] + cells + [show(exponent)])
    return rows_of(table)


def memory_table(times):
    sizes = sorted(times.lent)
    table = [['kilobytes'] + ['n = %s' % count(n) for n in sizes]]
    table.append(['lent to Filzeur (matrix, b, words, results, work)'] + [show(times.lent[n] / 1e3, 0) for n in sizes])
    for name in times.names():
        table.append(['taken by the solve: ' + name] + [show(times.memory[n][name] / 1e3, 0) for n in sizes])
    return rows_of(table)


def says_table(times):
    table = [['system'] + times.names()]
    for (label, p), answers in times.says.items():
        row = ['%s, p = %s' % (re.sub(r'\d{4,}', lambda m: count(int(m[0])), label), count(p))]
        for name in times.names():
            row.append('<br>'.join('%d × %s' % (number, words) for words, number in answers[name].most_common()))
        table.append(row)
    return rows_of(table, '---')


def small_table(times):
    names = ['number call', 'text call', PLAIN]
    table = [['rows × entries, p'] + names]
    for key in times.keys('small'):
        row = times.seconds[key]
        table.append(['%d × %d, %s' % (key.n, key.k, count(key.p))] +
                     [show(1e6 * row[name], 1) + times.remark(key, name) for name in names])
    return rows_of(table)


def option_table(times, what):
    """Milliseconds, and our time with the option divided by that without it, and by LinBox's."""
    with_option, option, _ = OPTIONS[what]
    keys = times.keys(what)
    names = [name for name in OPTION_NAMES if any(name in times.seconds[key] for key in keys)]
    others = [name for name in names if name != with_option]
    table = [['rows × entries, p'] + names + [option + ' to ' + ('none' if name == OURS else name) for name in others]]
    for key in keys:
        row = times.seconds[key]
        table.append(['%s × %d, %s' % (count(key.n), key.k, count(key.p))] +
                     [show(1e3 * row[name], 1) + times.remark(key, name) if name in row else '' for name in names] +
                     [show(row[with_option] / row[name], 3) if name in row else '' for name in others])
    return rows_of(table)


def option_goal(times, what):
    with_option, option, most = OPTIONS[what]
    shares = [times.seconds[key][with_option] / times.seconds[key][OURS] for key in times.keys(what) if key.n == 4096]
    if not shares:
        return 'Too small for the goal, which is of 4,096 rows.'
    reached = 'reached' if max(shares) <= most else 'missed by %.3f' % (max(shares) - most)
    return 'With %s at most %.3f of the time without; at most %.2f was to be reached: %s.' % (
        option, max(shares), most, reached)


def kernel_table(times):
    table = [['rows × entries', OURS, 'C', 'ratio']]
    for key in times.keys('kernel'):
        ours, other = (1e9 * times.seconds[key][name] / (key.n * key.k) for name in (OURS, times.compiler(key)))
        table.append(['%s × %d' % (count(key.n), key.k), show(ours, 3), show(other, 3), show(ours / other)])
    return rows_of(table)


def output(*command):
    try:
        return subprocess.run(command, stdout=subprocess.PIPE, stderr=subprocess.DEVNULL, text=True).stdout.strip()
    except FileNotFoundError:
        return ''


def machine():
    """The processor, the compiler and the packages; no name of the machine."""
    with open('/proc/cpuinfo', encoding='utf-8') as lines:
        found = re.search(r'model name\s*: (.*)', lines.read())
    said = [found.group(1) if found else 'unknown processor', '%d processors' % os.cpu_count(),
            'gcc ' + output('gcc', '-dumpfullversion'), 'flags `%s`' % os.environ.get('BENCH_FLAGS', '-O3')]
    for package in ('liblinbox-dev', 'libgivaro-dev', 'fflas-ffpack', 'libflint-dev'):
        version = output('dpkg-query', '-W', '-f', '${Version}', package)
        if version:
            said.append('%s %s' % (package, version))
    return ', '.join(said)


def page(times, picture):
    """All sections that there are rows for, in Markdown."""
    rounds = times.rounds('product', 'horner', 'recurrence', 'solve', 'short', 'full', 'scales', 'growth')
    parts = ['%s. %s.' % (datetime.date.today().isoformat(), machine())]
    if rounds:
        parts[0] += (' Each time is the least of %d rounds in one process, in which the programs took turns; where a '
                     'program sat out some rounds, its number of rounds stands beside it. "To X" is our time divided by '
                     'that of X.' % rounds)
    if times.keys('solve'):
        parts += [
            '![Times beside LinBox](%s)' % picture,
            '## What was to be reached', goal_table(times),
            '## Whole solve, milliseconds', operation_table(times, 'solve', lambda key, t: 1e3 * t, 1),
            '## Products in a polynomial of the matrix, nanoseconds for an entry',
            '%d products by Horner\'s rule, the input checked once: what a solve is made of.' % PRODUCTS,
            operation_table(times, 'horner', lambda key, t: 1e9 * t / PRODUCTS / (key.n * key.k), 2),
            '## A single product, nanoseconds for an entry', 'Ours with all checks of its input.',
            operation_table(times, 'product', lambda key, t: 1e9 * t / (key.n * key.k), 2),
            '## Shortest recurrence of 2n terms, milliseconds',
            operation_table(times, 'recurrence', lambda key, t: 1e3 * t, 2)]
    if times.keys('short'):
        parts += [
            '## A window of 20, whole solve, milliseconds',
            'b lies in a space of n / 10 places that A takes into itself, so f has degree n / 10. LinBox\'s solver ends early '
            'by itself, but its sequence is that of a random vector, not of b, so it meets A\'s own polynomial, of degree '
            'n. "LinBox of b" is made of the same parts of LinBox for the sequence of b, with a threshold of 20, and '
            'trusts what it finds until it checks Ax = b.',
            option_table(times, 'short'), option_goal(times, 'short'),
            'f of degree n, so that no test is ever due: what a window costs where it saves nothing.',
            option_table(times, 'full')]
    if times.keys('scales'):
        parts += [
            '## Scaled columns, whole solve, milliseconds',
            'The same system with random scales, 1 to p − 1, and without: with them the run is on AX, and the answer is '
            'multiplied by X. Both answers were multiplied out with A itself.',
            option_table(times, 'scales'), option_goal(times, 'scales')]
    if times.keys('small'):
        parts += ['## Small systems, microseconds',
                  'As the text call has them, without random words, least of %d rounds. The text call also reads the '
                  'system and writes the answer; plain C makes no checks.' % times.rounds('small'), small_table(times)]
    for key in times.keys('kernel')[:1]:
        parts += ['## Our row product beside the same in C, nanoseconds for an entry',
                  'A polynomial of the matrix, 256 products, by turns on the same slices; p = %s. The C has the arithmetic '
                  'of our row product, inlined by %s. Least of %d rounds with the code at each of four places modulo 64 '
                  'bytes.' % (count(key.p), times.compiler(key), times.rounds('kernel')), kernel_table(times)]
    if times.keys('growth'):
        parts += ['## How cost grows', '16 entries in a row, p = %s.' % count(LARGE), growth_table(times)]
    if times.lent:
        parts += ['## Memory', 'What a process grew by during the solve, beyond the prepared input (resident pages).',
                  memory_table(times)]
    if times.says:
        parts += ['## What each says', 'LinBox with its default settings; the answers of several systems of each sort. '
                  '"Ax is not b" is a wrong answer. Filzeur\'s "singular" comes with a vector that A takes to zero; it '
                  'does not say that there is no solution.', says_table(times)]
    return '\n\n'.join(parts) + '\n'


def write_page(path, text):
    begin, end = '<!-- bench: begin -->', '<!-- bench: end -->'
    before, after = '# Benchmarks\n\nMade by `bench/run`.\n\n', ''
    if os.path.exists(path):
        with open(path, encoding='utf-8') as file:
            old = file.read()
        if begin in old and end in old:
            before, after = old[:old.index(begin)], old[old.index(end) + len(end):]
    with open(path, 'w', encoding='utf-8') as file:
        file.write(before + begin + '\n' + text + end + (after or '\n'))


# ---- the picture

COLOURS = {OURS: '#1b6ca8', PLAIN: '#8a8a8a', LINBOX: '#d98324', ROWS: '#ecc08c', FLINT: '#6a9f58'}
LEFT, WIDTH, BAR, GAP = 190, 480, 13, 16
MOST = 2.5  # a longer bar is cut there, with its number beside it


def picture(times):
    """Bars: the time of each, LinBox's being 1."""
    groups = []
    for what, words in (('horner', 'product'), ('recurrence', 'recurrence'), ('solve', 'solve')):
        for key in times.keys(what):
            if key.p == LARGE and (what == 'solve' or (key.k == 16 and key.n >= 4000)):
                groups.append(('%s, %s × %d' % (words, count(key.n), key.k), times.seconds[key]))
    base = LINBOX if LINBOX in times.names() else PLAIN
    parts, y = [], 56
    for label, row in groups:
        names = [name for name in times.names() if name in row]
        middle = y + BAR * len(names) / 2 + 4
        parts.append('<text x="%d" y="%.0f" text-anchor="end">%s</text>' % (LEFT - 10, middle, label))
        for name in names:
            share = row[name] / row[base]
            length = WIDTH / MOST * min(share, MOST)
            parts.append('<rect x="%d" y="%d" width="%.1f" height="%d" fill="%s"/>' % (
                LEFT, y, length, BAR - 2, COLOURS[name]))
            parts.append('<text x="%.1f" y="%d" class="number">%.2f</text>' % (LEFT + length + 5, y + BAR - 3, share))
            y += BAR
        y += GAP
    one = LEFT + WIDTH / MOST
    parts.insert(0, '<line x1="%.1f" y1="48" x2="%.1f" y2="%d" stroke="#444" stroke-dasharray="3 3"/>' % (one, one, y - 8))
    legend, x = [], 16
    for name in times.names():
        legend.append('<rect x="%d" y="28" width="11" height="11" fill="%s"/>' % (x, COLOURS[name]))
        legend.append('<text x="%d" y="38">%s</text>' % (x + 16, name))
        x += 34 + 7 * len(name)
    return '\n'.join([
        '<svg xmlns="http://www.w3.org/2000/svg" width="740" height="%d" font-family="sans-serif" font-size="12">' % y,
        '<style>.number { font-size: 10px; fill: #444; paint-order: stroke; stroke: white; stroke-width: 3px }</style>',
        '<rect width="100%" height="100%" fill="white"/>',
        '<text x="16" y="18" font-weight="bold">Time beside %s (= 1), p = %s; shorter is faster</text>' % (
            base, count(LARGE)), *legend, *parts, '</svg>', ''])


def main():
    if len(sys.argv) != 4:
        sys.exit(__doc__)
    times = Times(sys.argv[1])
    write_page(sys.argv[2], page(times, os.path.relpath(sys.argv[3], os.path.dirname(sys.argv[2]) or '.')))
    with open(sys.argv[3], 'w', encoding='utf-8') as file:
        file.write(picture(times))
    for key, row in times.seconds.items():
        beside = ['%s %s' % (name, show(ratio(times, key, name))) for name in times.names()[1:] if name in row]
        if OURS in row and beside:
            print('%-10s %5d x %2d  p = %-10d  ours to %s' % (key.what, key.n, key.k, key.p, ', '.join(beside)))
    for what, table in (('solve', goal_table), ('small', small_table), ('kernel', kernel_table)):
        if times.keys(what):
            print('\n' + table(times))
    for what, (_, _, most) in OPTIONS.items():
        if times.keys(what):
            print('\n' + option_table(times, what) + ('\n\n' + option_goal(times, what) if most else ''))
    print('\nwritten: %s and %s' % tuple(sys.argv[2:4]))


if __name__ == '__main__':
    main()
