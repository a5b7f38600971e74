#!/usr/bin/env python3
"""Holds the programs to the reference in Python: what they print, byte for byte.

    evidence/program.py

Runs crates/solve/out/solve (what `rt run` in crates/solve and `rt ci` leave, or what FILZEUR_PROGRAM names) on texts of each refusal and at the
limits of document 01, given at once and in pieces; and crates/inverses/out/inverses once, whose numbers are also held to those of the field's table
in the source. Exit status 0: nothing differs."""

import collections
import os
import re
import subprocess
import sys
import time

import reference
import tools

PROGRAM = os.environ.get('FILZEUR_PROGRAM', os.path.join(tools.ROOT, 'crates', 'solve', 'out', 'solve'))
INVERSES = os.path.join(tools.ROOT, 'crates', 'inverses', 'out', 'inverses')
TABLE = os.path.join(tools.ROOT, 'crates', 'field', 'src', 'table.rt')
HIGH = 2147483647
LIMIT = reference.CALL_TEXT


def text_of(p, n, a, b, count=None, end=('end',), s=()):
    lines = [('a', *e) for e in a] + [('s', *e) for e in s] + [('b', *e) for e in b]
    return b''.join(reference.line(*fields) for fields in [('system', p, n, len(a) if count is None else count), *lines, end])


def longest(scaled=True):
    """The longest text that is accepted: 1,024 entries in the places with the most digits, 128 scales and elements of b, ten digits in each
    value. It has 25,488 bytes, so that no text of 26,624 is accepted: a good one of that length has more than 1,024 entries and gets 11."""
    wide = range(100, 129)
    places = [(i, j) for i in wide for j in wide] + [(i, j) for j in (100, 115, 128) for i in range(10, 100)]
    a = [(i, j, HIGH - 1 - i * j) for i, j in sorted(places[:1024])]
    s = [(j, HIGH - 2 * j) for j in range(1, 129)]
    return text_of(HIGH, 128, a, [(i, HIGH - i) for i in range(1, 129)], s=s if scaled else ())


def in_form(length):
    """A text of that length that only 1 and 11 turn down: as many entries as it takes, the values of a few shortened."""
    places = [(i, j) for i in range(1, 129) for j in range(1, 13)]
    b = [(i, 1) for i in range(1, 129)]
    a = []
    while len(text_of(HIGH, 128, a, b)) < length:
        # a line has at most 21 bytes
        count = len(a) + max(1, (length - len(text_of(HIGH, 128, a, b))) // 21)
        a = [(i, j, HIGH - 1) for i, j in places[:count]]
    for k in range(3):
        more = min(9, len(text_of(HIGH, 128, a, b)) - length)
        a[k] = a[k][:2] + (a[k][2] // 10 ** more,)
    text = text_of(HIGH, 128, a, b)
    assert len(text) == length and len(a) > reference.CALL_ENTRIES
    return text


def texts():
    """The number that a text gets, 0 where it is accepted, and the text."""
    two = [(1, 1, 2), (1, 2, 1), (2, 2, 3)]
    ones = [(1, 1), (2, 1)]
    first = text_of(7, 2, two, ones)
    ring = [(i, i % 128 + 1, HIGH - i) for i in range(1, 129)]
    band = [(i, j, i + j) for i in range(1, 129) for j in range(max(1, i - 1), min(128, i + 1) + 1)]

    assert len(longest()) == 25488

    # accepted: document 01's first case, solved and singular systems, no pass and two and 128 of them, 128 rows, 1,024 entries,
    # the longest texts, no rows
    yield 0, first
    yield 0, text_of(7, 2, [(1, 1, 2), (2, 2, 3)], ones)
    yield 0, text_of(7, 2, [(1, 1, 2), (2, 2, 3)], [(2, 1)])
    yield 0, text_of(HIGH, 128, [(i, i, HIGH - i) for i in range(1, 129)], [(i, 1) for i in range(1, 129)])
    yield 0, text_of(7, 2, [(1, 2, 1)], [(1, 1)])
    yield 0, text_of(7, 2, two, [])
    yield 0, text_of(2, 1, [(1, 1, 1)], [(1, 1)])
    yield 0, text_of(HIGH, 128, ring, [(1, HIGH - 1)])
    yield 0, text_of(HIGH, 128, ring[:-1], [(1, HIGH - 1), (128, 5)])
    yield 0, text_of(65537, 128, band, [(i, i) for i in range(1, 129)])
    yield 0, text_of(2, 128, [(i, j, 1) for i in range(1, 129) for j in range(1, 9)], [(1, 1)])
    yield 0, longest()
    yield 0, longest(scaled=False)
    for p in (2, 7, HIGH):
        yield 0, text_of(p, 0, [], [])

    # .. and with scales: solved, singular, one pass where there were two and three, two where there was one, another kind than that
    # of A alone, 128 of them, 1 but for the first and but for the last, no entries, b = 0
    for s in ([4, 5], [1, 5], [4, 1], [6, 6]):
        yield 0, text_of(7, 2, [(1, 1, 2), (2, 2, 3)], ones, s=list(enumerate(s, 1)))
        yield 0, text_of(7, 2, [(1, 1, 2), (2, 2, 2)], ones, s=list(enumerate(s, 1)))
        yield 0, text_of(7, 2, [(1, 2, 1)], [(2, 1)], s=list(enumerate(s, 1)))
    yield 0, text_of(7, 2, [(1, 1, 1), (1, 2, 1), (2, 1, 6), (2, 2, 6)], [(1, 1), (2, 6)], s=[(1, 1), (2, 2)])
    yield 0, text_of(7, 2, [(1, 1, 1), (1, 2, 2), (2, 1, 6), (2, 2, 5)], [(1, 1), (2, 6)], s=[(1, 1), (2, 4)])
    yield 0, text_of(7, 3, [(1, 1, 6), (2, 2, 3), (3, 1, 5), (3, 3, 2)], [(1, 2), (2, 2), (3, 1)], s=[(1, 4), (2, 1), (3, 6)])
    yield 0, text_of(3, 1, [], [], s=[(1, 2)])
    yield 0, text_of(HIGH, 128, ring, [(1, HIGH - 1)], s=[(j, HIGH - j) for j in range(1, 129)])
    yield 0, text_of(HIGH, 128, ring[:-1], [(1, HIGH - 1), (128, 5)], s=[(j, j) for j in range(1, 129)])
    yield 0, text_of(65537, 128, band, [(i, i) for i in range(1, 129)], s=[(j, 1 + (j == 128)) for j in range(1, 129)])

    # 1 only from 26,625 bytes on, whatever they hold; so too where what comes before, up to that place, is a text of its own
    for length in (24576, 24577, LIMIT, LIMIT + 1, LIMIT + 2, 100000):
        yield 1 if length > LIMIT else 2, b'x' * length
        yield 1 if length > LIMIT else 2, (first * (length // len(first) + 1))[:length]
    yield 11, in_form(LIMIT)
    yield 11, in_form(24577)
    yield 1, in_form(LIMIT + 1)
    for more in (1, 4, 1000, 40000, 75424):
        yield 1, in_form(LIMIT) + b'\n' * more
        yield 1, in_form(LIMIT) + (b'end\n' * more)[:more]
    for length in (LIMIT, LIMIT + 1, 30000):
        yield 1 if length > LIMIT else 2, longest() + b'\n' * (length - len(longest()))

    # 2: nothing, parts of a text, and lines that are not in form or not in order
    yield 2, b''
    yield 2, b'\n'
    yield 2, first[:-1]
    yield 2, first[1:]
    yield 2, first + b'\n'
    yield 2, first + first
    yield 2, first.replace(b'\t', b' ')
    yield 2, first.replace(b'\n', b'\r\n')
    yield 2, first.replace(b'a\t1\t1', b'a\t1\t01')
    yield 2, first.replace(b'a\t1\t1\t2', b'a\t1\t1\t4294967296')
    yield 2, first.replace(b'b\t2\t1\n', b'b\t2\t1\na\t2\t2\t3\n')
    yield 2, text_of(7, 2, two, ones, end=('eof',))

    # 3 to 7, and 11: each cause by itself
    for p in (0, 1, 4, 561, HIGH - 1, HIGH + 1, 4294967291):
        yield 3, text_of(p, 2, two, ones)
    for n in (4097, 4294967295):
        yield 4, text_of(7, n, two, ones)
        yield 4, text_of(7, n, [], [])
    for count in (0, 2, 4, 65537):
        yield 5, text_of(7, 2, two, ones, count)
    yield 6, text_of(7, 2, [(0, 1, 2)], ones)
    yield 6, text_of(7, 2, [(3, 1, 2)], ones)
    yield 6, text_of(7, 2, [(1, 0, 2)], ones)
    yield 6, text_of(7, 2, [(1, 3, 2)], ones)
    yield 6, text_of(7, 2, two[::-1], ones)
    yield 6, text_of(7, 2, [two[1], two[0], two[2]], ones)
    yield 6, text_of(7, 2, [two[0], two[0]], ones)
    yield 6, text_of(7, 2, two, [(0, 1)])
    yield 6, text_of(7, 2, two, [(3, 1)])
    yield 6, text_of(7, 2, two, ones[::-1])
    yield 6, text_of(7, 2, two, [(1, 1), (1, 1)])
    for value in (0, 7, 8, 4294967295):
        yield 7, text_of(7, 2, [(1, 1, value)], ones)
        yield 7, text_of(7, 2, two, [(2, value)])

    # `s` lines: out of form and out of place, too few and too many, out of range and out of order, all of value 1, no scales
    scaled = text_of(7, 2, two, ones, s=[(1, 4), (2, 5)])
    s, head, tail = b's\t1\t4\ns\t2\t5\n', b'system\t7\t2\t3\n', b'b\t1\t1\nb\t2\t1\nend\n'
    yield 0, scaled
    yield 2, first.replace(b'end', s + b'end')
    yield 2, first.replace(b'b\t2', s + b'b\t2')
    yield 2, first.replace(b'a\t1\t1', s + b'a\t1\t1')
    yield 2, first.replace(b'a\t2\t2', s + b'a\t2\t2')
    yield 2, s + first
    yield 2, head + s + first[len(head):]
    yield 2, first + s
    for old, new in ((b's\t1\t4', b's\t1'), (b's\t1\t4', b's\t1\t4\t4'), (b's\t1\t4', b's'), (b's\t1\t4', b's\t1\t04'), (b's\t1', b's 1'), (b's\t1', b'S\t1'),
                     (b's\t1\t4', b's\t1\t4294967296'), (b's\t1\t4', b'\ns\t1\t4')):
        yield 2, scaled.replace(old, new)
    yield 2, scaled[:scaled.index(tail)]
    for lines in ([(1, 4)], [(2, 5)], [(1, 1)], [(1, 4), (2, 5), (2, 5)], [(1, 4), (2, 5), (3, 1)], [(0, 0)]):
        yield 5, text_of(7, 2, two, ones, s=lines)
        yield 5, text_of(7, 129, [], [], s=lines)
    yield 5, text_of(7, 2, two, ones, 2, s=[(1, 4), (2, 5)])
    for lines in ([(1, 4), (3, 5)], [(0, 4), (1, 5)], [(0, 4), (2, 5)], [(2, 4), (1, 5)], [(1, 4), (1, 5)], [(2, 4), (2, 5)], [(1, 1), (2, 1)], [(1, 0), (1, 7)],
                  [(1, 4), (4294967295, 5)]):
        yield 6, text_of(7, 2, two, ones, s=lines)
    yield 6, text_of(2, 1, [], [], s=[(1, 1)])
    yield 6, text_of(7, 128, [], [], s=[(j, 1) for j in range(1, 129)])
    yield 6, text_of(7, 2, [(1, 1, 7)], ones, s=[(1, 1), (2, 1)])
    for value in (0, 7, 8, 4294967295):
        yield 7, text_of(7, 2, two, ones, s=[(1, value), (2, 5)])
        yield 7, text_of(7, 2, two, ones, s=[(1, 1), (2, value)])
    yield 7, text_of(2, 1, [], [], s=[(1, 2)])
    for n in (129, 2000):
        yield 11, text_of(7, n, [], [], s=[(j, 1 + j % 6) for j in range(1, n + 1)])
    for n in (129, 4096):
        yield 11, text_of(HIGH, n, ring, [(1, 5)])
    yield 11, text_of(2, 128, [(i, j, 1) for i in range(1, 129) for j in range(1, 9)] + [(128, 9, 1)], [])

    # no rows, so that no line of an entry or of b is in range
    yield 2, text_of(7, '00', [], [])
    yield 2, text_of(7, '', [], [])
    yield 2, text_of(7, 0, [], [], end=('end', ''))
    yield 3, text_of(9, 0, [], [], 1)
    yield 5, text_of(7, 0, [], [], 1)
    yield 5, text_of(7, 0, two, ones, 0)
    yield 6, text_of(7, 0, two, ones)
    for row in (0, 1, 4294967295):
        yield 6, text_of(7, 0, [(row, row, 1)], [])
        yield 6, text_of(7, 0, [], [(row, 1)])
        yield 5, text_of(7, 0, [], [], s=[(row, 2)])
    yield 6, text_of(7, 0, [], [(1, 7)])

    # two causes: the first in order is told
    causes = [(3, dict(p=8)), (4, dict(n=4097)), (5, dict(count=9)), (6, dict(b=[(2, 1), (2, 1)])), (7, dict(a=[(1, 1, 0)])), (7, dict(s=[(1, 0), (2, 2)])),
              (6, dict(s=[(2, 2), (2, 2)])), (6, dict(s=[(1, 1), (2, 1)])), (5, dict(s=[(1, 2)]))]
    right = dict(p=7, n=2, a=[(1, 1, 2)], b=ones, count=1)
    for k, (number, cause) in enumerate(causes):
        for other, later in causes[k + 1:]:
            if cause.keys() != later.keys():
                yield min(number, other), text_of(**{**right, **later, **cause})
        yield 2, text_of(**{**right, **cause}, end=('end', ''))


def cuts(text):
    """How a text is given: at once, and in pieces of a few sizes, the last byte by itself."""
    yield [text]
    yield [text[:-1], text[-1:]]
    if 0 < len(text) <= 100:
        yield [text[k:k + 7] for k in range(0, len(text), 7)]
    if 1000 < len(text) <= LIMIT + 1:
        yield [text[k:k + 4096] for k in range(0, len(text), 4096)]
        yield [text[k:k + 1500] for k in range(0, len(text), 1500)]


def printed(pieces):
    """What the program prints and its exit status; it may end before all is read."""
    process = subprocess.Popen([PROGRAM], stdin=subprocess.PIPE, stdout=subprocess.PIPE)
    try:
        for k, piece in enumerate(pieces):
            if k:
                time.sleep(0.001)  # so that the pieces are read one by one
            process.stdin.write(piece)
            process.stdin.flush()
    except BrokenPipeError:
        pass
    try:
        process.stdin.close()
    except BrokenPipeError:
        pass
    answer = process.stdout.read()
    process.stdout.close()
    return answer, process.wait()


def inverses_differ():
    """How many lines of what `inverses` prints differ from the reference's, and how many of its numbers from the table's."""
    expected = reference.inverses_program()
    run = subprocess.run([INVERSES], stdin=subprocess.DEVNULL, stdout=subprocess.PIPE)
    got, right = run.stdout.split(b'\n'), expected.split(b'\n')
    with open(TABLE, encoding='utf-8') as source:
        listed = re.search(r'\[u8; 250\] = \[([\d,\s]*)\];', source.read())
    table = re.findall(r'\d+', listed[1]) if listed else []
    numbers = [line.split(b'\t')[2].decode() for line in right if line]
    assert right[:2] + right[249:] == [b'i\t1\t1', b'i\t2\t126', b'i\t250\t250', b'']
    lines = sum(a != b for a, b in zip(got, right)) + abs(len(got) - len(right))
    entries = sum(a != b for a, b in zip(table, numbers)) + abs(len(table) - len(numbers))
    print('inverses: %d lines differ, status %d; %d entries of the table differ' % (lines, run.returncode, entries))
    return lines + entries + (run.returncode != 0)


def main():
    if len(sys.argv) > 1:
        sys.exit(__doc__)
    for program in (PROGRAM, INVERSES):
        if not os.path.exists(program):
            sys.exit('no program at %s (`rt ci` makes it, and `rt run` in its crate; FILZEUR_PROGRAM names another `solve`)' % program)
    began = time.time()
    refusals, runs, differ = collections.Counter(), 0, 0
    for number, text in texts():
        refusals[number] += 1
        expected = reference.program(text)
        assert expected.startswith(b'refused\t%d\n' % number if number else b'answer\t'), (number, text[:80], expected[:80])
        for pieces in cuts(text):
            runs += 1
            got = printed(pieces)
            if got != (expected, 0):
                differ += 1
                print('DIFFERS: %d bytes in %d pieces, %.80r\n   got: %.80r, status %d\n   not: %.80r' % (
                    len(text), len(pieces), text, *got, expected))
    print('%d texts in %d runs, %d accepted; refused: %s; %.0f seconds' % (
        sum(refusals.values()), runs, refusals[0],
        ', '.join('%d × %d' % (refusals[k], k) for k in sorted(refusals) if k), time.time() - began))
    differ += inverses_differ()
    print('programs: %d differ' % differ)
    sys.exit(differ != 0)


if __name__ == '__main__':
    main()
