#!/usr/bin/env python3
"""Calls of the text call and of the program's output, and what they must return and leave. ../test_io/generator.py says how it is run. The answers come
from the reference program (evidence/reference.py), which was written from document 01 alone.
"""
import pathlib
import random
import sys

sys.dont_write_bytecode = True
crates = pathlib.Path(__file__).resolve().parent.parent
sys.path[:0] = [str(crates / 'test_io'), str(crates.parent / 'evidence')]
import reference  # noqa: E402
from generator import FREE_BYTE, Place, Texts, printed, run, shown_bytes  # noqa: E402

LEAST, BUFFER = 7168, 26625
dice = random.Random(20261116)
calls, answers, numbers, texts = [], [], {}, Texts()


def add(text, room=LEAST, letter='c', buffer=BUFFER):
    """The call `c`, or the program's output `o` where the text is what was read into a buffer of so many bytes."""
    begin, end = texts.place(text)
    calls.append([['co'.index(letter), room, begin, end] + [Place(texts, begin.at + buffer)] * (letter == 'o')])
    lent = bytes([FREE_BYTE]) * room
    if letter == 'o':
        shown = reference.program(text) if room >= LEAST and len(text) <= buffer >= BUFFER else b''
        answers.append((printed(len(shown)) + shown_bytes(lent[len(shown):]) + '\n').encode() + shown)
        return
    answer = reference.text_call(text, lent)
    number = answer[1] if answer[0] == 'refused' else 0
    numbers[number] = numbers.get(number, 0) + 1
    if number:
        answers.append((printed(number) + shown_bytes(lent) + '\n').encode())
        return
    assert answer[1] > 18 and answer[2][answer[1]:] == lent[answer[1]:]
    answers.append((printed(answer[1]) + shown_bytes(lent[answer[1]:]) + '\n').encode() + answer[2][:answer[1]])


def text_of(p, n, a, b, count=None, end='end\n', s=()):
    rows = [('system', p, n, len(a) if count is None else count)] + [('a',) + e for e in a] + [('s',) + e for e in s] + [('b',) + e for e in b]
    return (''.join('\t'.join(str(x) for x in r) + '\n' for r in rows) + end).encode()


def system(p, n, entries, zeros=0.0, empty=0, least=1):
    """A random system: about so many entries, the share of zeros in b, rows left empty."""
    rows = list(range(1, n + 1))
    for i in dice.sample(rows, empty):
        rows.remove(i)
    places = [(i, j) for i in rows for j in range(1, n + 1)]
    chosen = sorted(dice.sample(places, min(entries, len(places))))
    a = [(i, j, dice.randrange(min(least, p - 1), p)) for i, j in chosen]
    b = [(i, dice.randrange(1, p)) for i in range(1, n + 1) if dice.random() >= zeros]
    return a, b


first = text_of(7, 2, [(1, 1, 2), (1, 2, 1), (2, 2, 3)], [(1, 1), (2, 1)])
diag = [(1, 1, 2), (2, 2, 3)]

# document 01's cases
for text in (
    first,
    text_of(7, 2, diag, [(1, 1), (2, 1)]),
    text_of(7, 2, diag, [(2, 1)]),
    text_of(7, 2, [(1, 2, 1)], [(2, 1)]),
    text_of(7, 2, [(1, 2, 1)], [(1, 1)]),
    text_of(7, 2, diag, []),
    text_of(2, 1, [(1, 1, 1)], [(1, 1)]),
    text_of(2147483647, 2, diag, [(1, 1), (2, 1)]),
    text_of(2147483646, 2, diag, [(1, 1), (2, 1)]),
    text_of(1, 2, diag, [(1, 1), (2, 1)]),
):
    add(text)
    add(text, letter='o')

# the bill: two passes, one of them of degree 0; three, the first of degree 0; as many as places, so that it is as long as can be
for passes, text in (
    (0, text_of(7, 2, diag, [])),
    (2, text_of(7, 2, diag, [(1, 1), (2, 1)])),
    (2, text_of(7, 2, diag, [(2, 1)])),
    (3, text_of(5, 3, [(1, 1, 1), (2, 2, 2), (3, 3, 3)], [(1, 1), (2, 1), (3, 1)])),
    (3, text_of(2, 3, [(2, 1, 1), (3, 2, 1)], [(2, 1)])),
    (128, text_of(2147483647, 128, [(i, i, 2147483647 - i) for i in range(1, 129)], [(i, i * i) for i in range(1, 129)])),
    (128, text_of(2147483647, 128, [(i, i, 2147483647 - i) for i in range(1, 129)], [(128, 1)])),
):
    for letter in 'co':
        add(text, letter=letter)
        assert answers[-1].count(b'\npass\t') == passes and answers[-1].count(b'\nclose\t') == 1

# no rows: no pass, f = 1 and no line of a vector; with a line of an entry or of b, with another count
for p in (2, 7, 2147483647):
    for letter in 'co':
        add(text_of(p, 0, [], []), letter=letter)
        assert answers[-1].endswith(b'\nanswer\tsolved\t0\t0\t0\t0\nclose\t0\nf\t0\t1\nend\n')
for number, text in (
    (2, text_of(7, '00', [], [])),
    (3, text_of(9, 0, [], [], 1)),
    (5, text_of(7, 0, [], [], 1)),
    (5, text_of(7, 0, [(1, 1, 1)], [], 0)),
    (6, text_of(7, 0, [(1, 1, 1)], [])),
    (6, text_of(7, 0, [(0, 0, 7)], [])),
    (6, text_of(7, 0, [], [(1, 1)])),
    (6, text_of(7, 0, [], [(0, 7)])),
):
    add(text)
    assert answers[-1].startswith(b' %d ' % number)
    add(text, 7167)
    add(text, letter='o')
for room in (0, 40, 7167, 7169):
    add(text_of(7, 0, [], []), room)
    add(text_of(7, 0, [], []), room, 'o')

# each size from 1 to 128; systems solved and singular, with restarts over small fields
for n in range(1, 129):
    p = dice.choice((2, 3, 7, 65537, 2147483647))
    add(text_of(p, n, *system(p, n, 4, 0.8)))
for p in (2, 3, 7, 65537, 2147483647):
    for n in (1, 2, 3, 9, 10, 30):
        for empty in (0, 1):
            add(text_of(p, n, *system(p, n, 3 * n, dice.choice((0.0, 0.5)), empty if n > 1 else 0)))
for p, n in ((2, 100), (3, 99), (7, 128), (65537, 127), (2147483647, 128)):
    add(text_of(p, n, *system(p, n, 4 * n)))
    add(text_of(p, n, *system(p, n, 4 * n, 0.5, 3)))

# the limits: 128 rows and 1,024 entries are taken, one more of either gets 11; the longest answers
high = 2147483647
most = system(high, 128, 1024, least=10 ** 9)
ring = [(i, i % 128 + 1, high - i) for i in range(1, 129)]
add(text_of(high, 128, *most))
add(text_of(high, 128, ring, [(1, high - 1)]))
add(text_of(high, 128, ring, [(1, high - 1)]), letter='o')
add(text_of(high, 128, *system(high, 128, 1025)))
for n in (129, 130, 4096):
    add(text_of(high, n, ring, [(1, 5)]))
    add(text_of(high, n, ring, [(1, 5)]), letter='o')
add(text_of(2, 128, [(i, j, 1) for i in range(1, 129) for j in range(1, 9)], [(128, 1)]))
add(text_of(2, 128, [(i, j, 1) for i in range(1, 129) for j in range(1, 9)] + [(128, 128, 1)], [(128, 1)]))
add(text_of(2, 128, [], [(128, 1)]))
add(text_of(2, 128, [], []))


def add_of_size(size, entries, number):
    """Both calls on a text of so many bytes, made of at most so many entries: they refuse it with this number."""
    a, b = system(high, 128, entries, least=10 ** 9)
    while len(text_of(high, 128, a, b)) > size + 20:
        a.pop()
    for k in range(3):
        excess = min(9, len(text_of(high, 128, a, b)) - size)
        a[k] = a[k][:2] + (a[k][2] // 10 ** excess,)
    text = text_of(high, 128, a, b)
    assert len(text) == size
    add(text)
    assert answers[-1].startswith(b' %d ' % number)
    add(text, letter='o')
    assert answers[-1].endswith(b'refused\t%d\n' % number)


# 24,576 bytes, and one more, which are read since there are scales
for size in (24576, 24577):
    add_of_size(size, 1200, 11)
add(first * 463 + first[:37])
add(first * 463 + first[:38])
add(first * 463 + first[:38], 0)
add(first * 463 + first[:38], letter='o')

# the output: a buffer of at least 26,625 bytes, with no more read than it has
for buffer in (0, len(first), 24576, 24577, 24578, 30000):
    for text in (b'', first, first * 463 + first[:38], first * 464):
        add(text, letter='o', buffer=buffer)

# the answer slice: at least 7,168 bytes, 11 after all other checks
for room in (0, 1, 18, 72, 4608, 7167, 7168, 7169, 7300):
    add(first, room)
    add(first, room, 'o')
for text in (
    first[:-1],
    text_of(9, 2, diag, []),
    text_of(7, 4097, [], []),
    text_of(7, 2, diag, [], 3),
    text_of(7, 2, diag[::-1], []),
    text_of(7, 2, diag, [(1, 7)]),
):
    add(text, 7167)
    add(text, 7300)
    add(text, letter='o')

# each refusal, and which comes first where two apply
faults = {
    2: lambda d: d.update(end='end'),
    3: lambda d: d.update(p=8),
    4: lambda d: d.update(n=4097),
    5: lambda d: d.update(count=9),
    6: lambda d: d.update(b=[(2, d['b'][0][1]), (2, 1)]),
    7: lambda d: d.update(b=[(d['b'][0][0], 8)] + d['b'][1:]),
    11: lambda d: d.update(n=max(129, d['n'])),
}
for i in faults:
    for j in faults:
        if i <= j:
            d = dict(p=7, n=3, a=[(1, 1, 1), (2, 3, 5)], b=[(1, 6)], count=2, end='end\n')
            faults[i](d)
            faults[j](d)
            add(text_of(**d))

# a byte changed, dropped or doubled
some = text_of(11, 3, [(1, 2, 10), (2, 1, 3), (3, 3, 4)], [(2, 5)])
for _ in range(40):
    i = dice.randrange(len(some))
    byte = bytes([dice.choice(b'\t\n 0159absx\0\xff')])
    add(dice.choice((some[:i] + byte + some[i + 1:], some[:i] + some[i + 1:], some[:i] + some[i:i + 1] + some[i:])))
add(b'')
add(b'', letter='o')

# scales: systems solved and singular, of another kind than A alone, with fewer passes and with more; sizes from 1 to 128, 128 of the widest numbers
full, tall = [(1, 1, 1), (1, 2, 1), (2, 1, 6), (2, 2, 6)], [(1, 1, 1), (1, 2, 2), (2, 1, 6), (2, 2, 5)]
for s in ([4, 5], [1, 5], [4, 1], [6, 6], [1, 2], [1, 4], [3, 2]):
    for a, b in ((diag, [(1, 1), (2, 1)]), ([(1, 1, 2), (2, 2, 2)], [(1, 1), (2, 1)]), ([(1, 2, 1)], [(2, 1)]), ([(1, 2, 1)], [(1, 1)]), (full, [(1, 1), (2, 6)]),
                 (tall, [(1, 1), (2, 6)]), ([], [(2, 3)]), (diag, [])):
        add(text_of(7, 2, a, b, s=list(enumerate(s, 1))))
        add(text_of(7, 2, a, b, s=list(enumerate(s, 1))), letter='o')
for n in (*range(1, 12), *range(12, 128, 9), 99, 100, 127, 128):
    p = dice.choice((3, 7, 65537, high))
    add(text_of(p, n, *system(p, n, 4, 0.8), s=[(j, dice.randrange(1, p)) for j in range(1, n)] + [(n, p - 1)]))
for p in (3, 7, 65537, high):
    for n in (1, 2, 3, 9, 10, 30):
        add(text_of(p, n, *system(p, n, 3 * n, dice.choice((0.0, 0.5)), dice.randrange(2) if n > 1 else 0), s=[(j, 1) for j in range(1, n)] + [(n, 2)]))
for p, n in ((3, 60), (65537, 50)):
    add(text_of(p, n, *system(p, n, 4 * n), s=[(j, dice.randrange(1, p)) for j in range(1, n)] + [(n, 2)]))
wide = [(j, high - j) for j in range(1, 129)]
add(text_of(high, 128, *most, s=wide))
add(text_of(high, 128, ring, [(1, high - 1)], s=wide))
add(text_of(high, 128, ring, [(1, high - 1)], s=wide), letter='o')
assert answers[-1].count(b'\nx\t') == 128
# .. that are refused: out of place (2), of another number than n (5), out of range or order or all of value 1 (6), of value 0 or at least p (7)
for number, s in ((5, [(1, 4)]), (5, [(2, 5)]), (5, [(1, 1)]), (5, [(1, 4), (2, 5), (3, 1)]), (5, [(0, 0)]), (6, [(1, 4), (3, 5)]), (6, [(0, 4), (1, 5)]), (6, [(2, 4), (1, 5)]),
                  (6, [(1, 4), (1, 5)]), (6, [(1, 1), (2, 1)]), (6, [(1, 0), (1, 7)]), (7, [(1, 0), (2, 5)]), (7, [(1, 1), (2, 0)]), (7, [(1, 7), (2, 5)]), (7, [(1, 4), (2, 7)]),
                  (7, [(1, 8), (2, 8)]), (7, [(1, 1), (2, 4294967295)]), (2, [(1,), (2,)]), (2, [(1, 4, 1), (2, 5, 1)]), (2, [(1, '04'), (2, 5)]), (2, [(1, 4294967296), (2, 5)])):
    text = text_of(7, 2, diag, [(1, 1), (2, 1)], s=s)
    add(text)
    assert answers[-1].startswith(b' %d ' % number)
    add(text, 7167)
    add(text, letter='o')
    assert answers[-1].endswith(b'refused\t%d\n' % number)
lines = text_of(7, 2, diag, [(1, 1), (2, 1)], s=[(1, 4), (2, 5)]).split(b'\n')[:-1]
for i in range(len(lines)):
    add(b'\n'.join(lines[:i] + lines[i + 1:]) + b'\n')
    add(b'\n'.join(lines[:i] + lines[i:i + 1] + lines[i:]) + b'\n')
    for j in range(i):
        add(b'\n'.join(lines[:j] + [lines[i]] + lines[j + 1:i] + [lines[j]] + lines[i + 1:]) + b'\n')
add(text_of(2, 1, [], [], s=[(1, 1)]))
add(text_of(2, 1, [], [], s=[(1, 2)]))
for n, s in ((0, [(1, 2)]), (129, [(1, 2)]), (129, [(j, 2) for j in range(1, 130)]), (129, [(j, 1) for j in range(1, 130)]), (4097, [(1, 2)])):
    add(text_of(7, n, [], [], s=s))
    add(text_of(7, n, [], [], s=s), letter='o')

# 26,624 bytes are read, 26,625 get 1, whatever they hold; the longest text that fits has 25,488
places = sorted(((i, j) for i in range(1, 129) for j in range(1, 129)), key=lambda c: -len('%d%d' % c))[:1024]
longest = text_of(high, 128, [(i, j, high - i * j) for i, j in sorted(places)], [(i, high - i) for i in range(1, 129)], s=wide)
assert len(longest) == 25488
for letter in 'co':
    add(longest, letter=letter)
for size in (26624, 26625):
    add_of_size(size, 1400, 11 if size == 26624 else 1)
beyond = first * 502 + first[:19]
assert len(beyond) == BUFFER
add(beyond[:-1])
add(beyond)
add(beyond, 0)
add(beyond, letter='o')
for buffer in (26624, 26625, 26626, 30000):
    for text in (b'', first, beyond[:-1], beyond):
        add(text, letter='o', buffer=buffer)

assert set(numbers) == {0, 1, 2, 3, 4, 5, 6, 7, 11}, numbers


def make():
    return texts.behind(calls), b''.join(answers), '%d calls %s' % (len(calls), sorted(numbers.items()))


run(__file__, make)
