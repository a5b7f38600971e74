#!/usr/bin/env python3
"""Calls of the reader and the writer of systems' texts, and what they must answer and leave. ../test_io/generator.py says how it is run. The answers come
from the reference program (evidence/reference.py), which was written from document 01 alone.
"""
import pathlib
import random
import sys

sys.dont_write_bytecode = True
crates = pathlib.Path(__file__).resolve().parent.parent
sys.path[:0] = [str(crates / 'test_io'), str(crates.parent / 'evidence')]
import reference  # noqa: E402
from generator import FREE, FREE_BYTE, Texts, printed, run, shown, shown_bytes  # noqa: E402

calls, answers, texts = [], [], Texts()
# the places of starts, columns, values, scales and b
ROOM = {'s': (20, 20, 20, 20, 20), '0': (4, 2, 2, 3, 3), '1': (3, 2, 2, 3, 3), '2': (4, 1, 2, 3, 3), '3': (4, 2, 1, 3, 3), '4': (4, 2, 2, 3, 2), '5': (4, 2, 2, 2, 3),
        'e': (1, 0, 0, 0, 0), 'n': (0, 2, 2, 2, 2), 'l': (4097, 65536, 65536, 4096, 4096)}


def written(p, starts, columns, values, scales, b, size):
    """What is printed of a text slice of this size into which a system is written."""
    out = bytes([FREE_BYTE]) * size
    got = reference.write_system(p, starts, columns, values, scales, b, out)
    if got[0] == 'refused':
        return printed(got[1]) + shown_bytes(out)
    return printed(0, got[1]) + shown_bytes(got[2])


def read(text, room='s', sizes=(), repeated=None):
    """A text is read; what was read is written into slices of these sizes. repeated: `first`, `unit` and `end` of a long text, and its data."""
    slices = [[FREE] * k for k in ROOM[room]]
    got = reference.read_system(text, *slices)
    line = printed(got[1]) if got[0] == 'refused' else printed(0, *got[1:4])
    if got[0] != 'refused':
        p, n, k = got[1:4]
        slices = list(got[4:9])
        system = (slices[0][:n + 1], slices[1][:k], slices[2][:k], slices[3][:n], slices[4][:n])
        line += ''.join(written(p, *system, size) for size in sizes)
    which, data, rest = (2, repeated[3], [*repeated[:3], len(text) - len(repeated[3])]) if repeated else (0, text, [])
    calls.append([[which, *texts.place(data), *ROOM[room], *rest], [], [], [], [], [], list(sizes)])
    answers.append(line + ''.join(shown(s) for s in slices))
    return got


def write(p, starts, columns, values, b, *sizes, scales=()):
    calls.append([[1, p], starts, columns, values, scales, b, list(sizes)])
    answers.append(''.join(written(p, starts, columns, values, scales, b, size) for size in sizes))


def text_of(p, n, k, a, b, end='end\n', s=()):
    rows = [('system', p, n, k)] + [('a',) + e for e in a] + [('s',) + e for e in s] + [('b',) + e for e in b]
    return (''.join('\t'.join(str(x) for x in r) + '\n' for r in rows) + end).encode()


def system_cases():
    good = text_of(7, 2, 3, [(1, 1, 2), (1, 2, 1), (2, 2, 3)], [(1, 1), (2, 1)])
    small = text_of(11, 3, 2, [(1, 2, 10), (3, 3, 4)], [(2, 5)])
    for t in (good, small, text_of(2, 1, 0, [], []), text_of(2147483647, 3, 1, [(2, 3, 2147483646)], [(3, 1)])):
        read(t)
    # each byte changed, dropped, doubled
    for t in (small, good):
        for i in range(len(t)):
            read(t[:i] + t[i + 1:])
            read(t[:i] + t[i:i + 1] + t[i:])
            for c in b'\t\n 0159absex\x00\xff':
                if c != t[i]:
                    read(t[:i] + bytes([c]) + t[i + 1:])
    for i in range(len(good)):
        read(good[:i])
    # forms
    for t in (b'', b'\n', b'end\n', good + b'\n', good + b'end\n', good[:-1], good.replace(b'end\n', b''), good.replace(b'\n', b'\r\n'),
              good.replace(b'\t', b' '), good.replace(b'a\t1\t1', b'a\t01\t1'), good.replace(b'a\t1\t1', b'a\t1\t00'), good.replace(b'a\t1\t1', b'a\t+1\t1'),
              text_of(7, 2, 0, [], [(1, 0)]), text_of(7, 2, 0, [], [(1, '')]), text_of(4294967295, 2, 0, [], []), text_of(4294967296, 2, 0, [], []),
              text_of(7, 4294967296, 0, [], []), text_of(7, 2, 4294967296, [], []), text_of(7, 42949672950, 0, [], []), text_of('00', 2, 0, [], []),
              text_of(7, 2, 0, [], [], 'END\n'), text_of(7, 2, 0, [], [], 'end \n'), text_of(7, 2, 0, [], [], 'end\t1\n'), good + good):
        read(t)
    # b before a, two headers
    read(b'system\t7\t2\t1\nb\t1\t1\na\t1\t1\t2\nend\n')
    read(b'system\t7\t2\t1\nsystem\t7\t2\t1\na\t1\t1\t2\nend\n')
    # each refusal, and the order where two apply
    faults = {
        2: lambda d: d.update(end='end'),
        3: lambda d: d.update(p=8),
        4: lambda d: d.update(n=4097),
        5: lambda d: d.update(k=9),
        6: lambda d: d.update(a=[(1, 2, 1), (1, 2, d['a'][1][2])]),
        7: lambda d: d.update(a=[d['a'][0], (d['a'][1][0], d['a'][1][1], 7)]),
    }
    for i in faults:
        for j in faults:
            d = dict(p=7, n=3, k=2, a=[(1, 1, 1), (2, 3, 5)], b=[(1, 6)], end='end\n')
            faults[i](d)
            faults[j](d)
            read(text_of(d['p'], d['n'], d['k'], d['a'], d['b'], d['end']))
            read(text_of(d['p'], d['n'], d['k'], d['a'], d['b'], d['end']), '1')
    for p in (0, 1, 2, 3, 4, 9, 2147483646, 2147483647, 2147483648, 4294967291):
        read(text_of(p, 1, 0, [], []))
    for n in (0, 1, 4096, 4097, 4294967295):
        read(text_of(5, n, 0, [], []), 'l')
    for a in ([(0, 1, 1)], [(4, 1, 1)], [(1, 0, 1)], [(1, 4, 1)], [(1, 1, 0)], [(1, 1, 5)], [(2, 1, 1), (1, 1, 1)], [(1, 2, 1), (1, 1, 1)],
              [(1, 1, 1), (1, 1, 1)], [(1, 3, 1), (2, 1, 1)]):
        read(text_of(5, 3, len(a), a, []))
        read(text_of(5, 3, len(a) + 1, a, []))
    for b in ([(0, 1)], [(4, 1)], [(1, 0)], [(1, 5)], [(2, 1), (1, 1)], [(1, 1), (1, 1)], [(1, 4), (3, 4)]):
        read(text_of(5, 3, 0, [], b))
    # the room
    for room in ('s', '0', '1', '2', '3', '4'):
        read(small, room)
    # no rows: one start is written and nothing else; every line of an entry or of b is out of range
    for p in (2, 7, 2147483647):
        empty = text_of(p, 0, 0, [], [])
        for room in ('s', 'e', 'l'):
            read(empty, room, (len(empty), len(empty) - 1, len(empty) + 5, 0))
        read(empty, 'n', (len(empty),))
    for i in range(len(empty)):
        read(empty[:i] + empty[i + 1:])
        read(empty[:i] + empty[i:i + 1] + empty[i:])
    for head in ((7, 0, 0), (7, 0, 1), (7, 0, 2), (9, 0, 1), (7, '00', 1), (7, 4097, 1)):
        for a, b in (([], []), ([(1, 1, 1)], []), ([(0, 0, 0)], []), ([], [(1, 1)]), ([], [(0, 7)]), ([(1, 1, 7)], [(1, 7)])):
            for room in 'sn':
                read(text_of(*head, a, b), room, (17,))


def random_systems(rng):
    for p in (2, 3, 7, 65537, 2147483647):
        for n in (1, 2, 5, 40):
            density = rng.random()
            a = [(i, j, rng.randrange(1, p)) for i in range(1, n + 1) for j in range(1, n + 1) if rng.random() < density][:1500]
            b = [(i, rng.randrange(1, p)) for i in range(1, n + 1) if rng.random() < 0.7]
            text = text_of(p, n, len(a), a, b)
            read(text, 'l', (len(text), len(text) - 1, len(text) + 5, 0))


def writer_cases():
    good = (7, [0, 2, 3], [0, 1, 1], [2, 1, 3], [1, 0])
    write(*good, 0, 40, 100)
    bad = [
        (8,) + good[1:], (7, [], [], [], []), (7, [0, 2, 1], [0], [1], [0, 0]), (7, [1, 2, 3]) + good[2:],
        (7, [0, 2, 4]) + good[2:], (7, [0, 2, 3], [0, 1, 1], [2, 1], [1, 0]), (7, [0, 2, 3], [0, 2, 1], [2, 1, 3], [1, 0]),
        (7, [0, 2, 3], [1, 1, 1], [2, 1, 3], [1, 0]), (7, [0, 2, 3], [0, 1, 1], [2, 0, 3], [1, 0]), (7, [0, 2, 3], [0, 1, 1], [2, 7, 3], [1, 0]),
        good[:4] + ([1],), good[:4] + ([1, 0, 0],), good[:4] + ([1, 7],), (8, [0, 2, 1], [5], [0], [9]), (7, [0, 2, 1], [5], [0], [9]),
        (7, [0, 1, 1], [5], [0], [9]), (7, [0, 1, 1], [1], [0], [9]), (7, [0, 1, 1], [1], [1], [9]), (7, [0, 1, 1], [1], [1], [9, 9]),
    ]
    for s in bad:
        write(*s, 0, 200)
    # no rows
    write(7, [0], [], [], [], 0, 16, 17, 18, 200)
    write(2147483647, [0], [], [], [], 25, 26, 27)
    for s in ((6, [0], [], [], []), (7, [], [0], [1], []), (7, [1], [], [], []), (7, [0], [0], [1], []), (7, [1], [0], [1], []), (7, [0], [], [1], []),
              (7, [0], [], [], [0]), (7, [0], [], [], [7])):
        write(*s, 0, 200)


def longest():
    p = 7
    a = [(i, j, 1 + (i * 5 + j) % 6) for i in range(1, 4097) for j in range(i % 9 + 1, i % 9 + 17)]
    b = [(i, 1 + i % 6) for i in range(1, 4097)]
    text = text_of(p, 4096, len(a), a, b)
    got = read(text, 'l', (len(text),))
    assert got[0] == 'ok' and got[3] == 65536


def repeated(first, unit, count, number):
    """A text of a first line, a line many times and `end`."""
    end = len(first) + len(unit) * count
    got = read(first + unit * count + b'end\n', 'l', (), (len(first), len(unit), end, first + unit + b'end\n'))
    assert got == ('refused', number), got


def limits():
    # 65,536 entries are taken, one more gets 5, before the places (6) are looked at
    repeated(b'system\t7\t1\t65536\n', b'a\t1\t1\t1\n', 65536, 6)
    repeated(b'system\t7\t1\t65537\n', b'a\t1\t1\t1\n', 65537, 5)
    # 2,097,152 bytes are read, one more gets 2
    repeated(b'system\t7\t4096\t0\n', b'b\t1\t1\n', 349522, 6)
    repeated(b'system\t11\t4096\t0\n', b'b\t1\t1\n', 349522, 2)


def scale_cases():
    scaled = text_of(7, 2, 2, [(1, 1, 2), (2, 2, 3)], [(1, 1), (2, 1)], s=[(1, 4), (2, 5)])
    small = text_of(11, 3, 2, [(1, 2, 10), (3, 3, 4)], [(2, 5)], s=[(1, 1), (2, 10), (3, 1)])
    bare = text_of(3, 1, 0, [], [], s=[(1, 2)])
    for t in (scaled, small, bare, text_of(2147483647, 3, 1, [(2, 3, 2147483646)], [(3, 1)], s=[(1, 2147483646), (2, 1), (3, 2147483646)])):
        read(t, 's', (len(t), len(t) - 1, len(t) + 5, 0))
    # each byte of the `s` lines changed, dropped, doubled; the text cut there
    for t in (small, bare):
        for i in range(t.index(b's\t1'), t.rindex(b's\t') + 6):
            read(t[:i] + t[i + 1:])
            read(t[:i] + t[i:i + 1] + t[i:])
            read(t[:i])
            for c in b'\t\n 0159absex\x00\xff':
                if c != t[i]:
                    read(t[:i] + bytes([c]) + t[i + 1:])
    # two lines exchanged, and each line doubled and left out: order of letters (2), number (5), order of places (6)
    lines = scaled.split(b'\n')[:-1]
    for i in range(len(lines)):
        read(b'\n'.join(lines[:i] + lines[i + 1:]) + b'\n')
        read(b'\n'.join(lines[:i] + lines[i:i + 1] + lines[i:]) + b'\n')
        for j in range(i):
            read(b'\n'.join(lines[:j] + [lines[i]] + lines[j + 1:i] + [lines[j]] + lines[i + 1:]) + b'\n')
    # forms
    for old, new in ((b's\t1\t4', b's\t1'), (b's\t1\t4', b's'), (b's\t1\t4', b's\t1\t4\t5'), (b's\t1\t4', b's\t1\t04'), (b's\t1\t4', b's\t01\t4'), (b's\t1\t4', b's\t1\t'),
                     (b's\t1\t4', b's\t1\t4\t'), (b's\t1', b's 1'), (b's\t1', b'S\t1'), (b's\t1', b'ss\t1'), (b's\t1', b'system\t1'), (b's\t1\t4', b's\t1\t4294967295'),
                     (b's\t1\t4', b's\t1\t4294967296'), (b's\t1\t4', b's\t4294967296\t4'), (b's\t1\t4', b's\t4294967297\t4'), (b's\t1\t4', b's\t1\t-4'), (b's\t1', b'\ns\t1')):
        read(scaled.replace(old, new))
    # number, places, values, all of value 1; of every length of the slice
    a, b = [(1, 1, 2), (2, 2, 3)], [(1, 1), (2, 1)]
    for p in (2, 7):
        for s in ([(1, 4)], [(2, 5)], [(1, 1)], [(3, 0)], [(1, 4), (2, 5), (3, 1)], [(1, 4), (2, 5), (2, 5)], [(1, 1)] * 3, [(1, 4), (3, 5)], [(0, 4), (1, 5)], [(0, 4), (2, 5)],
                  [(2, 4), (1, 5)], [(1, 4), (1, 5)], [(2, 4), (2, 5)], [(1, 1), (2, 1)], [(2, 1), (1, 1)], [(1, 0), (2, 5)], [(1, 1), (2, 0)], [(1, p), (2, 1)], [(1, 1), (2, p)],
                  [(1, 8), (2, 8)], [(1, p - 1), (2, p - 1)], [(1, 1), (2, p - 1)], [(1, p - 1), (2, 1)], [(1, 4294967295), (2, 1)], [(1, 0), (1, p)]):
            for room in 's5':
                read(text_of(p, 2, 2, [(1, 1, 1), (2, 2, 1)], b, s=s), room)
            read(text_of(p, 2, 2, [(1, 1, 1), (2, 2, p)], b, s=s))
    for room in ('s', '0', '1', '2', '3', '4', '5'):
        read(small, room)
        read(text_of(11, 3, 2, [(1, 2, 10), (3, 3, 4)], [(2, 5)]), room)
    # each refusal, and the order where two apply
    faults = {
        2: lambda d: d.update(end='end'),
        3: lambda d: d.update(p=8),
        4: lambda d: d.update(n=4097),
        5: lambda d: d.update(k=9),
        6: lambda d: d.update(b=[(2, 1), (2, d['b'][1][1])]),
        7: lambda d: d.update(a=[(1, 1, 0), (2, 2, 3)]),
    }
    for s in ([(1, 4), (2, 5)], [(1, 4)], [(1, 4), (1, 5)], [(1, 1), (2, 1)], [(1, 4), (2, 7)]):
        for i in faults:
            d = dict(p=7, n=2, k=2, a=a, b=b, end='end\n', s=s)
            faults[i](d)
            read(text_of(**d))
            read(text_of(**d), '1')
    # no rows
    for s in ([(1, 2)], [(0, 0)], [(1, 1)]):
        for room in 'sen':
            read(text_of(7, 0, 0, [], [], s=s), room)
    # the writer: `s` lines exactly if some scale isn't 1; their number (5) and values (7) before b (8, 9) and the room (11)
    A = (7, [0, 1, 2], [0, 1], [2, 3])
    for scales in ([4, 5], [1, 5], [4, 1], [1, 1], [], [6, 6]):
        write(*A, [1, 1], 0, 44, 45, 46, 56, 57, 58, 200, scales=scales)
        write(*A, [1], 0, 200, scales=scales)
        write(*A, [1, 7], 0, 200, scales=scales)
    for scales in ([4], [1], [4, 5, 1], [1, 1, 1], [0], [0, 0, 0], [0, 5], [4, 0], [7, 5], [4, 7], [8, 1], [1, 4294967295]):
        for b in ([1, 1], [1], [1, 7]):
            write(*A, b, 0, 200, scales=scales)
        write(8, *A[1:], [1, 1], 200, scales=scales)
        write(7, [], [], [], [], 200, scales=scales)
        write(7, [0], [], [], [], 200, scales=scales)
        write(7, [0, 1, 2], [0, 2], [2, 3], [1, 1], 200, scales=scales)
        write(7, [0, 1, 2], [0, 1], [2, 0], [1, 1], 200, scales=scales)
    write(2, [0, 0], [], [], [1], 0, 22, 23, 24, scales=[1])
    write(2, [0, 0], [], [], [1], 0, 200, scales=[2])


def random_scales(rng):
    for p in (3, 7, 65537, 2147483647):
        for n in (1, 2, 5, 40):
            density = rng.random()
            a = [(i, j, rng.randrange(1, p)) for i in range(1, n + 1) for j in range(1, n + 1) if rng.random() < density][:300]
            b = [(i, rng.randrange(1, p)) for i in range(1, n + 1) if rng.random() < 0.7]
            s = [(i, 1 if rng.random() < 0.3 else rng.randrange(1, p)) for i in range(1, n)] + [(n, p - 1)]
            text = text_of(p, n, len(a), a, b, s=s)
            assert read(text, 'l', (len(text), len(text) - 1, len(text) + 5, 0))[0] == 'ok'
    # 4,096 scales: the widest, and all but the last of them 1; one more than there can be; all 1
    read(text_of(2147483647, 4096, 0, [], [(4096, 1)], s=[(j, 2147483647 - j) for j in range(1, 4097)]), 'l', (80000,))
    text = text_of(7, 4096, 0, [], [], s=[(j, 1 + (j == 4096)) for j in range(1, 4097)])
    read(text, 'l', (len(text) - 1, len(text), len(text) + 1))
    read(text_of(7, 4096, 0, [], [], s=[(j, 2) for j in range(1, 4098)]), 'l')
    read(text_of(7, 4096, 0, [], [], s=[(j, 1) for j in range(1, 4097)]), 'l')


system_cases()
writer_cases()
limits()
random_systems(random.Random(8))
longest()
scale_cases()
random_scales(random.Random(9))


def make():
    return texts.behind(calls), ''.join(a + '\n' for a in answers).encode(), '%d calls' % len(calls)


run(__file__, make)
