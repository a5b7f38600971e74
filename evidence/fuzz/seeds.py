#!/usr/bin/env python3
"""Writes good texts, and texts with one fault each, for the fuzzer to begin with.

    evidence/fuzz/seeds.py FOLDER"""

import os
import random
import sys

sys.path.insert(0, os.path.join(os.path.dirname(os.path.abspath(__file__)), '..'))

import reference
import systems

EXAMPLE = 'system 7 2 3\na 1 1 2\na 1 2 1\na 2 2 3\nb 1 1\nb 2 1\nend\n'.replace(' ', '\t')
NO_ROWS = {  # with nothing left, and what is refused there
    'good-no-rows': 'system 7 0 0\nend\n',
    '5-no-rows': 'system 7 0 1\nend\n',
    '6-no-rows-a': 'system 7 0 1\na 1 1 1\nend\n',
    '6-no-rows-b': 'system 7 0 0\nb 1 1\nend\n',
}
S_LINES = {  # with scales, and what is refused there
    'good-scales': ('s 1 4\ns 2 5\n', ''),
    'good-scales-first-1': ('s 1 1\ns 2 5\n', ''),
    '2-scales-after-b': ('', 's 1 4\ns 2 5\n'),
    '2-scales-short': ('s 1\ns 2\n', ''),
    '5-scales-few': ('s 1 4\n', ''),
    '5-scales-many': ('s 1 4\ns 2 5\ns 3 6\n', ''),
    '6-scales-range': ('s 1 4\ns 3 5\n', ''),
    '6-scales-order': ('s 2 4\ns 1 5\n', ''),
    '6-scales-ones': ('s 1 1\ns 2 1\n', ''),
    '7-scales-zero': ('s 1 4\ns 2 0\n', ''),
    '7-scales-not-below-p': ('s 1 7\ns 2 5\n', ''),
}
FAULTS = {  # the refusal's number, and how the example gets it
    '2-leading-zero': ('b\t2', 'b\t02'),
    '2-no-end': ('end\n', ''),
    '2-after-end': ('end\n', 'end\n\n'),
    '2-order': ('a\t2\t2\t3\nb\t1\t1\n', 'b\t1\t1\na\t2\t2\t3\n'),
    '2-numeral': ('\t7\t', '\t4294967296\t'),
    '3-composite': ('\t7\t', '\t9\t'),
    '3-too-large': ('\t7\t', '\t2147483659\t'),
    '4-rows': ('7\t2\t3', '7\t4097\t3'),
    '5-count': ('7\t2\t3', '7\t2\t4'),
    '6-column': ('a\t1\t2', 'a\t1\t3'),
    '6-row-twice': ('b\t2', 'b\t1'),
    '7-zero': ('a\t1\t1\t2', 'a\t1\t1\t0'),
    '7-not-below-p': ('b\t2\t1', 'b\t2\t7'),
    '11-rows': ('7\t2\t3', '7\t129\t3'),
}


def main():
    folder = sys.argv[1]
    os.makedirs(folder, exist_ok=True)
    texts = {'good-example': EXAMPLE.encode(), '2-empty': b''}
    for name, text in NO_ROWS.items():
        texts[name] = text.replace(' ', '\t').encode()
    for name, (old, new) in FAULTS.items():
        texts[name] = EXAMPLE.replace(old, new, 1).encode()
    for name, (before, after) in S_LINES.items():
        texts[name] = EXAMPLE.replace('b\t1', before.replace(' ', '\t') + 'b\t1', 1).replace('end', after.replace(' ', '\t') + 'end').encode()
    source = random.Random(3)
    for shape in systems.SHAPES:
        for p, n in ((2, 5), (7, 3), (101, 9), (2147483647, 6)):
            matrix = systems.slices(shape(source, p, n))
            b = [source.randrange(p) for _ in range(n)]
            scales = [source.randrange(1, p) for _ in range(n)]
            texts['good-%s-%d' % (shape.__name__, p)] = reference.system_text(p, *matrix, [], b)
            texts['good-%s-%d-scales' % (shape.__name__, p)] = reference.system_text(p, *matrix, scales, b)
    diagonal = [{i: 1 + i % 6} for i in range(128)]
    texts['good-largest'] = reference.system_text(7, *systems.slices(diagonal), [], [1] + [0] * 127)
    texts['good-largest-scales'] = reference.system_text(7, *systems.slices(diagonal), [1 + i % 5 for i in range(128)], [1] + [0] * 127)
    for name, text in texts.items():
        with open(os.path.join(folder, name), 'wb') as file:
            file.write(text)


if __name__ == '__main__':
    main()
