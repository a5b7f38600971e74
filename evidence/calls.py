#!/usr/bin/env python3
"""Holds every exported call to the reference in Python: answers, refusals by number, and what stays as it was.

    evidence/calls.py COUNT SEED
    evidence/calls.py --gate

Makes COUNT calls from SEED. Four in ten are right, the others have up to three faults, of which the first check must
be told. Then come the calls at the limits of document 01, those with scales (document 02, request (vi)) and those with no
rows (request (ii)), the same each time. driver.cpp says `harm` where a slice has changed that had to stay. Exit status 0:
nothing differs."""

import argparse
import collections
import random
import re
import sys
import time

import reference
import systems
import tools

ANSWER = 7168
BAD_WINDOWS = [65, 66, 128, 256, 65536, 2147483648, 4294967295]
BAD_MODULI = [0, 1, 4, 9, 91, 561, 65536, 2147483646, 2147483648, 2147483659, 4294967291, 4294967295]


# ---- a call: its name, what it gets, and what is expected. `reads` are numbers and lists, `writes` lengths.

def expected_slice(result):
    """A number, and the slice that is written."""
    return [result[1], len(result[2])] + result[2]


def expected_solve(result):
    kind, D, passes, applications, multiplied, vector, polynomial, bill = result[1:]
    number = 1 if kind == 'solved' else 2
    billed = bill[:3 * min(passes, len(bill) // 3)]
    return ([number, D, passes, applications, multiplied, len(billed)] + billed + [len(vector)] + vector +
            [len(polynomial)] + polynomial)


def expected_read(result):
    p, n, entries, starts, columns, values, scales, b = result[1:]
    return [p, n, entries] + starts[:n + 1] + columns[:entries] + values[:entries] + scales[:n] + b[:n]


def expected_bytes(result):
    return [result[1]] + list(result[2][:result[1]])


def expected_numbers(result):
    return [int(number) for number in result[1:]]


def expected_nothing(result):
    return []


# name: (the reference, what it answers if it accepts, how many numbers stand as 0 after a refusal)
CALLS = {
    'field': (reference.field, expected_nothing, 0),
    'sum': (reference.field_sum, expected_numbers, 1),
    'difference': (reference.field_difference, expected_numbers, 1),
    'product_of': (reference.field_product, expected_numbers, 1),
    'inverse': (reference.field_inverse, expected_numbers, 1),
    'product': (reference.product, expected_slice, 1),
    'transposed': (reference.transposed_product, expected_slice, 1),
    'apply': (reference.polynomial_apply, expected_slice, 1),
    'recurrence': (reference.recurrence, expected_slice, 1),
    'solve': (reference.solve, expected_solve, 6),
    'takes': (reference.check_solution, expected_numbers, 2),
    'is_null': (reference.check_kernel, expected_numbers, 2),
    'read': (reference.read_system, expected_read, 3),
    'write': (reference.write_system, expected_bytes, 1),
    'text': (reference.text_call, expected_bytes, 1),
}


class Call:
    def __init__(self, name, reads, writes=()):
        self.name, self.reads, self.writes = name, list(reads), list(writes)

    def line(self):
        return tools.spell(self.name, *self.reads, *self.writes)

    def differs(self, answer):
        function, expected, zeros = CALLS[self.name]
        filler = bytes if self.name in ('text', 'write') else lambda length: [0] * length
        result = function(*self.reads, *[filler(length) for length in self.writes])
        if answer.startswith('harm'):
            return True
        numbers = [int(word) for word in answer.split()]
        if result[0] == 'refused':
            return numbers[:1 + zeros] != [result[1]] + [0] * zeros
        return numbers != [0] + expected(result)

    def refusal(self, answer):
        return int(answer.replace('harm', '').split()[0])

    def has_no_rows(self):
        """Of a call that is accepted: whether its matrix or text has size 0."""
        if isinstance(self.reads[0], bytes):
            return self.reads[0].split(b'\n')[0].split(b'\t')[2] == b'0'
        return len(self.reads) > 3 and self.reads[1] == [0]


# ---- right calls

def some_vector(source, n, p):
    return [source.randrange(p) for _ in range(n)]


def some_bill(source, passes, most):
    """The places of a bill: none, less than a pass, less than all of them, all, and more."""
    all_of_them = [max(0, 3 * passes - 1), 3 * passes, 3 * passes + 1]
    return source.choice([0, 1, 2, 3, 4, *all_of_them, source.randrange(most + 1), most])


def right_call(source, name):
    what, p, starts, columns, values, scales, b, words, window = systems.make(source, 12)
    n = len(b)
    matrix = [p, starts, columns, values]
    if name == 'field':
        return Call(name, [p])
    if name == 'inverse':
        return Call(name, [p, source.randrange(p)])
    if name in ('sum', 'difference', 'product_of'):
        return Call(name, [p, source.randrange(p), source.randrange(p)])
    if name in ('product', 'transposed'):
        return Call(name, matrix + [some_vector(source, n, p)], [n])
    if name == 'apply':
        g = some_vector(source, source.randrange(1, n + 2), p)
        return Call(name, matrix + [g, some_vector(source, n, p)], [n, 2 * n + source.randrange(3)])
    if name == 'recurrence':
        s = some_vector(source, source.randrange(0, 30), source.choice([p, min(p, 2), min(p, 3)]))
        return Call(name, [p, s], [len(s) + 1, 4 * len(s) + 8 + source.randrange(3)])
    if name == 'solve':
        passes = len(reference.solver_steps(*matrix, scales, b, words, window)[5])
        bill = some_bill(source, passes, 3 * (reference.vectors_of(n, words) + n))
        return Call(name, matrix + [scales, b, words, window], [n, n + 1, bill, 16 * n + 16 + source.randrange(3)])
    answer = reference.solver_steps(p, starts, columns, values, scales, b, [])[2]
    if name == 'takes':
        return Call(name, matrix + [source.choice([answer, b, [0] * n]), b])
    if name == 'is_null':
        return Call(name, matrix + [source.choice([answer, b, [0] * n])])
    text = reference.system_text(p, starts, columns, values, scales, b)
    if name == 'read':
        room = [n + 1, len(columns), len(values), n, n]
        return Call(name, [text], [length + source.randrange(3) for length in room])
    if name == 'write':
        return Call(name, matrix + [scales, b], [len(text) + source.randrange(3)])
    return Call(name, [text], [ANSWER + source.randrange(3)])


# ---- faults

def edit_text(source, text):
    """One edit, of a kind that people and programs make."""
    at = source.randrange(len(text) + 1)
    numbers = [b'0', b'1', b'01', b'4', b'128', b'129', b'4096', b'4097', b'4294967295', b'4294967296', b'']
    lines = text.split(b'\n')
    row = source.randrange(len(lines))
    choice = source.randrange(7)
    if choice == 0:
        return text[:at] + bytes([source.choice(b'\t\n\r 0123456789absend-')]) + text[at:]
    if choice == 1:
        return text[:at] + text[at + 1:]
    if choice == 2:
        lines.insert(source.randrange(len(lines)), lines[row])
    elif choice == 3:
        lines.pop(row)
    elif choice == 4:
        fields = lines[row].split(b'\t')
        fields[source.randrange(len(fields))] = source.choice(numbers)
        lines[row] = b'\t'.join(fields)
    elif choice == 5:
        return re.sub(rb'\n(s\t[0-9]+)\t[0-9]+', rb'\n\1\t1', text)  # scales all 1
    else:
        return text[:at]
    return b'\n'.join(lines)


def edit_list(source, elements, p):
    elements = list(elements)
    at = source.randrange(len(elements)) if elements else 0
    choice = source.randrange(4)
    if choice == 0 or not elements:
        elements.insert(at, source.randrange(min(p, 3) + 1))
    elif choice == 1:
        elements.pop(at)
    elif choice == 2:
        elements[at] = source.choice([0, 1, p, p + 1, 2 ** 32 - 1, elements[0]])
    else:
        other = source.randrange(len(elements))
        elements[at], elements[other] = elements[other], elements[at]
    return elements


def spoil(source, call):
    """One fault, somewhere in the call: a number, an element, a length."""
    p = call.reads[0] if isinstance(call.reads[0], int) else 2
    at = source.randrange(len(call.reads) + len(call.writes))
    if at >= len(call.reads):
        at -= len(call.reads)
        call.writes[at] = max(0, call.writes[at] + source.choice([-5, -1, 1, 2, -call.writes[at]]))
    elif isinstance(call.reads[at], bytes):
        call.reads[at] = edit_text(source, call.reads[at])
    elif isinstance(call.reads[at], list):
        call.reads[at] = edit_list(source, call.reads[at], p)
    else:
        call.reads[at] = source.choice(BAD_MODULI if at == 0 else BAD_WINDOWS if call.name == 'solve' else [0, p, p + 1, 2 ** 32 - 1])


def some_call(source):
    call = right_call(source, source.choice(sorted(CALLS)))
    if source.random() < 0.6:
        for _ in range(source.choice([1, 2, 2, 3])):
            spoil(source, call)
    return call


# ---- the limits

def limit_calls():
    """One step below and beyond each limit of document 01."""
    for p in (2, 2147483647, *BAD_MODULI):
        yield Call('field', [p])
    for n in (4096, 4097):
        starts, none = list(range(n + 1)), [0] * n
        yield Call('product', [7, starts, list(range(n)), [1] * n, none], [n])
        for scales in ([], [1] * n, [6] * n):
            yield Call('solve', [7, starts, list(range(n)), [1] * n, scales, none, [], 64], [n, n + 1, 3 * n, 16 * n + 16])
            text = reference.system_text(7, starts, list(range(n)), [1] * n, scales, none)
            yield Call('write', [7, starts, list(range(n)), [1] * n, scales, none], [len(text)])
            yield Call('read', [text], [n + 1, n, n, n, n])
    for last in (16, 17):  # 65,536 entries, and one more
        starts = [16 * i for i in range(4096)] + [65520 + last]
        columns = list(range(16)) * 4095 + list(range(last))
        values = [1] * len(columns)
        yield Call('product', [2, starts, columns, values, [1] * 4096], [4096])
        yield Call('transposed', [2, starts, columns, values, [1] * 4096], [4096])
        yield Call('apply', [2, starts, columns, values, [1] * 4, [0] * 4096], [4096, 8192])
        yield Call('takes', [2, starts, columns, values, [0] * 4096, [0] * 4096])
        yield Call('is_null', [2, starts, columns, values, [0] * 4096])
        yield Call('write', [2, starts, columns, values, [], [1] * 4096], [2000000])
    for terms in (8192, 8193):
        yield Call('recurrence', [3, [0] * terms], [terms + 1, 4 * terms + 8])
    for words in (0, 127, 128, 129, 130):
        yield Call('solve', [7, [0, 1, 2], [0, 1], [2, 3], [], [1, 1], [1] * words, 0], [2, 3, 6, 48])
    for bill in (*range(12), 1000):  # three passes
        yield Call('solve', [7, [0, 1, 2], [0, 1], [2, 3], [], [1, 1], [0, 0], 0], [2, 3, bill, 48])
        yield Call('solve', [7, [0, 1, 2], [0, 1], [2, 3], [], [1, 1], [0, 0], 1], [2, 3, bill, 48])
        yield Call('solve', [7, [0, 1, 2], [0, 1], [2, 3], [], [1, 1], [0, 0], 0], [2, 3, bill, 47])
    for window in (0, 1, 2, 3, 4, 63, 64, *BAD_WINDOWS):  # with faults of the checks before it, 9 and 10, and behind it, 11
        for p in (2, 7):
            yield Call('solve', [p, [0, 1, 2, 3], [1, 2, 0], [1, 1, 1], [], [0, 0, 1], [], window], [3, 4, 9, 64])
            for b, words in (([1, 1], []), ([1, 0], []), ([0, 1], [1, 1]), ([1, p], []), ([1, p], [1]), ([1, 1], [1]), ([1, 1], [1] * 130)):
                for room in ([2, 3, 6, 48], [1, 3, 6, 48], [2, 4, 6, 48], [2, 3, 0, 47], [0, 0, 0, 0]):
                    yield Call('solve', [p, [0, 1, 2], [0, 1], [1, p - 1], [], b, words, window], room)
    for n in (128, 129):
        starts, columns = list(range(n + 1)), list(range(n))
        for scales in ([], [2] * n):
            yield Call('text', [reference.system_text(7, starts, columns, [1] * n, scales, [1] * n)], [ANSWER])
        # as many passes as places, of the widest numbers
        for scales in ([], [2147483646] * n):
            yield Call('text', [reference.system_text(2147483647, starts, columns, [2147483646 - i * i for i in range(n)], scales,
                                                      [2147483646 - i for i in range(n)])], [ANSWER])
    for last in (8, 9):  # 1,024 entries, and one more
        starts = [8 * i for i in range(128)] + [1016 + last]
        columns = list(range(8)) * 127 + list(range(last))
        yield Call('text', [reference.system_text(2, starts, columns, [1] * len(columns), [], [1] * 128)], [ANSWER])
    for length in (24576, 24577, 26624, 26625):
        yield Call('text', [b'x' * length], [ANSWER])
    for length in (2097152, 2097153):
        yield Call('read', [b'x' * length], [2, 1, 1, 1, 1])
    for length in (0, 4608, ANSWER - 1, ANSWER, ANSWER + 32):
        yield Call('text', [b'system\t2\t1\t1\na\t1\t1\t1\nb\t1\t1\nend\n'], [length])


def scale_calls():
    """Scales of every number around n and every value around 1 and p, with faults of the checks before and behind; the `s` lines
    of a text, and the slice for them, likewise."""
    for p in (2, 3, 7, 2147483647):
        some = [0, 1, 2, p - 1, p, p + 1, 4294967295]
        matrices = [[p, [0, 1, 2], [0, 1], [1, p - 1]], [p + 1, [0, 1, 2], [0, 1], [1, 1]], [p, [], [], []], [p, [0, 1, 1], [0, 1], [1, 1]],
                    [p, [0, 1, 2], [0, 2], [1, 1]], [p, [0, 1, 2], [0, 1], [1, 0]]]
        for scales in [[]] + [[a] for a in some] + [[a, b] for a in some for b in some] + [[1, 1, 1], [0, 1, 1], [1] * 4096]:
            for k, matrix in enumerate(matrices):
                yield Call('write', [*matrix, scales, [0, 1]], [100])
                yield Call('solve', [*matrix, scales, [0, 1], [], 0], [2, 3, 6, 48])
                if k == 0:
                    for right, words, window in (([1, 1], [0, 0], 1), ([1], [1], 65), ([1, p], [1], 65), ([1, 1], [1], 65), ([1, 1], [], 65)):
                        yield Call('solve', [*matrix, scales, right, words, window], [2, 3, 6, 48])
                        yield Call('write', [*matrix, scales, right], [30])
        entries = [('a', 1, 1, 1), ('a', 2, 2, p - 1)]
        right = [('b', 1, 1), ('b', 2, 1)]
        places = [[1, 2], [2, 1], [1, 1], [0, 1], [1, 3], [1], [1, 2, 3], [1, 2, 2]]
        for at in places:
            for values in ([1] * len(at), [p - 1] * len(at), [1] * (len(at) - 1) + [p - 1], [p - 1] + [1] * (len(at) - 1), [0] * len(at), [1] * (len(at) - 1) + [p]):
                s = [('s', *line) for line in zip(at, values)]
                for lines in (entries + s + right, s + entries + right, entries + right + s, entries + s, entries + right[:1] + s + right[1:]):
                    text = b''.join(reference.line(*fields) for fields in [('system', p, 2, 2), *lines, ('end',)])
                    for room in ((3, 2, 2, 2, 2), (3, 2, 2, 1, 2), (5, 4, 4, 4, 4), (3, 2, 2, 2, 1)):
                        yield Call('read', [text], room)
                    yield Call('text', [text], [ANSWER])


def empty_calls():
    """Size 0 in every call that knows of rows: right, and with every fault that a check is for, by itself and with others."""
    right = [7, [0], [], []]
    faulty = [[6, [0], [], []], [7, [], [], []], [7, [], [0], [1]], [7, [1], [], []], [7, [0], [0], [1]], [7, [1], [0], [1]],
              [7, [0], [0], []], [7, [0], [], [0]]]
    for matrix in (right, *faulty):
        for v in ([], [0], [7]):
            for out in (0, 1):
                yield Call('product', [*matrix, v], [out])
                yield Call('transposed', [*matrix, v], [out])
                for g in ([], [0], [6], [7], [1, 1]):
                    yield Call('apply', [*matrix, g, v], [out, out])
            yield Call('takes', [*matrix, v, []])
            yield Call('takes', [*matrix, [], v])
            yield Call('is_null', [*matrix, v])
            for words, window in (([], 0), ([0], 0), ([1] * 64, 64), ([], 64), ([], 65), ([0], 65)):
                for vector, polynomial, bill, work in ((0, 1, 0, 16), (0, 1, 7, 17), (1, 1, 3, 16), (0, 0, 3, 16), (0, 2, 3, 16), (0, 1, 3, 15)):
                    yield Call('solve', [*matrix, [], v, words, window], [vector, polynomial, bill, work])
                for scales in ([1], [0], [7, 1]):
                    yield Call('solve', [*matrix, scales, v, words, window], [0, 1, 3, 16])
            for room in (0, 16, 17, 18):
                for scales in ([], [1], [0]):
                    yield Call('write', [*matrix, scales, v], [room])
    heads = [(7, 0, 0), (2, 0, 0), (2147483647, 0, 0), (7, '00', 0), (7, '', 0), (9, 0, 0), (7, 4097, 0), (7, 0, 1), (7, 0, 65537)]
    bodies = [[], [('a', 1, 1, 1)], [('a', 0, 0, 0)], [('s', 1, 2)], [('s', 0, 0)], [('b', 1, 1)], [('b', 0, 0)], [('a', 1, 1, 7), ('b', 1, 7)]]
    for head in heads:
        for body in bodies:
            text = b''.join(reference.line(*fields) for fields in [('system', *head), *body, ('end',)])
            for room in ((0, 0, 0, 0, 0), (1, 0, 0, 0, 0), (5, 4, 3, 3, 2)):
                yield Call('read', [text], room)
            for length in (0, 40, ANSWER - 1, ANSWER):
                yield Call('text', [text], [length])


def main():
    parser = argparse.ArgumentParser(description='Holds every exported call to the reference.')
    parser.add_argument('count', type=int, nargs='?', default=20000)
    parser.add_argument('seed', type=int, nargs='?', default=1)
    parser.add_argument('--gate', action='store_true', help='a small fixed set')
    chosen = parser.parse_args()

    began = time.time()
    source = random.Random(11 if chosen.gate else chosen.seed)
    made = [some_call(source) for _ in range(8000 if chosen.gate else chosen.count)]
    made += limit_calls()
    made += scale_calls()
    made += empty_calls()
    answers = tools.ask(tools.driver(), [call.line() for call in made])
    refusals, without_rows, differ = collections.Counter(), 0, 0
    for call, answer in zip(made, answers):
        refusals[call.refusal(answer)] += 1
        without_rows += call.refusal(answer) == 0 and call.has_no_rows()
        if call.differs(answer):
            differ += 1
            print('DIFFERS: %.300s\n   got: %.300s' % (call.line(), answer))
    print('%d calls, %d accepted, %d of them of size 0; refused: %s; %.0f seconds' % (
        len(made), refusals[0], without_rows, ', '.join('%d × %d' % (refusals[k], k) for k in sorted(refusals) if k),
        time.time() - began))
    print('calls: %d differ' % differ)
    sys.exit(differ != 0)


if __name__ == '__main__':
    main()
