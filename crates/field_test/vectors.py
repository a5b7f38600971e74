#!/usr/bin/env python3
"""Calls of the field and their answers, by Python's own arithmetic and a Miller and Rabin test. ../test_io/generator.py says how it is run.

A call is which it is and its numbers: f p (make a field), s p a b (sum), d p a b (difference), p p a b (product), i p a (inverse), m p (is_modulus),
v p a (inverse_modulo); the letters are listed as 0 to 6. A line of stdout: the refusal's number and the value beside it.
"""
import math
import pathlib
import random
import sys

sys.dont_write_bytecode = True
sys.path.insert(0, str(pathlib.Path(__file__).resolve().parent.parent / 'test_io'))
from generator import listed, printed, run  # noqa: E402

LARGEST = 2147483647


def is_prime(n):
    """Miller and Rabin to the bases 2, 3, 5 and 7, which decide below 3,215,031,751; and 11 for the rest of 32 bits."""
    if n < 2:
        return False
    for q in (2, 3, 5, 7, 11):
        if n % q == 0:
            return n == q
    d, r = n - 1, 0
    while d % 2 == 0:
        d, r = d // 2, r + 1
    for base in (2, 3, 5, 7, 11):
        x = pow(base, d, n)
        if x in (1, n - 1):
            continue
        for _ in range(r - 1):
            x = x * x % n
            if x == n - 1:
                break
        else:
            return False
    return True


def is_modulus(p):
    return p <= LARGEST and is_prime(p)


def operation(f, p, a, b):
    if not is_modulus(p):
        return 3, 0
    if a >= p or b >= p:
        return 9, 0
    return 0, f(a, b) % p


def inverse(p, a):
    if not is_modulus(p):
        return 3, 0
    if a >= p:
        return 9, 0
    if a == 0:
        return 12, 0
    return 0, pow(a, -1, p)


def inverse_modulo(p, a):
    return 0, pow(a, -1, p) if p > 1 and math.gcd(a, p) == 1 else p


CALLS = {
    'f': lambda p: (0, p) if is_modulus(p) else (3, 0),
    's': lambda p, a, b: operation(lambda x, y: x + y, p, a, b),
    'd': lambda p, a, b: operation(lambda x, y: x - y, p, a, b),
    'p': lambda p, a, b: operation(lambda x, y: x * y, p, a, b),
    'i': inverse,
    'm': lambda p: (0, int(is_modulus(p))),
    'v': inverse_modulo,
}


def vectors():
    pick = random.Random(4)
    top = 2**32 - 1
    # moduli: all small numbers, squares of primes, Carmichael numbers, products of two primes by the root, both ends
    odd = [2147117569, 2146654189, 561, 1105, 1729, 294409, 56052361, 118901521, 172947529, 46337 * 46327, 46339 * 46337, 25, 49, 121, 169,
           46349**2 % 2**32, LARGEST, LARGEST - 1, LARGEST - 2, LARGEST + 1, LARGEST + 12, 2147483629, 2147483587, 2147483659, 4294967291, top, top - 1]
    for p in list(range(40)) + odd + [pick.randrange(2**31) for _ in range(20)]:
        yield 'm', p
    for p in (0, 1, 2, 3, 4, 7, 251, 65521, 2147117569, LARGEST - 1, LARGEST, LARGEST + 1, 4294967291):
        yield 'f', p
    primes = [2, 3, 5, 7, 251, 65521, 46337, 1073741789, 2147483629, LARGEST]
    for p in primes:
        ends = sorted({0, 1, p // 2, p - 1})
        for call in 'sdp':
            for a in ends:
                for b in (0, p - 1):
                    yield call, p, a, b
            for _ in range(4):
                yield call, p, pick.randrange(p), pick.randrange(p)
            yield call, p, p, 0
            yield call, p, 0, p
            yield call, p, top, top
        for a in ends + [pick.randrange(p) for _ in range(6)] + [p, p + 1, top]:
            yield 'i', p, a
    # the checks' order: a made-up record first
    for p in (0, 1, 4, 6, 9, 2147117569, LARGEST - 1, LARGEST + 1, 4294967291, top):
        for call in 'sdp':
            yield call, p, 0, 1
            yield call, p, top, 0
        yield 'i', p, 0
        yield 'i', p, 1
        yield 'i', p, top
    for a in range(1, 251):
        yield 'i', 251, a
    for p in list(range(13)) + [36, 100, 2147117569, 2147483646, 2147483648, 4294967291, top]:
        for a in sorted({0, 1, 2, 3, 10, 46337, pick.randrange(2**32), top}):
            yield 'v', p, a
    # the modulus with a table, all of its elements and numbers that are none, and its neighbours
    for a in [0, *range(251, 255), 501, 502, 503, 251 * 251, top // 251 * 251 - 1, top // 251 * 251, top // 251 * 251 + 1, top] + [pick.randrange(2**32) for _ in range(20)]:
        yield 'v', 251, a
    for a in range(1, 251):
        yield 'v', 251, a
    for p in (241, 250, 252, 257):
        for a in sorted({0, 1, 2, 3, 126, 240, 249, 250, 251, p - 1, p, p + 1, pick.randrange(2**32), top}):
            yield 'v', p, a
            yield 'i', p, a
    # the slowest: neighbours in Fibonacci's sequence
    yield 'v', 2971215073, 1836311903
    yield 'v', 1836311903, 1134903170


def make():
    calls = list(vectors())
    stdin = listed([[['fsdpimv'.index(call[0]), *call[1:]]] for call in calls])
    stdout = ''.join(printed(*CALLS[call[0]](*call[1:])) + '\n' for call in calls)
    return stdin, stdout.encode(), '%d calls' % len(calls)


run(__file__, make)
