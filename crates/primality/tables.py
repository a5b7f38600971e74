#!/usr/bin/env python3
"""Prints src/tables.rt: python3 tables.py > src/tables.rt, and then rt fmt, which lays the numbers out

The numbers from 5 to the first prime past 46,340, the root of the largest modulus, in blocks [a, b) with b <= 2a and at most 32 primes
in each. For a block: the inverses of its primes modulo 2^32, filled up to 32 by the inverse of 3; the limit (2^31 - 1) / a; its start a.
"""
ROOT, BLOCK, WORD, LARGEST = 46340, 32, 2**32, 2**31 - 1


def is_prime(n):
    return n > 1 and all(n % d for d in range(2, int(n**0.5) + 1))


inverses, limits, starts = [], [], [5]
while starts[-1] <= ROOT:
    a = b = starts[-1]
    primes = []
    while b < 2 * a and len(primes) < BLOCK:
        if is_prime(b):
            primes.append(b)
        b += 1
    inverses += [pow(q, -1, WORD) for q in primes + [3] * (BLOCK - len(primes))]
    limits.append(LARGEST // a)
    starts.append(b)

print('// Printed by tables.py: the inverses modulo 2^32 of the primes from 5 on, 32 to a block, and the limit and the start of each block.')
for name, numbers in ('INVERSES', inverses), ('LIMITS', limits), ('STARTS', starts):
    print(f'\npub(crate) const {name}: [u32; {len(numbers)}] = [')
    for number in numbers:
        print(f'    {number},')
    print('];')
