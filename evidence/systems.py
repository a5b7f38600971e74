"""Systems to try a solver on: every shape that the papers name, each with a choice of p, scales, b, words and a window.

make(random, largest, p) gives one run: what it is in words, p, starts, columns, values, scales, b, words, window. Any p if
none is said."""

from reference import is_prime, times

EDGE_PRIMES = [2, 3, 5, 7, 101, 251, 65521, 65537, 2147483629, 2147483647]
SMALL_PRIMES = [2, 2, 3, 5, 7]
WINDOWS = [0, 1, 1, 2, 2, 5, 64]  # short ones are due often, and where p is small their tests often fail


def some_prime(random):
    if random.random() < 0.7:
        return random.choice(EDGE_PRIMES)
    p = random.randrange(2, 2 ** random.randrange(3, 32))
    while not is_prime(p):
        p = p + 1 if p < 2147483647 else 2
    return p


def some_size(random, largest):
    """One in ten is 0. Of the others small ones mostly, but every power of two has its share."""
    if random.random() < 0.1:
        return 0
    low = 2 ** random.randrange(0, largest.bit_length())
    return min(largest, random.randrange(low, 2 * low))


def value(random, p):
    return random.randrange(1, p)


# Each shape gives rows, as dictionaries from column to value; there is at least one row, but for `zero`.

def sparse(random, p, n):
    k = random.randrange(1, min(n, 16) + 1)
    return [{c: value(random, p) for c in random.sample(range(n), random.randrange(0, k + 1))} for _ in range(n)]


def sparse_with_diagonal(random, p, n):
    rows = sparse(random, p, n)
    for i in range(n):
        if len(rows[i]) < 16:
            rows[i][i] = value(random, p)
    return rows


def block(random, p, n):
    """The same small block again and again: the least polynomial is short, and passes are many."""
    m = random.randrange(1, min(n, 6) + 1)
    cell = [[random.randrange(p) for _ in range(m)] for _ in range(m)]
    rows = [{} for _ in range(n)]
    for i in range(n - n % m):
        for j in range(m):
            if cell[i % m][j]:
                rows[i][i - i % m + j] = cell[i % m][j]
    return rows


def nilpotent(random, p, n):
    """Chains, hidden by a permutation of the places."""
    place = random.sample(range(n), n)
    rows = [{} for _ in range(n)]
    length = random.randrange(1, n + 1)
    for i in range(n - 1):
        if (i + 1) % length:
            rows[place[i]][place[i + 1]] = value(random, p)
    return rows


def permutation(random, p, n):
    ones = random.random() < 0.5
    return [{c: 1 if ones else value(random, p)} for c in random.sample(range(n), n)]


def repeated_rows(random, p, n):
    rows = sparse(random, p, n)
    kept = random.randrange(1, n + 1)
    return [rows[i % kept] for i in range(n)]


def diagonal(random, p, n):
    few = [random.randrange(p) for _ in range(random.randrange(1, 6))]
    return [{i: c} if c else {} for i in range(n) for c in [random.choice(few)]]


def companion(random, p, n):
    rows = [{i - 1: 1} if i else {} for i in range(n)]
    for i in random.sample(range(n), min(n, 20)):
        c = random.randrange(p)
        if c:
            rows[i][n - 1] = c
    return rows


def zero(random, p, n):
    return [{} for _ in range(n)]


SHAPES = [sparse, sparse_with_diagonal, block, nilpotent, permutation, repeated_rows, diagonal, companion, zero]


def slices(rows):
    starts, columns, values = [0], [], []
    for row in rows:
        for column in sorted(row):
            columns.append(column)
            values.append(row[column])
        starts.append(len(columns))
    return starts, columns, values


def right_sides(random, p, n, matrix):
    any_vector = [random.randrange(p) for _ in range(n)]
    few = [random.randrange(p) if random.random() < 3 / n else 0 for _ in range(n)]
    image = times(p, *matrix, any_vector)[0]
    return {
        'any b': any_vector,
        'b with few elements': few,
        'b = Ay': image,
        'b = AAy': times(p, *matrix, image)[0],
        'b a unit vector': [int(i == n // 2) for i in range(n)],
        'b = 0': [0] * n,
    }


def some_words(random, p, n):
    """Beyond some hundred rows unit vectors would take for ever: then there are enough random ones."""
    large = n > 200
    vectors = random.choice([4, 16, 64] if large else [0, 0, 1, 2, 3, 64])
    if large and p < 101:
        vectors = 64
    words = [random.randrange(2 ** 32) for _ in range(vectors * n)]
    if vectors and not large and random.random() < 0.3:
        words[:n] = random.choice([[0] * n, [p] * n, [2 ** 32 - 1] * n, words[:1] * n])
    return words


def some_scales(random, p, n):
    """None for every other system. Otherwise any, of few values, ones but for one or two, or n ones."""
    if random.random() < 0.5:
        return []
    few = [value(random, p) for _ in range(3)]
    scales = random.choice([[value(random, p) for _ in range(n)], [random.choice(few) for _ in range(n)], [1] * n, [1] * n])
    if n and random.random() < 0.8:
        for _ in range(2):
            scales[random.randrange(n)] = random.choice([p - 1, value(random, p)])
    return scales


def make(random, largest, p=None):
    p, n = p or some_prime(random), some_size(random, largest)
    shape = random.choice(SHAPES) if n else zero
    matrix = slices(shape(random, p, n))
    sides = right_sides(random, p, n, matrix)
    side = random.choice(sorted(sides) + ['any b', 'b = Ay'])
    words, window = some_words(random, p, n), random.choice(WINDOWS)
    scales = some_scales(random, p, n)
    what = '%s, n = %d, p = %d, %s, window %d, %d scales' % (shape.__name__.replace('_', ' '), n, p, side, window, len(scales))
    return (what, p, *matrix, scales, sides[side], words, window)
