"""Writes large.system: 200 rows, about 6 entries to a row, p = 2,147,483,647.

    python3 large.py >large.system

b = Ax for a drawn x, and the diagonal is full, so the system is solved unless luck is bad. The numbers come from a
generator that is written out here: every Python gives the same file."""

P, N = 2147483647, 200
state = 9


def draw(bound):
    """Numerical Recipes' 64-bit linear congruential generator, its upper half."""
    global state
    state = (state * 6364136223846793005 + 1442695040888963407) % 2**64
    return (state >> 32) % bound


rows = []
for i in range(N):
    columns = {i} | {draw(N) for _ in range(5)}
    rows.append([(j, 1 + draw(P - 1)) for j in sorted(columns)])
x = [draw(P) for _ in range(N)]

print('system', P, N, sum(len(row) for row in rows), sep='\t')
for i, row in enumerate(rows):
    for j, value in row:
        print('a', i + 1, j + 1, value, sep='\t')
for i, row in enumerate(rows):
    b = sum(value * x[j] for j, value in row) % P
    if b:
        print('b', i + 1, b, sep='\t')
print('end')
