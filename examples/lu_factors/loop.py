"""Gauss's elimination in exact fractions; the multipliers are L, what is left is U."""
from fractions import Fraction

rest = {}
for line in open("a.csv"):
    i, j, value = map(int, line.split(","))
    rest[i, j] = Fraction(value)
size = max(i for i, j in rest)

factor = {(i, i): Fraction(1) for i in range(1, size + 1)}
for k in range(1, size + 1):
    for i in range(k + 1, size + 1):
        factor[i, k] = rest[i, k] / rest[k, k]
        for j in range(k, size + 1):
            rest[i, j] -= factor[i, k] * rest[k, j]
for (i, j), value in sorted(factor.items()):
    print("L", i, j, value, sep=",")
for (i, j), value in sorted(rest.items()):
    if i <= j:
        print("U", i, j, value, sep=",")
