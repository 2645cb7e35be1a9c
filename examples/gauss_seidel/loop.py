"""Sweeps over one array in place, in exact fractions, and only at the end times 4^(2T+2N)."""
from fractions import Fraction

sweeps = 4
square = {}
for line in open("a.csv"):
    i, j, value = map(int, line.split(","))
    square[i, j] = Fraction(value)
size = max(i for i, j in square)

for _ in range(sweeps):
    for i in range(1, size + 1):
        for j in range(1, size + 1):
            around = (i - 1, j), (i + 1, j), (i, j - 1), (i, j + 1)
            square[i, j] = sum(square.get(place, 0) for place in around) / 4
scale = 4 ** (2 * sweeps + 2 * size)
for (i, j), value in sorted(square.items()):
    print("Y", i, j, value * scale, sep=",")
print("Scale", scale, sep=",")
