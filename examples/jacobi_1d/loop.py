"""The means in exact fractions, and only at the end times 3^T."""
from fractions import Fraction

steps = 4
rod = [Fraction(line.split(",")[1]) for line in open("a.csv")]
for _ in range(steps):
    means = [sum(rod[i - 1 : i + 2]) / 3 for i in range(1, len(rod) - 1)]
    rod = [rod[0], *means, rod[-1]]
for i, value in enumerate(rod):
    print("Y", i, value * 3**steps, sep=",")
print("Scale", 3**steps, sep=",")
