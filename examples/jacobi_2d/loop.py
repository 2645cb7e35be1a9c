"""The means in exact fractions, and only at the end times 4^T."""
from fractions import Fraction

steps = 5
plate = {}
for line in open("a.csv"):
    i, j, value = map(int, line.split(","))
    plate[i, j] = Fraction(value)
last = max(i for i, j in plate)

for _ in range(steps):
    before = dict(plate)
    for i in range(1, last):
        for j in range(1, last):
            around = before[i - 1, j], before[i + 1, j], before[i, j - 1], before[i, j + 1]
            plate[i, j] = sum(around) / 4
for (i, j), value in sorted(plate.items()):
    print("Y", i, j, value * 4**steps, sep=",")
print("Scale", 4**steps, sep=",")
