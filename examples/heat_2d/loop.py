"""The heat in exact fractions; every cell gives an eighth of each difference to its neighbour."""
from fractions import Fraction

steps = 4
heat = {}
for line in open("a.csv"):
    i, j, value = map(int, line.split(","))
    heat[i, j] = Fraction(value)

totals = [sum(heat.values())]
for step in range(1, steps + 1):
    after = dict(heat)
    for (i, j), value in heat.items():
        for place in (i + 1, j), (i, j + 1):
            if place in heat:
                flow = (value - heat[place]) / 8
                after[i, j] -= flow
                after[place] += flow
    heat = after
    totals.append(sum(heat.values()) * 8**step)
for (i, j), value in sorted(heat.items()):
    print("Y", i, j, value * 8**steps, sep=",")
for t, total in enumerate(totals):
    print("Total", t, total, sep=",")
