"""All foldings, as bracketings of the strand, are tried; only bases that pair may be joined."""
from itertools import product

base = [int(line.split(",")[1]) for line in open("base.csv")]
partner = [int(line.split(",")[1]) for line in open("partner.csv")]


def pairs(marks):
    """The number of pairs of a bracketing, or 0 where it is none or joins bases that don't pair."""
    opened, count = [], 0
    for place, mark in enumerate(marks):
        if mark == "(":
            opened.append(place)
        elif mark == ")":
            if not opened or not base[opened.pop()] & partner[place]:
                return 0
            count += 1
    return 0 if opened else count


best = [max(pairs(marks) for marks in product(".()", repeat=n)) for n in range(1, len(base) + 1)]
print("Most", best[-1], sep=",")
for j, count in enumerate(best, 1):
    print("FromFirst", j, count, sep=",")
