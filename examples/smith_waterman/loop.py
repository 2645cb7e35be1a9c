"""Each pair of stretches is aligned from its end back, with all choices tried; the best start counts."""
from functools import cache

first = [int(line.split(",")[1]) for line in open("a.csv")]
second = [int(line.split(",")[1]) for line in open("b.csv")]


@cache
def aligned(i, j, k, m):
    """The best score of the letters i to j of the first with the letters k to m of the second."""
    if i == j:
        return -2 * (m - k)
    if k == m:
        return -2 * (j - i)
    pair = 3 if first[j - 1] == second[m - 1] else -3
    return max(
        aligned(i, j - 1, k, m - 1) + pair,
        aligned(i, j - 1, k, m) - 2,
        aligned(i, j, k, m - 1) - 2,
    )


ends = []
for j in range(1, len(first) + 1):
    stretches = ((i, k, m) for i in range(j) for m in range(len(second) + 1) for k in range(m + 1))
    ends.append(max(0, max(aligned(i, j, k, m) for i, k, m in stretches)))
print("Best", max(ends), sep=",")
for i, score in enumerate(ends, 1):
    print("EndsAt", i, score, sep=",")
