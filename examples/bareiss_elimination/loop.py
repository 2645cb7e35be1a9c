"""Each leading minor by the sum over all permutations."""
from itertools import combinations, permutations
from math import prod

matrix = {}
for line in open("a.csv"):
    i, j, value = map(int, line.split(","))
    matrix[i, j] = value
size = max(i for i, j in matrix)

for k in range(size + 1):
    minor = 0
    for order in permutations(range(1, k + 1)):
        swaps = sum(a > b for a, b in combinations(order, 2))
        minor += (-1) ** swaps * prod(matrix[i + 1, j] for i, j in enumerate(order))
    print("Minor", k, minor, sep=",")
