"""All ways to put parentheses around a chain, each with the multiplications that it takes."""
sizes = [int(line.split(",")[1]) for line in open("p.csv")]


def costs(i, j):
    """The cost of each way to multiply the matrices i to j."""
    if i == j:
        yield 0
    for k in range(i, j):
        last = sizes[i - 1] * sizes[k] * sizes[j]
        for left in costs(i, k):
            for right in costs(k + 1, j):
                yield left + right + last


for i in range(1, len(sizes)):
    for j in range(i, len(sizes)):
        print("Cost", i, j, min(costs(i, j)), sep=",")
