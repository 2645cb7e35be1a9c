"""The product as rows times columns."""


def matrix(name):
    rows = {}
    for line in open(name):
        i, j, value = map(int, line.split(","))
        rows.setdefault(i, {})[j] = value
    return [[row[j] for j in sorted(row)] for _, row in sorted(rows.items())]


columns = list(zip(*matrix("b.csv")))
for i, row in enumerate(matrix("a.csv")):
    for j, column in enumerate(columns):
        print("C", i, j, sum(x * y for x, y in zip(row, column)), sep=",")
