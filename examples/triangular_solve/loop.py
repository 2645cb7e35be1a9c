"""Column by column: once an unknown is found, it is taken out of all rows below."""
below = {}
for line in open("l.csv"):
    i, k, value = map(int, line.split(","))
    below[i, k] = value
left = {}
for line in open("b.csv"):
    i, r, value = map(int, line.split(","))
    left[i, r] = value

size = max(i for i, r in left)
for k in range(1, size + 1):
    for i in range(k + 1, size + 1):
        for r in 1, 2:
            left[i, r] -= below[i, k] * left[k, r]
for (i, r), value in sorted(left.items()):
    print("X", i, r, value, sep=",")
