"""The living cells as a set; each adds one to the count of the cells around it."""
from collections import Counter

alive, board = set(), []
for line in open("a.csv"):
    i, j, value = map(int, line.split(","))
    board.append((i, j))
    if value:
        alive.add((i, j))

steps = [(di, dj) for di in (-1, 0, 1) for dj in (-1, 0, 1) if (di, dj) != (0, 0)]
for _ in range(4):
    count = Counter((i + di, j + dj) for i, j in alive for di, dj in steps)
    alive = {cell for cell in board if count[cell] == 3 or count[cell] == 2 and cell in alive}
for i, j in board:
    print("Y", i, j, int((i, j) in alive), sep=",")
