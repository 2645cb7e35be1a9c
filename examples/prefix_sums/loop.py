"""The rows of both outputs, by the running sums of itertools."""
from itertools import accumulate

numbers = [int(line.split(",")[1]) for line in open("a.csv")]
sums = list(accumulate(numbers))
for name in "Scan", "Fold":
    for i, value in enumerate(sums):
        print(name, i, value, sep=",")
