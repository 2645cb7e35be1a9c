"""All subsequences of the first word are tried, the longest first, against each beginning of the second."""
from itertools import combinations


def word(name):
    return "".join(chr(int(line.split(",")[1])) for line in open(name))


def is_within(part, whole):
    letters = iter(whole)
    return all(letter in letters for letter in part)


def longest(first, second):
    for length in range(len(first), -1, -1):
        if any(is_within(part, second) for part in combinations(first, length)):
            return length


first, second = word("a.csv"), word("b.csv")
print("Longest", longest(first, second), sep=",")
for j in range(len(second) + 1):
    print("Prefix", j, longest(first, second[:j]), sep=",")
