"""The binomial coefficients by factorials, and the sums of the rows as powers of two."""
from math import comb

last = 8
for n in range(last + 1):
    for k in range(n + 1):
        print("B", n, k, comb(n, k), sep=",")
for n in range(last + 1):
    print("Row", n, 2**n, sep=",")
