"""The sum of coefficients times powers."""
coefficients = [int(line.split(",")[1]) for line in open("c.csv")]
for x in range(-5, 6):
    print("Y", x, sum(c * x**k for k, c in enumerate(coefficients)), sep=",")
