"""A coefficient at a time: the second polynomial is shifted, scaled and added."""
first = [int(line.split(",")[1]) for line in open("a.csv")]
second = [int(line.split(",")[1]) for line in open("b.csv")]

product = [0] * (len(first) + len(second) - 1)
for shift, factor in enumerate(first):
    for place, coefficient in enumerate(second):
        product[shift + place] += factor * coefficient
for p, value in enumerate(product):
    print("C", p, value, sep=",")
