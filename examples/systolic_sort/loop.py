"""The numbers in order, by Python's sort."""
numbers = [int(line.split(",")[1]) for line in open("a.csv")]
for j, value in enumerate(sorted(numbers), 1):
    print("Sorted", j, value, sep=",")
