"""Each sum is taken anew, over all pixels of its rectangle."""
image = {}
for line in open("a.csv"):
    i, j, value = map(int, line.split(","))
    image[i, j] = value
height, width = max(image)


def total(top, bottom, left, right):
    return sum(image[i, j] for i in range(top, bottom + 1) for j in range(left, right + 1))


for i in range(height + 1):
    for j in range(width + 1):
        print("Sum", i, j, total(1, i, 1, j), sep=",")
for i in range(2, height):
    for j in range(2, width):
        print("Window", i, j, total(i - 1, i + 1, j - 1, j + 1), sep=",")
