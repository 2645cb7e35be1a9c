"""Words are changed letter by letter, breadth first, until the other word comes up."""


def word(name):
    return "".join(chr(int(line.split(",")[1])) for line in open(name))


def changed(text, letters):
    for place in range(len(text) + 1):
        head, tail = text[:place], text[place:]
        if tail:
            yield head + tail[1:]
        for letter in letters:
            yield head + letter + tail
            if tail:
                yield head + letter + tail[1:]


def edits(start, goal):
    """Two fronts, one from each word, that meet after as many steps as there are edits."""
    letters = set(start + goal)
    near, far, steps = {start}, {goal}, 0
    while not near & far:
        if len(near) > len(far):
            near, far = far, near
        near = near | {text for old in near for text in changed(old, letters)}
        steps += 1
    return steps


first, second = word("a.csv"), word("b.csv")
for i in range(len(first) + 1):
    for j in range(len(second) + 1):
        print("D", i, j, edits(first[:i], second[:j]), sep=",")
