"""All paths through the states are tried; a state is marked where some best path goes."""
from itertools import product


def table(name):
    rows = (list(map(int, line.split(","))) for line in open(name))
    return {tuple(place): value for *place, value in rows}


initial, transition, emission = table("initial.csv"), table("transition.csv"), table("emission.csv")
times, states = range(1, max(emission)[0] + 1), range(1, len(initial) + 1)


def score(path):
    moves = sum(transition[pair] for pair in zip(path, path[1:]))
    return initial[path[:1]] + moves + sum(emission[t, s] for t, s in zip(times, path))


paths = list(product(states, repeat=len(times)))
best = max(map(score, paths))
marked = {place for path in paths if score(path) == best for place in zip(times, path)}
print("Best", best, sep=",")
for t in times:
    for s in states:
        print("OnPath", t, s, int((t, s) in marked), sep=",")
