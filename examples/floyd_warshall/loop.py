"""From each node on its own, after Dijkstra; 1000000 stands for no edge and for no path."""
from heapq import heappop, heappush

NONE = 1000000
edges = {}
for line in open("weight.csv"):
    i, j, weight = map(int, line.split(","))
    edges.setdefault(i, {})
    if i != j and weight < NONE:
        edges[i][j] = weight

for start in sorted(edges):
    found = {}
    heap = [(0, start)]
    while heap:
        distance, node = heappop(heap)
        if node not in found:
            found[node] = distance
            for after, weight in edges[node].items():
                heappush(heap, (distance + weight, after))
    for node in sorted(edges):
        print("Distance", start, node, found.get(node, NONE), sep=",")
