"""route.py LIBRARY DRAWN [REPEATS]: times of routes through ctypes beside NetworkX, on the benchmark's first network and the first 20 of its pairs
(`count drawn`). NetworkX goes by the best values from the source, the edges that can lie on a best route as a graph of their own, the hops on to the
target, and then from the source on always to the lowest vertex that is one hop nearer. Every route is compared with ours before it is timed. Without
NetworkX ours alone are timed.
"""

import ctypes
import heapq
import sys
import time

try:
    import networkx
except ImportError:
    networkx = None

M = 0xFFFFFFFF
PROPERTIES = {1: "time", 2: "handovers", 3: "headroom", 4: "worst", 5: "reach"}
PAIRS = 20
LEAST_TABLE = 2048


def read_drawn(path):
    """How many vertices, the edges and the pairs."""
    with open(path) as file:
        n, count, _ = map(int, file.readline().split())
        rows = [tuple(map(int, line.split())) for line in file]
    return n, rows[:count], rows[count:]


# ---- ours


class Ours:
    """The call, its lists standing lent."""

    def __init__(self, library, n, edges):
        def words(values, length):
            return (ctypes.c_uint32 * length)(*values)

        columns = [words(column, max(LEAST_TABLE, len(edges))) for column in zip(*edges)]
        self.function = ctypes.CDLL(library).plate_track_route_v2
        self.function.restype = ctypes.c_uint32
        self.vertices, self.marks, self.figures = (words([], n) for _ in range(3))
        self.reply = (ctypes.c_uint64 * 8)()
        size = ctypes.c_size_t
        self.table = [ctypes.c_uint32(n), *(x for c in columns for x in (c, size(len(c)))), ctypes.c_uint32(len(edges))]
        self.lists = [x for c in (self.vertices, self.marks, self.figures, self.reply) for x in (c, size(len(c)))]

    def call(self, p, s, t):
        word = ctypes.c_uint32
        if self.function(*self.table, word(p), word(s), word(t), *self.lists):
            sys.exit("route.py: a route is refused")

    def route(self, p, s, t):
        self.call(p, s, t)
        count = self.reply[0]
        return self.vertices[:count], self.marks[: count - 1], self.figures[: count - 1]


# ---- NetworkX


def bottlenecks(graph, s, p):
    """The best values of headroom or worst stretch: NetworkX's Dijkstra adds weights up, so this is its loop with another step. Values of headroom
    are negative here, so that less is better for both."""
    values, seen, heap = {}, {s: -M if p == 3 else 0}, []
    heapq.heappush(heap, (seen[s], s))
    while heap:
        value, u = heapq.heappop(heap)
        if u in values:
            continue
        values[u] = value
        for v, data in graph.adj[u].items():
            x = max(value, -data["weight"] if p == 3 else data["weight"])
            if v not in values and (v not in seen or x < seen[v]):
                seen[v] = x
                heapq.heappush(heap, (x, v))
    return values


def eligible(graph, p, s, t):
    """The edges that can lie on a best route from s to t: for 1 and 2 the tight ones, for 3 and 4 those whose own value is no worse, for 5 all."""
    edges = graph.edges(data="weight")
    if p == 1:
        row = networkx.single_source_dijkstra_path_length(graph, s)
        return [(u, v) for u, v, w in edges if u in row and row[u] + w == row[v]]
    if p == 2:
        row = dict(networkx.single_source_shortest_path_length(graph, s))
        return [(u, v) for u, v, w in edges if u in row and row[u] + 1 == row[v]]
    if p == 5:
        return [(u, v) for u, v, w in edges]
    value = bottlenecks(graph, s, p)[t]
    return [(u, v) for u, v, w in edges if (-w if p == 3 else w) <= value]


def theirs(graph, p, s, t):
    """The vertices, marks and figures of the route: there are no twins."""
    best = networkx.DiGraph(eligible(graph, p, s, t))
    left = dict(networkx.single_source_shortest_path_length(best.reverse(copy=False), t))
    vertices, marks, figures = [s], [], []
    value = M if p == 3 else 0
    while vertices[-1] != t:
        u = vertices[-1]
        v = min(v for v in best.adj[u] if left.get(v, M) == left[u] - 1)
        figures.append(graph.adj[u][v]["weight"])
        after = {3: min, 4: max}.get(p, lambda a, b: a)(value, figures[-1])
        marks.append(int(p <= 2 or after != value))
        value = after
        vertices.append(v)
    return vertices, marks, figures


# ---- time


def best_time(repeats, pairs, function):
    """Microseconds on average over the pairs, the best of the repeats for each."""
    total = 0.0
    for s, t in pairs:
        least = 1e300
        for _ in range(repeats):
            start = time.perf_counter()
            function(s, t)
            least = min(least, time.perf_counter() - start)
        total += least
    return 1e6 * total / len(pairs)


def main(library, drawn, repeats=5):
    n, edges, pairs = read_drawn(drawn)
    pairs = pairs[:PAIRS]
    ours = Ours(library, n, edges)
    if networkx is None:
        print("route.py: NetworkX is missing, ours alone")
    else:
        graph = networkx.DiGraph()
        graph.add_nodes_from(range(n))
        graph.add_weighted_edges_from(edges)
    for p, name in PROPERTIES.items():
        line = f"route from Python {n} {len(edges)} {name:9}: ours {best_time(10 * repeats, pairs, lambda s, t: ours.call(p, s, t)):.1f} us"
        if networkx is not None:
            for s, t in pairs:
                if ours.route(p, s, t) != theirs(graph, p, s, t):
                    sys.exit(f"route.py: {name} from {s} to {t}: the routes differ")
            line += f", NetworkX {networkx.__version__} {best_time(repeats, pairs, lambda s, t: theirs(graph, p, s, t)):.1f} us"
        print(line)


if __name__ == "__main__":
    main(sys.argv[1], sys.argv[2], *map(int, sys.argv[3:]))
