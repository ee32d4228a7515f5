"""second.py FOLDER..: what the values program prints for each deck that is accepted, by NetworkX on a MultiDiGraph and with none of the library's code: Dijkstra's
distances, those of a breadth-first search, descendants; headroom is the greatest figure such that the segments of that figure and above lead to a
station, worst stretch the least such that those of it and below do. Holds the folder's `expected` to it. Exit status 1 where one differs."""

import sys
from pathlib import Path

try:
    import networkx
except ImportError:
    print("samples: skipped: the outputs by NetworkX, which is not here")
    sys.exit()

M = 4294967295


def lines_of(path):
    """The words of each line; of a good text, so that comments are all that has to be told from the rest."""
    return [line.split(" ") for line in path.read_text("latin-1").split("\n") if line and line[0] != "c"]


def led_to(stations, segments, source):
    """Each station that the segments lead to, laid one by one, with the figure of the one that was needed last."""
    part, found = networkx.DiGraph(), {}
    part.add_nodes_from(stations)
    for tail, head, figure in segments:
        part.add_edge(tail, head)
        if (tail == source or tail in found) and head not in found:
            found.update((station, figure) for station in networkx.descendants(part, source) if station not in found)
    return found


def values(folder):
    (_, _, n, _), *arcs = lines_of(folder / "deck.gr")
    _, *sources = lines_of(folder / "deck.ss")
    segments, stations = [tuple(map(int, words[1:])) for words in arcs], range(1, int(n) + 1)
    graph = networkx.MultiDiGraph()
    graph.add_nodes_from(stations)
    graph.add_weighted_edges_from(segments)
    rising, found = sorted(segments, key=lambda segment: segment[2]), {}
    yield "source station time handovers headroom worst reach"
    for source in [int(station) for _, station in sources]:
        if source not in found:
            time = networkx.single_source_dijkstra_path_length(graph, source)
            handovers = networkx.single_source_shortest_path_length(graph, source)
            headroom, worst = ({**led_to(stations, order, source), source: own} for order, own in ((reversed(rising), M), (rising, 0)))
            found[source] = [(time.get(v, M), handovers.get(v, M), headroom.get(v, 0), worst.get(v, M), int(v in time)) for v in stations]
        for station, words in zip(stations, found[source]):
            yield " ".join(map(str, (source, station, *words)))


good = [folder for folder in map(Path, sys.argv[1:]) if not (folder / "expected").read_text().startswith("refused ")]
bad = [folder for folder in good if "".join(line + "\n" for line in values(folder)) != (folder / "expected").read_text()]
for folder in bad:
    print(f"samples: {folder}: NetworkX has another output")
print(f"samples: {len(good) - len(bad)} accepted ones as expected by NetworkX")
sys.exit(1 if bad else 0)
