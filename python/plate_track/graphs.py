"""Decks from NetworkX graphs and back; needs networkx."""

from .deck import Deck


def from_networkx(graph, weight="weight"):
    """The deck of a graph, not yet opened, and the list of its nodes: vertex i is node i of the list. An edge without the attribute `weight` has
    weight 1, as in NetworkX; an edge of an undirected graph goes both ways; parallel edges of a multigraph are twins, whatever their keys. Weights are
    whole numbers. What a deck can't have, as a loop, a 257th node or parallel edges of one weight, is refused when it is opened."""
    nodes = list(graph)
    vertex = {node: i for i, node in enumerate(nodes)}
    edges = [(vertex[u], vertex[v], w) for u, v, w in graph.edges(data=weight, default=1)]
    if not graph.is_directed():
        edges += [(head, tail, w) for tail, head, w in edges]
    return Deck(len(nodes), edges), nodes


def to_networkx(deck, nodes=None, weight="weight"):
    """The deck's network as it is now, as a MultiDiGraph on these nodes (0 to n - 1 where none are given). An edge's key is its weight, which is an
    attribute too: (tail, head, key) are the three numbers of an edge."""
    import networkx

    nodes = range(deck.n) if nodes is None else nodes
    graph = networkx.MultiDiGraph()
    graph.add_nodes_from(nodes)
    graph.add_edges_from((nodes[t], nodes[h], w, {weight: w}) for t, h, w in deck.edges())
    return graph
