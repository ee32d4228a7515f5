// What the benchmarks share of Boost.Graph: the graphs of a network, and a row of best values from one vertex.
#pragma once
#include "network.h"

#include <boost/graph/adjacency_list.hpp>
#include <boost/graph/breadth_first_search.hpp>
#include <boost/graph/compressed_sparse_row_graph.hpp>
#include <boost/graph/dijkstra_shortest_paths.hpp>

#include <functional>

namespace {

struct Weight {
    uint32_t weight;
};

// The graph of a network without twins, and the one of a network with them, which has parallel edges in a list for each vertex.
using Graph = boost::compressed_sparse_row_graph<boost::directedS, boost::no_property, Weight>;
using Multigraph = boost::adjacency_list<boost::vecS, boost::vecS, boost::directedS, boost::no_property, Weight>;

template <class G> struct BothOf {
    G ahead, back;
};
using Both = BothOf<Graph>;

using Pairs = std::vector<std::pair<uint32_t, uint32_t>>;

Graph made(const Graph *, const Pairs &pairs, const std::vector<Weight> &weights, uint32_t n)
{
    return Graph(boost::edges_are_unsorted_multi_pass, pairs.begin(), pairs.end(), weights.begin(), n);
}

Multigraph made(const Multigraph *, const Pairs &pairs, const std::vector<Weight> &weights, uint32_t n)
{
    return Multigraph(pairs.begin(), pairs.end(), weights.begin(), n);
}

template <class G = Graph> G build(const Network &w, bool reversed)
{
    Pairs pairs;
    std::vector<Weight> weights;
    for (uint32_t i = 0; i < w.count; i++) {
        pairs.push_back(reversed ? std::make_pair(w.heads[i], w.tails[i]) : std::make_pair(w.tails[i], w.heads[i]));
        weights.push_back({w.weights[i]});
    }
    return made(static_cast<const G *>(nullptr), pairs, weights, w.n);
}

template <class G = Graph> BothOf<G> build(const Network &w) { return {build<G>(w, false), build<G>(w, true)}; }

struct Sum {
    uint32_t operator()(uint32_t a, uint32_t b) const { return a > M - b ? M : a + b; }
};
struct Least {
    uint32_t operator()(uint32_t a, uint32_t b) const { return std::min(a, b); }
};
struct Greatest {
    uint32_t operator()(uint32_t a, uint32_t b) const { return std::max(a, b); }
};

template <class G, class Better, class Along> void dijkstra(const G &g, uint32_t s, uint32_t *out, Better better, uint32_t none, uint32_t start, Along along)
{
    boost::dijkstra_shortest_paths(g, s,
                                   boost::weight_map(boost::get(&Weight::weight, g))
                                       .distance_map(boost::make_iterator_property_map(out, boost::get(boost::vertex_index, g)))
                                       .distance_compare(better)
                                       .distance_combine(along)
                                       .distance_inf(none)
                                       .distance_zero(start));
}

template <class G> void hops(const G &g, uint32_t s, uint32_t *out)
{
    std::fill(out, out + num_vertices(g), M);
    out[s] = 0;
    auto map = boost::make_iterator_property_map(out, boost::get(boost::vertex_index, g));
    boost::breadth_first_search(g, s, boost::visitor(boost::make_bfs_visitor(boost::record_distances(map, boost::on_tree_edge()))));
}

template <class G> void boost_row(const G &g, uint32_t property, uint32_t s, uint32_t *out)
{
    switch (property) {
    case 1: dijkstra(g, s, out, std::less<uint32_t>(), M, 0, Sum()); break;
    case 2: hops(g, s, out); break;
    case 3: dijkstra(g, s, out, std::greater<uint32_t>(), 0, M, Least()); break;
    case 4: dijkstra(g, s, out, std::less<uint32_t>(), M, 0, Greatest()); break;
    default:
        hops(g, s, out);
        std::transform(out, out + num_vertices(g), out, [](uint32_t v) { return v == M ? 0u : 1u; });
    }
}

} // namespace
