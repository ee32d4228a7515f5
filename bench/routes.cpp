// Times of routes beside Boost.Graph, on the same pairs of the same network in the same process. Every route that is timed or counted is compared with
// ours. Usage: routes [REPEATS]; routes boost WHAT runs Boost alone, to count instructions: route1 to route5, routebuilt1 .., search1 .., searchbuilt1 ..,
// and on the network with twins twinroute1 ..
#include "boost.h"
#include "times.h"

#include <boost/graph/filtered_graph.hpp>

#include <cstring>

namespace {

template <uint32_t P> uint32_t along(uint32_t v, uint32_t w)
{
    switch (P) {
    case 1: return Sum()(v, w);
    case 2: return Sum()(v, 1);
    case 3: return Least()(v, w);
    case 4: return Greatest()(v, w);
    default: return v;
    }
}

// Whether an edge can lie on a best route of value `value`, where `row` has the best values from the source: for 1 and 2 it is tight, for 3, 4
// and 5 its own value is no worse. `Reversed` is for the reversed graph.
template <uint32_t P, bool Reversed, class G> struct Eligible {
    const G *g = nullptr;
    const uint32_t *row = nullptr;
    uint32_t value = 0;
    bool operator()(typename boost::graph_traits<G>::edge_descriptor e) const
    {
        uint32_t weight = (*g)[e].weight;
        if (P > 2)
            return P == 5 || (P == 3 ? weight >= value : weight <= value);
        uint32_t a = static_cast<uint32_t>(source(e, *g)), b = static_cast<uint32_t>(target(e, *g));
        return along<P>(row[Reversed ? b : a], weight) == row[Reversed ? a : b];
    }
};
template <uint32_t P, class G> using Ahead = boost::filtered_graph<G, Eligible<P, false, G>>;
template <uint32_t P, class G> using Back = boost::filtered_graph<G, Eligible<P, true, G>>;

// The lists that a route is written to.
struct Lists {
    uint32_t *vertices, *marks, *figures;
};

// The marks of `k` edges by their figures.
template <uint32_t P> void mark(uint32_t k, Lists out)
{
    uint32_t value = P == 3 ? M : P == 5 ? 1 : 0;
    for (uint32_t i = 0; i < k; i++) {
        uint32_t next = along<P>(value, out.figures[i]);
        out.marks[i] = P <= 2 || next != value;
        value = next;
    }
}

// By the best values from the source, then the hops on to the target along the edges that can lie on a best route, then from the source on always
// to the lowest vertex that is one hop nearer: out-edges ascend by head and then weight, so that it is the first, with the lowest figure.
template <uint32_t P, class G> uint32_t route_by_hops(const BothOf<G> &g, uint32_t s, uint32_t t, Lists out)
{
    std::vector<uint32_t> row(num_vertices(g.ahead)), left(row.size());
    boost_row(g.ahead, P, s, row.data());
    hops(Back<P, G>(g.back, {&g.back, row.data(), row[t]}), t, left.data());
    if (left[s] == M)
        return 0;
    Ahead<P, G> ahead(g.ahead, {&g.ahead, row.data(), row[t]});
    uint32_t k = left[s];
    out.vertices[0] = s;
    for (uint32_t i = 0; i < k; i++) {
        auto e = out_edges(out.vertices[i], ahead).first;
        while (left[target(*e, ahead)] != k - i - 1)
            ++e;
        out.vertices[i + 1] = static_cast<uint32_t>(target(*e, ahead));
        out.figures[i] = g.ahead[*e].weight;
    }
    mark<P>(k, out);
    return k + 1;
}

// A queue of a search that stands empty as soon as `target` is found, so that the search ends.
struct Until {
    const boost::default_color_type *target;
    std::vector<size_t> list;
    size_t at = 0;
    void push(size_t v) { list.push_back(v); }
    void pop() { at++; }
    size_t top() const { return list[at]; }
    bool empty() const { return at == list.size() || *target != boost::white_color; }
};

// Breadth first from the source, out-edges in table order, until the target is found; then back along the edges by which the vertices were found.
template <uint32_t P, class G> uint32_t search(const G &g, uint32_t s, uint32_t t, Lists out)
{
    auto index = boost::get(boost::vertex_index, g);
    std::vector<typename boost::graph_traits<G>::edge_descriptor> via(num_vertices(g));
    std::vector<boost::default_color_type> colors(via.size(), boost::white_color);
    Until queue{&colors[t], {}};
    queue.list.reserve(via.size());
    auto record = boost::record_edge_predecessors(boost::make_iterator_property_map(via.begin(), index), boost::on_tree_edge());
    boost::breadth_first_visit(g, s, queue, boost::make_bfs_visitor(record), boost::make_iterator_property_map(colors.begin(), index));
    if (colors[t] == boost::white_color)
        return 0;
    uint32_t k = 0;
    for (uint32_t u = t; u != s; u = static_cast<uint32_t>(source(via[u], g)))
        k++;
    uint32_t u = out.vertices[k] = t;
    for (uint32_t i = k; i-- > 0;) {
        out.figures[i] = g[via[u]].weight;
        u = out.vertices[i] = static_cast<uint32_t>(source(via[u], g));
    }
    mark<P>(k, out);
    return k + 1;
}

// By our own method: for 1, 3 and 4 the best values and then the search along the edges that can lie on a best route; for 2 and 5 the search alone.
template <uint32_t P, class G> uint32_t route_by_search(const G &g, uint32_t s, uint32_t t, Lists out)
{
    if (P == 2 || P == 5)
        return search<P>(g, s, t, out);
    std::vector<uint32_t> row(num_vertices(g));
    boost_row(g, P, s, row.data());
    return search<P>(Ahead<P, G>(g, {&g, row.data(), row[t]}), s, t, out);
}

template <class G> uint32_t route_by_hops(const BothOf<G> &g, uint32_t property, uint32_t s, uint32_t t, Lists out)
{
    switch (property) {
    case 1: return route_by_hops<1>(g, s, t, out);
    case 2: return route_by_hops<2>(g, s, t, out);
    case 3: return route_by_hops<3>(g, s, t, out);
    case 4: return route_by_hops<4>(g, s, t, out);
    default: return route_by_hops<5>(g, s, t, out);
    }
}

template <class G> uint32_t route_by_search(const G &g, uint32_t property, uint32_t s, uint32_t t, Lists out)
{
    switch (property) {
    case 1: return route_by_search<1>(g, s, t, out);
    case 2: return route_by_search<2>(g, s, t, out);
    case 3: return route_by_search<3>(g, s, t, out);
    case 4: return route_by_search<4>(g, s, t, out);
    default: return route_by_search<5>(g, s, t, out);
    }
}

template <class G> const BothOf<G> &both_of(const void *both) { return *static_cast<const BothOf<G> *>(both); }

const Network &network_of(const void *network) { return *static_cast<const Network *>(network); }

} // namespace

extern "C" __attribute__((noinline)) uint32_t boost_route(const void *both, uint32_t property, uint32_t source, uint32_t target, Lists *out)
{
    return route_by_hops(both_of<Graph>(both), property, source, target, *out);
}

extern "C" __attribute__((noinline)) uint32_t boost_route_built(const void *network, uint32_t property, uint32_t source, uint32_t target, Lists *out)
{
    return route_by_hops(build(network_of(network)), property, source, target, *out);
}

extern "C" __attribute__((noinline)) uint32_t boost_search(const void *both, uint32_t property, uint32_t source, uint32_t target, Lists *out)
{
    return route_by_search(both_of<Graph>(both).ahead, property, source, target, *out);
}

extern "C" __attribute__((noinline)) uint32_t boost_search_built(const void *network, uint32_t property, uint32_t source, uint32_t target, Lists *out)
{
    return route_by_search(build(network_of(network), false), property, source, target, *out);
}

extern "C" __attribute__((noinline)) uint32_t boost_twin_route(const void *both, uint32_t property, uint32_t source, uint32_t target, Lists *out)
{
    return route_by_hops(both_of<Multigraph>(both), property, source, target, *out);
}

extern "C" __attribute__((noinline)) uint32_t boost_twin_route_built(const void *network, uint32_t property, uint32_t source, uint32_t target, Lists *out)
{
    return route_by_hops(build<Multigraph>(network_of(network)), property, source, target, *out);
}

extern "C" __attribute__((noinline)) uint32_t boost_twin_search(const void *both, uint32_t property, uint32_t source, uint32_t target, Lists *out)
{
    return route_by_search(both_of<Multigraph>(both).ahead, property, source, target, *out);
}

extern "C" __attribute__((noinline)) uint32_t boost_twin_search_built(const void *network, uint32_t property, uint32_t source, uint32_t target, Lists *out)
{
    return route_by_search(build<Multigraph>(network_of(network), false), property, source, target, *out);
}

namespace {

// The four ways to Boost's route: by hops or by our search, its graphs standing built or built in the call.
struct Way {
    const char *word;
    uint32_t (*route)(const void *from, uint32_t property, uint32_t source, uint32_t target, Lists *out);
    bool built;
};
const Way ways[] = {{"route", boost_route, false}, {"routebuilt", boost_route_built, true}, {"search", boost_search, false}, {"searchbuilt", boost_search_built, true}};
const Way twin_ways[] = {{"twinroute", boost_twin_route, false},
                         {"twinroutebuilt", boost_twin_route_built, true},
                         {"twinsearch", boost_twin_search, false},
                         {"twinsearchbuilt", boost_twin_search_built, true}};

// The ways over a kind of graph, its twins, and how a line names the network.
template <class G> struct Of;
template <> struct Of<Graph> {
    static const Way *all() { return ways; }
    static const uint32_t twins = 0;
    static constexpr const char *name = "";
};
template <> struct Of<Multigraph> {
    static const Way *all() { return twin_ways; }
    static const uint32_t twins = fifth;
    static constexpr const char *name = ", a fifth twins";
};

template <class G> void boost(const Way &way, const Network &w, const BothOf<G> &g, uint32_t property, Pair pair, Route &r)
{
    const void *from = way.built ? static_cast<const void *>(&w) : &g;
    Lists out{r.vertices.data(), r.marks.data(), r.figures.data()};
    r.count = way.route(from, property, pair.source, pair.target, &out);
}

// Boost's route of each pair, compared with ours.
template <class G> void boost_routes(const Way &way, const Network &w, const BothOf<G> &g, uint32_t property, const std::vector<Pair> &pairs)
{
    for (Pair pair : pairs) {
        Route ours(w.n), theirs(w.n);
        route(w, property, pair, ours);
        boost(way, w, g, property, pair, theirs);
        same("route, Boost", {ours.count}, {theirs.count});
        same("route, Boost, vertices", ours.vertices, theirs.vertices);
        same("route, Boost, marks", ours.marks, theirs.marks);
        same("route, Boost, figures", ours.figures, theirs.figures);
    }
}

template <class G> void route_times(int repeats, uint32_t n, uint32_t edges)
{
    Network w = make(n, edges, 100, Of<G>::twins);
    open(w);
    BothOf<G> g = build<G>(w);
    auto pairs = drawn_pairs(w);
    const int inputs = static_cast<int>(pairs.size());
    Route r(n);
    for (uint32_t p = 1; p <= 5; p++) {
        std::vector<double> times{best(repeats, inputs, [&](int i) { route(w, p, pairs[i], r); })};
        for (int k = 0; k < 4; k++) {
            const Way &way = Of<G>::all()[k];
            boost_routes(way, w, g, p, pairs);
            times.push_back(best(repeats, inputs, [&](int i) { boost(way, w, g, p, pairs[i], r); }));
        }
        std::printf("route %3u %4u%s %-9s: ours %6.1f us; Boost %6.1f us, with its graphs built %6.1f us; by our search %6.1f us, with its graph built %6.1f us\n", n, edges,
                    Of<G>::name, names[p - 1], times[0], times[1], times[2], times[3], times[4]);
    }
}

template <class G> void boost_once(const std::string &what)
{
    Network w = first_network(what);
    open(w);
    for (int k = 0; k < 4; k++) {
        const Way &way = Of<G>::all()[k];
        if (what.substr(0, what.size() - 1) == way.word)
            boost_routes(way, w, build<G>(w), number_in(what), drawn_pairs(w));
    }
}

} // namespace

int main(int argc, char **argv)
{
    if (argc == 3 && !std::strcmp(argv[1], "boost")) {
        is_twin(argv[2]) ? boost_once<Multigraph>(argv[2]) : boost_once<Graph>(argv[2]);
        return 0;
    }
    const int repeats = argc > 1 ? std::atoi(argv[1]) : 15;
    route_times<Graph>(repeats, 256, 2048);
    route_times<Multigraph>(repeats, 256, 2048);
    return 0;
}
