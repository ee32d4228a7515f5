// Times of the calls beside the same rounds in plain Rust (plain.rs) and Boost.Graph, on the same networks in the same process. Every
// result that is timed is compared first. Usage: bench [REPEATS]; bench boost WHAT runs Boost alone, to count instructions:
// rows, query1 to query5, better1 to worse100 (its rows on each retuned table), and on the network with twins twinrows, twinquery1 to twinquery5.
#include "boost.h"
#include "times.h"

#include <cstring>

namespace {

template <class G> void rows(const void *both, const void *network, uint32_t *forward, uint32_t *backward)
{
    const BothOf<G> &g = *static_cast<const BothOf<G> *>(both);
    const Network &w = *static_cast<const Network *>(network);
    for (uint32_t l : w.landmarks)
        for (uint32_t p = 1; p <= 5; p++, forward += w.n, backward += w.n) {
            boost_row(g.ahead, p, l, forward);
            boost_row(g.back, p, l, backward);
        }
}

} // namespace

extern "C" __attribute__((noinline)) void boost_rows(const void *both, const void *network, uint32_t *forward, uint32_t *backward)
{
    rows<Graph>(both, network, forward, backward);
}

extern "C" __attribute__((noinline)) void boost_twin_rows(const void *both, const void *network, uint32_t *forward, uint32_t *backward)
{
    rows<Multigraph>(both, network, forward, backward);
}

extern "C" __attribute__((noinline)) void boost_query(const void *network, uint32_t property, uint32_t source, uint32_t *out)
{
    boost_row(build(*static_cast<const Network *>(network), false), property, source, out);
}

extern "C" __attribute__((noinline)) void boost_twin_query(const void *network, uint32_t property, uint32_t source, uint32_t *out)
{
    boost_row(build<Multigraph>(*static_cast<const Network *>(network), false), property, source, out);
}

namespace {

// Boost's rows and query on either kind of graph, and how a line names the network.
template <class G> struct Of;
template <> struct Of<Graph> {
    static void rows(const Both &g, Network &w) { boost_rows(&g, &w, w.forward.data(), w.backward.data()); }
    static const uint32_t twins = 0;
    static constexpr const char *name = "";
};
template <> struct Of<Multigraph> {
    static void rows(const BothOf<Multigraph> &g, Network &w) { boost_twin_rows(&g, &w, w.forward.data(), w.backward.data()); }
    static const uint32_t twins = fifth;
    static constexpr const char *name = ", a fifth twins";
};

// ---- time

template <class G = Graph> void open_times(int repeats, uint32_t n, uint32_t edges)
{
    const int networks = 8;
    std::vector<Network> ours, theirs;
    std::vector<BothOf<G>> graphs;
    for (int i = 0; i < networks; i++) {
        ours.push_back(make(n, edges, 100 + i, Of<G>::twins));
        theirs.push_back(ours.back());
        graphs.push_back(build<G>(ours.back()));
        open(ours[i]);
        plain(theirs[i]);
        same("open, plain Rust", ours[i].forward, theirs[i].forward);
        same("open, plain Rust", ours[i].backward, theirs[i].backward);
        Of<G>::rows(graphs[i], theirs[i]);
        same("open, Boost", ours[i].forward, theirs[i].forward);
        same("open, Boost", ours[i].backward, theirs[i].backward);
    }
    double a = best(repeats, networks, [&](int i) { open(ours[i]); });
    double b = best(repeats, networks, [&](int i) { plain(theirs[i]); });
    double c = best(repeats, networks, [&](int i) { Of<G>::rows(graphs[i], theirs[i]); });
    std::printf("open %3u %4u%s: ours %8.1f us, plain Rust %8.1f us (ours/plain %.2f), Boost 40 rows %8.1f us (ours/Boost %.2f)\n", n, edges, Of<G>::name, a, b, a / b, c, a / c);
}

template <class G = Graph> void query_times(int repeats, uint32_t n, uint32_t edges)
{
    Network w = make(n, edges, 100, Of<G>::twins);
    open(w);
    BothOf<G> g = build<G>(w);
    for (uint32_t p = 1; p <= 5; p++) {
        // rows that say nothing: the run starts from no route
        Network blank = w;
        for (auto *list : {&blank.forward, &blank.backward})
            std::fill(list->begin(), list->end(), p == 3 || p == 5 ? 0 : M);
        std::vector<uint32_t> starts(n), settled(n), found(n);
        uint64_t with = 0, without = 0;
        for (uint32_t s = 0; s < n; s++) {
            with += query(w, p, s, starts, settled).stores;
            boost_row(g.ahead, p, s, found.data());
            same("query, Boost", settled, found);
            without += query(blank, p, s, starts, found).stores;
            same("query, without landmarks", settled, found);
        }
        double a = best(repeats, n, [&](int s) { query(w, p, s, starts, settled); });
        double b = best(repeats, n, [&](int s) { query(blank, p, s, starts, settled); });
        double c = best(repeats, n, [&](int s) { boost_row(g.ahead, p, s, found.data()); });
        std::printf("query %3u %4u%s %-9s: with landmarks %6.1f us, %6.1f stores; without %6.1f us, %6.1f stores; Boost %6.1f us\n", n, edges, Of<G>::name,
                    names[p - 1], a, double(with) / n, b, double(without) / n, c);
    }
}

template <class G = Graph> void batch_times(int repeats, uint32_t n, uint32_t edges, uint32_t size)
{
    const int rounds = 50;
    Network w = make(n, edges, 100, Of<G>::twins);
    open(w);
    Network before = w;
    Random r{7};
    std::vector<std::pair<Changes, Changes>> list;
    for (int i = 0; i < rounds; i++)
        list.push_back(there_and_back(w, size, r));
    // after the deletes the rows are those of an opening of what is left, and of Boost's recomputation
    for (auto &c : list) {
        batch(w, c.first);
        Network anew = w;
        open(anew);
        same("batch, opened anew", w.forward, anew.forward);
        same("batch, opened anew", w.backward, anew.backward);
        Of<G>::rows(build<G>(w), anew);
        same("batch, Boost", w.forward, anew.forward);
        same("batch, Boost", w.backward, anew.backward);
        batch(w, c.second);
        same("batch, there and back", w.forward, before.forward);
    }
    // a batch of deletes and the batch of inserts that undoes it, halved
    double a = best(repeats, rounds, [&](int i) { batch(w, list[i].first); batch(w, list[i].second); }) / 2;
    Network other = w;
    double b = best(repeats, 4, [&](int) { open(other); });
    BothOf<G> g = build<G>(w);
    double c = best(repeats, 4, [&](int) { Of<G>::rows(g, other); });
    double d = best(repeats, 4, [&](int) { Of<G>::rows(build<G>(w), other); });
    std::printf("batch %3u %4u%s of %3u: ours %8.1f us; opened anew %8.1f us (%.1fx); Boost 40 rows %8.1f us (%.1fx), with its graphs built %8.1f us (%.1fx)\n", n, edges,
                Of<G>::name, size, a, b, b / a, c, c / a, d, d / a);
}

void same_network(const char *what, const Network &a, const Network &b)
{
    same(what, a.tails, b.tails);
    same(what, a.heads, b.heads);
    same(what, a.weights, b.weights);
    same(what, a.forward, b.forward);
    same(what, a.backward, b.backward);
}

// The network after a retune of `w`: the same by updates, by deletes and inserts, opened anew and by Boost; and undone it is `w`.
Network checked(const Network &w, const Retune &c)
{
    Network after = w, other = w;
    batch(after, c.updates);
    batch(other, c.exchange);
    same_network("retune, deletes and inserts", after, other);
    batch(other, c.undo);
    same_network("retune, undone", w, other);
    other = after;
    open(other);
    same_network("retune, opened anew", after, other);
    Both g = build(after);
    boost_rows(&g, &other, other.forward.data(), other.backward.data());
    same_network("retune, Boost", after, other);
    return after;
}

void retune_times(int repeats, uint32_t n, uint32_t edges, uint32_t size, bool faster)
{
    Network w = make(n, edges, 100);
    open(w);
    auto list = drawn_retunes(w, size, faster);
    const int rounds = static_cast<int>(list.size());
    std::vector<Network> after;
    std::vector<Both> graphs;
    for (auto &c : list) {
        after.push_back(checked(w, c));
        graphs.push_back(build(after.back()));
    }
    auto undo = [&](int i) { batch(w, list[i].undo); };
    double a = best(repeats, rounds, [&](int i) { batch(w, list[i].updates); }, undo);
    double b = best(repeats, rounds, [&](int i) { batch(w, list[i].exchange); }, undo);
    Network other = w;
    double c = best(repeats, rounds, [&](int i) { boost_rows(&graphs[i], &other, other.forward.data(), other.backward.data()); });
    double d = best(repeats, rounds, [&](int i) { Both h = build(after[i]); boost_rows(&h, &other, other.forward.data(), other.backward.data()); });
    std::printf("retune %3u %4u of %3u, %s: ours %8.1f us; deletes and inserts %8.1f us (%.2fx); Boost 40 rows %8.1f us (%.1fx), with its graphs built %8.1f us (%.1fx)\n", n,
                edges, size, faster ? "better" : "worse", a, b, b / a, c, c / a, d, d / a);
}

void text_times(int repeats, uint32_t n, uint32_t edges)
{
    const int networks = 8;
    std::vector<Network> list;
    std::vector<Text> ordered, mixed;
    Text ours(PLATE_TRACK_LONGEST_TEXT), theirs = ours;
    size_t bytes = 0;
    for (int i = 0; i < networks; i++) {
        list.push_back(make(n, edges, 100 + i));
        const Network &w = list[i];
        ordered.push_back(text_of(w, true));
        mixed.push_back(text_of(w, false));
        bytes += ordered[i].size();
        if (write(w, ours) != write_plain(w, theirs) || ours != theirs) {
            std::printf("bench: the written texts differ\n");
            std::exit(1);
        }
        for (auto *text : {&ordered[i], &mixed[i]})
            for (auto reader : {read, read_plain}) {
                Network back = w;
                std::fill(back.tails.begin(), back.tails.end(), 0);
                reader(*text, back);
                same("text, tails", back.tails, w.tails);
                same("text, heads", back.heads, w.heads);
                same("text, weights", back.weights, w.weights);
            }
    }
    Network w = list[0];
    double a = best(repeats, networks, [&](int i) { read(ordered[i], w); });
    double b = best(repeats, networks, [&](int i) { read_plain(ordered[i], w); });
    double c = best(repeats, networks, [&](int i) { read(mixed[i], w); });
    double d = best(repeats, networks, [&](int i) { read_plain(mixed[i], w); });
    double e = best(repeats, networks, [&](int i) { write(list[i], ours); });
    double f = best(repeats, networks, [&](int i) { write_plain(list[i], theirs); });
    std::printf("text %3u %4u, %zu bytes: read %.1f us, plain Rust %.1f us (%.2f); in any order %.1f us, plain Rust %.1f us (%.2f); write %.1f us, plain Rust "
                "%.1f us (%.2f)\n",
                n, edges, bytes / networks, a, b, a / b, c, d, c / d, e, f, e / f);
}

// Boost's 40 rows on the table after each of the drawn retunes.
void boost_retunes(const Network &w, uint32_t size, bool faster)
{
    Network other = w;
    for (auto &c : drawn_retunes(w, size, faster)) {
        Network after = w;
        batch(after, c.updates);
        Both g = build(after);
        boost_rows(&g, &other, other.forward.data(), other.backward.data());
    }
}

// Runs Boost alone: its 40 rows, once or on the retuned tables, or (query1 to query5) a row from each vertex, its graph built first as our call
// judges and indexes what it is lent.
int boost_once(const std::string &what)
{
    Network w = first_network(what);
    if (what == "rows" || what == "twinrows") {
        if (is_twin(what))
            Of<Multigraph>::rows(build<Multigraph>(w), w);
        else
            Of<Graph>::rows(build(w), w);
        return 0;
    }
    if (what[0] == 'b' || what[0] == 'w') {
        open(w);
        boost_retunes(w, number_in(what), what[0] == 'b');
        return 0;
    }
    std::vector<uint32_t> out(w.n);
    for (uint32_t s = 0; s < w.n; s++)
        (is_twin(what) ? boost_twin_query : boost_query)(&w, number_in(what), s, out.data());
    return 0;
}

} // namespace

int main(int argc, char **argv)
{
    if (argc == 3 && !std::strcmp(argv[1], "boost"))
        return boost_once(argv[2]);
    int repeats = argc > 1 ? std::atoi(argv[1]) : 15;
    open_times(repeats, 256, 2048);
    open_times(repeats, 256, 512);
    open_times(repeats, 64, 512);
    query_times(repeats, 256, 2048);
    for (uint32_t size : {1u, 10u, 100u})
        batch_times(repeats, 256, 2048, size);
    for (bool faster : {true, false})
        for (uint32_t size : {1u, 10u, 100u})
            retune_times(repeats, 256, 2048, size, faster);
    text_times(repeats, 256, 2048);
    open_times<Multigraph>(repeats, 256, 2048);
    query_times<Multigraph>(repeats, 256, 2048);
    for (uint32_t size : {1u, 10u, 100u})
        batch_times<Multigraph>(repeats, 256, 2048, size);
    return 0;
}
