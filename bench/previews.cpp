// Times of previews beside the batch and the two queries that each stands for, and beside Boost.Graph, in the same process. Every preview that is timed or
// counted is compared with Boost's. Usage: previews [REPEATS]; previews boost WHAT runs Boost alone, to count instructions: preview1, preview10,
// preview100.
#include "boost.h"
#include "times.h"

#include <cstring>

// What a batch does: a row on the graph from before it, which stands built, and one on the graph of the table after it, which is built here.
extern "C" __attribute__((noinline)) void boost_preview(const void *graph, const void *after, uint32_t property, uint32_t source, uint32_t *effects, int64_t *moves)
{
    const Network &w = *static_cast<const Network *>(after);
    const uint32_t none = plate_track_no_route(property);
    std::vector<uint32_t> was(w.n), now(w.n);
    boost_row(*static_cast<const Graph *>(graph), property, source, was.data());
    boost_row(build(w, false), property, source, now.data());
    for (uint32_t v = 0; v < w.n; v++) {
        const bool lacked = was[v] == none, lacks = now[v] == none;
        effects[v] = was[v] == now[v] ? PLATE_TRACK_SAME : lacked ? PLATE_TRACK_GAINED : lacks ? PLATE_TRACK_LOST : PLATE_TRACK_MOVED;
        moves[v] = lacked || lacks ? 0 : static_cast<int64_t>(now[v]) - was[v];
    }
}

namespace {

// Boost's preview beside ours.
void same_preview(const Network &w, const Changes &changes, const Network &after, const Graph &g, uint32_t property, uint32_t source)
{
    Preview ours(w.n), theirs(w.n);
    preview(w, changes, property, source, ours);
    boost_preview(&g, &after, property, source, theirs.effects.data(), theirs.moves.data());
    same("preview, Boost, effects", ours.effects, theirs.effects);
    same("preview, Boost, moves", ours.moves, theirs.moves);
}

// A preview of each drawn batch before it, for time from the vertices in turn.
void preview_times(int repeats, uint32_t n, uint32_t edges, uint32_t size)
{
    Network w = make(n, edges, 100);
    open(w);
    auto list = drawn_batches(w, size);
    double a = 0, b = 0, c = 0;
    for (uint32_t i = 0; i < list.size(); i++) {
        const Changes &changes = list[i], &undo = list[i ^ 1]; // deletes and the inserts that undo them stand side by side
        const uint32_t source = i % n;
        Network after = w;
        batch(after, changes);
        Graph g = build(w, false);
        for (uint32_t p = 1; p <= 5; p++)
            same_preview(w, changes, after, g, p, source);
        Preview out(n);
        std::vector<uint32_t> starts(n), settled(n);
        auto ask = [&] { query(w, PLATE_TRACK_TIME, source, starts, settled); };
        a += best(repeats, 1, [&](int) { preview(w, changes, PLATE_TRACK_TIME, source, out); });
        b += best(repeats, 1, [&](int) { ask(); batch(w, changes); ask(); }, [&](int) { batch(w, undo); });
        c += best(repeats, 1, [&](int) { boost_preview(&g, &after, PLATE_TRACK_TIME, source, out.effects.data(), out.moves.data()); });
        w = after;
    }
    const double calls = static_cast<double>(list.size());
    std::printf("preview %3u %4u of %3u: ours %6.1f us; a batch and two queries %6.1f us (ours/these %.2f); Boost, two rows and its later graph built "
                "%6.1f us (ours/Boost %.2f)\n",
                n, edges, size, a / calls, b / calls, a / b, c / calls, a / c);
}

// Boost's preview of each drawn batch, for time.
int boost_once(const std::string &what)
{
    Network w = make(256, 2048, 100);
    open(w);
    uint32_t source = 0;
    for (auto &c : drawn_batches(w, number_in(what))) {
        Network after = w;
        batch(after, c);
        same_preview(w, c, after, build(w, false), PLATE_TRACK_TIME, source++ % w.n);
        w = after;
    }
    return 0;
}

} // namespace

int main(int argc, char **argv)
{
    if (argc == 3 && !std::strcmp(argv[1], "boost"))
        return boost_once(argv[2]);
    for (uint32_t size : {1u, 10u, 100u})
        preview_times(argc > 1 ? std::atoi(argv[1]) : 15, 256, 2048, size);
    return 0;
}
