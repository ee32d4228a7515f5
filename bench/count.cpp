// Runs one thing alone on the first network of 256 vertices and 2,048 edges, to count its instructions: open, plain, batch1, batch10, batch100, better1 to
// better100 and worse1 to worse100 (updates), bettertake1 to worsetake100 (a delete and an insert of the same edges), fixed (an update that changes
// nothing), each and eachtake (every edge alone, then the drawn retunes), query1 to query5 (from each vertex in turn), route1 to route5 (of each drawn
// pair), routefixed (from a vertex to itself), preview1, preview10, preview100 (of the batches of batch1 .., each before it, for time from the vertices in
// turn), digest (of each preview of 10), asked1, asked10, asked100 (the two queries that each of these previews stands for, before and after the batch),
// read, readany, readplain, readanyplain, write, writeplain. Of these open, plain, batch1 .., query1 .. and route1 .. with `twin` before them, as in twinopen,
// are on the network with twins. drawn prints the network and the pairs for route.py.
#include "network.h"

#include <cstdio>

namespace {

// Text in or out, once.
bool text_once(const std::string &what, Network &w)
{
    Text out(PLATE_TRACK_LONGEST_TEXT), text = text_of(w, what.compare(0, 7, "readany") != 0);
    if (what == "read" || what == "readany")
        read(text, w);
    else if (what == "readplain" || what == "readanyplain")
        read_plain(text, w);
    else if (what == "writeplain")
        write_plain(w, out);
    else
        return what == "write"; // text_of has written once
    return true;
}

bool starts_with(const std::string &what, const char *word) { return what.rfind(word, 0) == 0; }

void batches_once(Network &w, uint32_t size)
{
    for (auto &c : drawn_batches(w, size))
        batch(w, c);
}

// what each of the batches would do, and its digest, before it is done
void previews_once(Network &w, uint32_t size)
{
    Preview p(w.n);
    uint32_t source = 0;
    for (auto &c : drawn_batches(w, size)) {
        preview(w, c, PLATE_TRACK_TIME, source++ % w.n, p);
        digest(p, w.n, PLATE_TRACK_TIME);
        batch(w, c);
    }
}

// the queries whose differences these previews are
void asks_once(Network &w, uint32_t size)
{
    std::vector<uint32_t> starts(w.n), settled(w.n);
    uint32_t source = 0;
    for (auto &c : drawn_batches(w, size)) {
        query(w, PLATE_TRACK_TIME, source % w.n, starts, settled);
        batch(w, c);
        query(w, PLATE_TRACK_TIME, source++ % w.n, starts, settled);
    }
}

// each retune on the network as it was opened
void retunes_once(const Network &w, const std::vector<Retune> &list, bool exchanged)
{
    Network now = w;
    for (auto &c : list) {
        now = w;
        batch(now, exchanged ? c.exchange : c.updates);
    }
}

// every edge alone, faster and slower, then the retunes of 10 and of 100
std::vector<Retune> every_retune(const Network &w)
{
    Random r{7};
    std::vector<Retune> list;
    for (bool faster : {true, false}) {
        for (uint32_t i = 0; i < w.count; i++) {
            Retune c;
            if (add_retune(w, i, r, faster, c))
                list.push_back(c);
        }
        for (uint32_t size : {10u, 100u})
            for (auto &c : drawn_retunes(w, size, faster))
                list.push_back(c);
    }
    return list;
}

void queries_once(const Network &w, uint32_t property)
{
    std::vector<uint32_t> starts(w.n), settled(w.n);
    for (uint32_t s = 0; s < w.n; s++)
        query(w, property, s, starts, settled);
}

void routes_once(const Network &w, uint32_t property, const std::vector<Pair> &pairs)
{
    Route r(w.n);
    for (Pair pair : pairs)
        route(w, property, pair, r);
}

// How many vertices, edges and pairs, then a line for each edge and for each pair; vertices count from 0.
void print_drawn(const Network &w)
{
    auto pairs = drawn_pairs(w);
    std::printf("%u %u %zu\n", w.n, w.count, pairs.size());
    for (uint32_t i = 0; i < w.count; i++)
        std::printf("%u %u %u\n", w.tails[i], w.heads[i], w.weights[i]);
    for (Pair pair : pairs)
        std::printf("%u %u\n", pair.source, pair.target);
}

int once(const std::string &word)
{
    Network w = first_network(word);
    const std::string what = is_twin(word) ? word.substr(4) : word;
    if (text_once(what, w))
        return 0;
    if (what == "plain") {
        plain(w);
        return 0;
    }
    open(w);
    if (starts_with(what, "batch"))
        batches_once(w, number_in(what));
    else if (starts_with(what, "better") || starts_with(what, "worse"))
        retunes_once(w, drawn_retunes(w, number_in(what), what[0] == 'b'), what.find("take") != std::string::npos);
    else if (starts_with(what, "each"))
        retunes_once(w, every_retune(w), what == "eachtake");
    else if (what == "fixed")
        batch(w, {{PLATE_TRACK_UPDATE, w.tails[0], w.heads[0], w.weights[0], w.weights[0]}});
    else if (starts_with(what, "preview"))
        previews_once(w, number_in(what));
    else if (what == "digest")
        previews_once(w, 10);
    else if (starts_with(what, "asked"))
        asks_once(w, number_in(what));
    else if (starts_with(what, "query"))
        queries_once(w, number_in(what));
    else if (what == "routefixed")
        routes_once(w, PLATE_TRACK_REACH, {{0, 0}});
    else if (starts_with(what, "route"))
        routes_once(w, number_in(what), drawn_pairs(w));
    else if (what == "drawn")
        print_drawn(w);
    return 0;
}

} // namespace

int main(int argc, char **argv) { return argc == 2 ? once(argv[1]) : 2; }
