// What the benchmark and the counts share: drawn networks, the calls on them, and the same in plain Rust (plain.rs).
#pragma once
#include "plate_track.h"

#include <algorithm>
#include <cstdint>
#include <cstdlib>
#include <cstring>
#include <set>
#include <string>
#include <tuple>
#include <utility>
#include <vector>

extern "C" void plain_open(uint32_t n, const uint32_t *landmarks, size_t landmarks_len, const uint32_t *tails, const uint32_t *heads,
                           const uint32_t *weights, uint32_t count, uint32_t *forward, uint32_t *backward);

extern "C" uint32_t plain_read(const uint8_t *text, size_t text_len, uint32_t *tails, uint32_t *heads, uint32_t *weights);
extern "C" size_t plain_write(uint32_t n, const uint32_t *tails, const uint32_t *heads, const uint32_t *weights, uint32_t count, uint8_t *text,
                              size_t text_len);

namespace {

const uint32_t M = UINT32_MAX;

// The number in a word such as query5.
uint32_t number_in(const std::string &what)
{
    return static_cast<uint32_t>(std::atoi(what.c_str() + std::strcspn(what.c_str(), "0123456789")));
}

struct Random {
    uint64_t state;
    uint64_t next()
    {
        uint64_t z = (state += 0x9e3779b97f4a7c15u);
        z = (z ^ (z >> 30)) * 0xbf58476d1ce4e5b9u;
        z = (z ^ (z >> 27)) * 0x94d049bb133111ebu;
        return z ^ (z >> 31);
    }
    uint32_t below(uint32_t n) { return static_cast<uint32_t>(next() % n); }
};

struct Network {
    uint32_t n = 0, count = 0;
    std::vector<uint32_t> landmarks, tails, heads, weights, forward, backward;
};

// Random pairs, weights 1 to 1,000; the last `twins` of the edges are of pairs that are there, with other weights. The landmarks are chosen by
// plate_track_choose.
Network make(uint32_t n, uint32_t edges, uint64_t seed, uint32_t twins = 0)
{
    Random r{seed};
    std::set<std::pair<uint32_t, uint32_t>> pairs;
    while (pairs.size() < edges - twins) {
        uint32_t t = r.below(n), h = r.below(n);
        if (t != h)
            pairs.insert({t, h});
    }
    std::set<std::tuple<uint32_t, uint32_t, uint32_t>> records;
    for (auto &p : pairs)
        records.insert({p.first, p.second, 1 + r.below(1000)});
    const std::vector<std::pair<uint32_t, uint32_t>> list(pairs.begin(), pairs.end());
    while (records.size() < edges) {
        auto &p = list[r.below(static_cast<uint32_t>(list.size()))];
        records.insert({p.first, p.second, 1 + r.below(1000)});
    }
    Network w;
    w.n = n;
    w.count = edges;
    for (auto &e : records) {
        w.tails.push_back(std::get<0>(e));
        w.heads.push_back(std::get<1>(e));
        w.weights.push_back(std::get<2>(e));
    }
    for (auto *list : {&w.tails, &w.heads, &w.weights})
        list->resize(PLATE_TRACK_MOST_EDGES);
    uint64_t reply[8];
    if (plate_track_choose(n, w.tails.data(), w.tails.size(), w.heads.data(), w.heads.size(), w.weights.data(), w.weights.size(), edges, 4, reply, 8))
        std::abort();
    w.landmarks.assign(reply + 1, reply + 1 + reply[0]);
    w.forward.resize(w.landmarks.size() * 5 * n);
    w.backward.resize(w.landmarks.size() * 5 * n);
    return w;
}

// Of 2,048 edges a fifth, which the deck with twins has.
const uint32_t fifth = 410;

// The first network of 256 vertices and 2,048 edges, or where a word such as twinopen begins with `twin` the one with twins.
bool is_twin(const std::string &what) { return what.rfind("twin", 0) == 0; }

Network first_network(const std::string &what) { return make(256, 2048, 100, is_twin(what) ? fifth : 0); }

void open(Network &w)
{
    uint64_t reply[8];
    if (plate_track_open(w.n, w.landmarks.data(), w.landmarks.size(), w.tails.data(), w.tails.size(), w.heads.data(), w.heads.size(), w.weights.data(),
                         w.weights.size(), w.count, w.forward.data(), w.forward.size(), w.backward.data(), w.backward.size(), reply, 8))
        std::abort();
}

void plain(Network &w)
{
    plain_open(w.n, w.landmarks.data(), w.landmarks.size(), w.tails.data(), w.heads.data(), w.weights.data(), w.count, w.forward.data(), w.backward.data());
}

struct Told {
    uint64_t taken, rounds, stores;
};

Told query(const Network &w, uint32_t property, uint32_t source, std::vector<uint32_t> &starts, std::vector<uint32_t> &settled)
{
    uint64_t reply[8];
    if (plate_track_query(w.n, w.landmarks.data(), w.landmarks.size(), w.tails.data(), w.tails.size(), w.heads.data(), w.heads.size(), w.weights.data(),
                          w.weights.size(), w.count, w.forward.data(), w.forward.size(), w.backward.data(), w.backward.size(), property, source, nullptr, 0,
                          starts.data(), starts.size(), settled.data(), settled.size(), reply, 8))
        std::abort();
    return {reply[0], reply[1], reply[2]};
}

using Changes = std::vector<plate_track_change>;

void batch(Network &w, const Changes &changes)
{
    uint64_t reply[8];
    if (plate_track_batch(w.n, w.landmarks.data(), w.landmarks.size(), w.tails.data(), w.tails.size(), w.heads.data(), w.heads.size(), w.weights.data(),
                          w.weights.size(), w.count, w.forward.data(), w.forward.size(), w.backward.data(), w.backward.size(), changes.data(), changes.size(),
                          reply, 8))
        std::abort();
    w.count = static_cast<uint32_t>(reply[0]);
}

// ---- routes

struct Pair {
    uint32_t source, target;
};

// The lists that are lent for a route, and how many vertices it has: 0 where there is none.
struct Route {
    uint32_t count = 0;
    std::vector<uint32_t> vertices, marks, figures;
    explicit Route(uint32_t n) : vertices(n), marks(n), figures(n) {}
};

void route(const Network &w, uint32_t property, Pair pair, Route &r)
{
    uint64_t reply[8];
    uint32_t number = plate_track_route(w.n, w.tails.data(), w.tails.size(), w.heads.data(), w.heads.size(), w.weights.data(), w.weights.size(), w.count,
                                        property, pair.source, pair.target, r.vertices.data(), r.vertices.size(), r.marks.data(), r.marks.size(),
                                        r.figures.data(), r.figures.size(), reply, 8);
    if (number && number != PLATE_TRACK_NO_ROUTE)
        std::abort();
    r.count = number ? 0 : static_cast<uint32_t>(reply[PLATE_TRACK_ROUTE_VERTICES]);
}

// The 100 pairs whose routes are timed and counted: different vertices, with a route from source to target. Queries find these, so that no route is
// asked for beside those that are counted.
std::vector<Pair> drawn_pairs(const Network &w)
{
    Random r{7};
    std::vector<Pair> list;
    std::vector<uint32_t> starts(w.n), settled(w.n);
    while (list.size() < 100) {
        Pair pair{r.below(w.n), r.below(w.n)};
        query(w, PLATE_TRACK_REACH, pair.source, starts, settled);
        if (pair.source != pair.target && settled[pair.target] == 1)
            list.push_back(pair);
    }
    return list;
}

// ---- text

using Text = std::vector<uint8_t>;

size_t write(const Network &w, Text &text)
{
    uint64_t reply[8];
    if (plate_track_write(w.n, w.tails.data(), w.tails.size(), w.heads.data(), w.heads.size(), w.weights.data(), w.weights.size(), w.count, text.data(),
                          text.size(), reply, 8))
        std::abort();
    return static_cast<size_t>(reply[0]);
}

size_t write_plain(const Network &w, Text &text)
{
    return plain_write(w.n, w.tails.data(), w.heads.data(), w.weights.data(), w.count, text.data(), text.size());
}

void read(const Text &text, Network &w)
{
    uint64_t reply[8];
    if (plate_track_read(text.data(), text.size(), w.tails.data(), w.tails.size(), w.heads.data(), w.heads.size(), w.weights.data(), w.weights.size(), reply,
                         8))
        std::abort();
    w.n = static_cast<uint32_t>(reply[0]);
    w.count = static_cast<uint32_t>(reply[1]);
}

void read_plain(const Text &text, Network &w)
{
    w.count = plain_read(text.data(), text.size(), w.tails.data(), w.heads.data(), w.weights.data());
}

// The network's text, in table order or its records in any order.
Text text_of(const Network &w, bool ascending)
{
    Text text(PLATE_TRACK_LONGEST_TEXT);
    text.resize(write(w, text));
    if (ascending)
        return text;
    std::vector<std::string> lines;
    for (size_t at = 0; at < text.size();) {
        size_t end = std::find(text.begin() + at, text.end(), '\n') - text.begin() + 1;
        lines.emplace_back(text.begin() + at, text.begin() + end);
        at = end;
    }
    Random r{11};
    for (uint32_t i = static_cast<uint32_t>(lines.size()) - 1; i > 1; i--)
        std::swap(lines[i], lines[1 + r.below(i)]);
    Text mixed;
    for (auto &line : lines)
        mixed.insert(mixed.end(), line.begin(), line.end());
    return mixed;
}

// ---- batches

// `size` deletes of different edges, and the inserts that undo them.
std::pair<Changes, Changes> there_and_back(const Network &w, uint32_t size, Random &r)
{
    std::set<uint32_t> picked;
    while (picked.size() < size)
        picked.insert(r.below(w.count));
    Changes away, again;
    for (uint32_t i : picked) {
        away.push_back({PLATE_TRACK_DELETE, w.tails[i], w.heads[i], w.weights[i], 0});
        again.push_back({PLATE_TRACK_INSERT, w.tails[i], w.heads[i], w.weights[i], 0});
    }
    return {away, again};
}

// The 100 batches that are counted: 50 of deletes, each undone by one of inserts.
std::vector<Changes> drawn_batches(const Network &w, uint32_t size)
{
    Random r{7};
    std::vector<Changes> list;
    for (int i = 0; i < 50; i++) {
        auto c = there_and_back(w, size, r);
        list.push_back(c.first);
        list.push_back(c.second);
    }
    return list;
}

// ---- previews

// The lists that are lent for a preview.
struct Preview {
    std::vector<uint32_t> effects;
    std::vector<int64_t> moves;
    explicit Preview(uint32_t n) : effects(n), moves(n) {}
};

void preview(const Network &w, const Changes &changes, uint32_t property, uint32_t source, Preview &p)
{
    uint64_t reply[8];
    if (plate_track_preview(w.n, w.landmarks.data(), w.landmarks.size(), w.tails.data(), w.tails.size(), w.heads.data(), w.heads.size(), w.weights.data(),
                            w.weights.size(), w.count, w.forward.data(), w.forward.size(), w.backward.data(), w.backward.size(), changes.data(),
                            changes.size(), property, source, p.effects.data(), p.effects.size(), p.moves.data(), p.moves.size(), reply, 8))
        std::abort();
}

void digest(const Preview &p, uint32_t n, uint32_t property)
{
    uint64_t reply[8];
    if (plate_track_digest(n, property, p.effects.data(), p.effects.size(), p.moves.data(), p.moves.size(), reply, 8))
        std::abort();
}

// ---- retunes

// Updates, those that undo them, and a delete and an insert of each pair in one batch, which does what the updates do.
struct Retune {
    Changes updates, undo, exchange;
};

// A weight less than `weight`, at least 1; or a greater one, at most twice it and at most the greatest.
uint32_t moved(uint32_t weight, Random &r, bool faster)
{
    return faster ? 1 + r.below(weight - 1) : weight + 1 + r.below(std::min(weight, PLATE_TRACK_GREATEST_WEIGHT - weight));
}

// Edge `i` joins a retune; false where none is faster than its weight, or none slower.
bool add_retune(const Network &w, uint32_t i, Random &r, bool faster, Retune &c)
{
    if (w.weights[i] == (faster ? 1 : PLATE_TRACK_GREATEST_WEIGHT))
        return false;
    uint32_t t = w.tails[i], h = w.heads[i], old = w.weights[i], weight = moved(old, r, faster);
    c.updates.push_back({PLATE_TRACK_UPDATE, t, h, weight, old});
    c.undo.push_back({PLATE_TRACK_UPDATE, t, h, old, weight});
    c.exchange.push_back({PLATE_TRACK_DELETE, t, h, old, 0});
    c.exchange.push_back({PLATE_TRACK_INSERT, t, h, weight, 0});
    return true;
}

// `size` different edges, all faster or all slower.
Retune retunes(const Network &w, uint32_t size, Random &r, bool faster)
{
    Retune c;
    std::set<uint32_t> picked;
    while (c.updates.size() < size) {
        uint32_t i = r.below(w.count);
        if (picked.insert(i).second)
            add_retune(w, i, r, faster, c);
    }
    return c;
}

// The 50 retunes that are timed and counted.
std::vector<Retune> drawn_retunes(const Network &w, uint32_t size, bool faster)
{
    Random r{7};
    std::vector<Retune> list;
    for (int i = 0; i < 50; i++)
        list.push_back(retunes(w, size, r, faster));
    return list;
}

} // namespace
