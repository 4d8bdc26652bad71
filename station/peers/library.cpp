// This library through its header, the audit included; and the limit: the rows after the step set and copied, and nothing else.
#include "peer.h"
#include "../lavyngo.h"
#include <algorithm>
#include <cstring>
#include <stdexcept>

namespace {
// Five tables with rows for these counts.
struct Tables {
    std::vector<double> positions, intervals;
    std::vector<std::uint32_t> points, edges, faces;
    lavyngo_tables lent{};

    Tables(std::size_t np, std::size_t ne, std::size_t nf)
        : positions(LAVYNGO_POSITION * np), intervals(LAVYNGO_INTERVAL * ne), points(LAVYNGO_POINT * np), edges(LAVYNGO_EDGE * ne),
          faces(LAVYNGO_FACE * nf) {
        lent = lavyngo_tables_of(positions.data(), points.data(), edges.data(), intervals.data(), faces.data(), np, ne, nf);
    }
    Tables(const Tables &) = delete;
    void take(const Tables &other) {
        std::copy(other.positions.begin(), other.positions.end(), positions.begin());
        std::copy(other.points.begin(), other.points.end(), points.begin());
        std::copy(other.edges.begin(), other.edges.end(), edges.begin());
        std::copy(other.intervals.begin(), other.intervals.end(), intervals.begin());
        std::copy(other.faces.begin(), other.faces.end(), faces.begin());
    }
};

void demand(std::uint32_t answer) {
    if (answer != LAVYNGO_ACCEPTED) throw std::runtime_error(lavyngo_ground_words(answer));
}

struct Lists {
    std::vector<double> coordinates, beside;
    std::vector<std::uint32_t> sides, listed;
};

// All intervals are 1; a face of n points has its sides so that the sums of opposite ones differ as little as they can.
Lists lists_of(const Polygons &mesh) {
    Lists lists;
    for (const Point &p : mesh.points) lists.coordinates.insert(lists.coordinates.end(), p.begin(), p.end());
    for (const auto &face : mesh.faces) {
        const std::uint32_t n = std::uint32_t(face.size()), half = n - n / 2;
        lists.sides.insert(lists.sides.end(), {half, 0, n - half, 0});
        for (std::uint32_t k = 0; k < n; k++) {
            lists.listed.push_back(std::uint32_t(face[k]));
            lists.beside.push_back(n % 2 == 1 && k == n - 1 ? 2.0 : 1.0);
        }
    }
    return lists;
}

// The first elements of one table put into another.
template <typename T> void put(const std::vector<T> &from, std::vector<T> &to) {
    std::copy_n(from.begin(), std::min(from.size(), to.size()), to.begin());
}

// Tables with rows for these counts, which begin with the rows of others.
std::unique_ptr<Tables> with_rows(const std::size_t counts[3], const Tables &first) {
    auto t = std::make_unique<Tables>(counts[LAVYNGO_POINTS], counts[LAVYNGO_EDGES], counts[LAVYNGO_FACES]);
    put(first.positions, t->positions);
    put(first.points, t->points);
    put(first.edges, t->edges);
    put(first.intervals, t->intervals);
    put(first.faces, t->faces);
    return t;
}

std::vector<std::uint32_t> numbered(std::size_t n) {
    std::vector<std::uint32_t> order(n);
    for (std::uint32_t f = 0; f < n; f++) order[f] = f;
    return order;
}

// The mesh in tables, and its counts.
struct Held {
    std::unique_ptr<Tables> tables;
    std::size_t counts[3] = {0, 0, 0};
};

void build(const Lists &l, const Tables &into, std::size_t counts[3]) {
    demand(lavyngo_tables_build(l.coordinates.data(), l.coordinates.size(), l.sides.data(), l.sides.size(), l.listed.data(),
                                l.listed.size(), l.beside.data(), l.beside.size(), &into.lent, counts));
}

Held built(const Polygons &mesh) {
    const Lists l = lists_of(mesh);
    Held held;
    held.tables = std::make_unique<Tables>(mesh.points.size(), l.listed.size(), mesh.faces.size());
    build(l, *held.tables, held.counts);
    return held;
}

Held stepped(const Held &before) {
    Held held;
    lavyngo_counts_after(before.counts, held.counts);
    held.tables = with_rows(held.counts, *before.tables);
    const auto scratch = with_rows(held.counts, *before.tables);
    std::size_t counts[3];
    std::memcpy(counts, before.counts, sizeof counts);
    const auto order = numbered(counts[LAVYNGO_FACES]);
    demand(lavyngo_tables_step(&held.tables->lent, counts, order.data(), order.size(), &scratch->lent));
    return held;
}

struct LibraryPeer : Peer {
    std::size_t counts[3] = {0, 0, 0}, after[3] = {0, 0, 0}, now[3] = {0, 0, 0};
    std::unique_ptr<Tables> before, mesh, scratch;
    std::vector<std::uint32_t> order;
    Lists lists;

    explicit LibraryPeer(const Polygons &polygons) {
        lists = lists_of(polygons);
        const Held held = polygons.coarse ? stepped(built(*polygons.coarse)) : built(polygons);
        std::memcpy(counts, held.counts, sizeof counts);
        lavyngo_counts_after(counts, after);
        before = with_rows(after, *held.tables);
        mesh = with_rows(after, *held.tables);
        scratch = with_rows(after, *held.tables);
        order = numbered(counts[LAVYNGO_FACES]);
    }
    const char *name() const override { return "Lavyngo, audit included"; }
    void build() override { ::build(lists, *mesh, now); }
    void prepare() override {
        mesh->take(*before);
        std::memcpy(now, counts, sizeof now);
    }
    void step() override { demand(lavyngo_tables_step(&mesh->lent, now, order.data(), order.size(), &scratch->lent)); }
    std::size_t faces() const override { return now[LAVYNGO_FACES]; }
    std::vector<Point> points() const override {
        std::vector<Point> found;
        for (std::size_t p = 0; p < now[LAVYNGO_POINTS]; p++) {
            const double *at = mesh->positions.data() + LAVYNGO_POSITION * p;
            found.push_back({at[LAVYNGO_X], at[LAVYNGO_Y], at[LAVYNGO_Z]});
        }
        return found;
    }
};

struct PublishedPeer : LibraryPeer {
    using LibraryPeer::LibraryPeer;
    const char *name() const override { return "Lavyngo, the published rule"; }
    void step() override {
        demand(lavyngo_tables_step_published(&mesh->lent, now, order.data(), order.size(), &scratch->lent));
    }
};

struct LimitPeer : LibraryPeer {
    using LibraryPeer::LibraryPeer;
    const char *name() const override { return "set and copy of the rows (the limit)"; }
    void step() override {
        for (double &x : scratch->positions) x = 0.5;
        for (double &x : scratch->intervals) x = 0.5;
        for (std::uint32_t &w : scratch->points) w = 7;
        for (std::uint32_t &w : scratch->edges) w = 7;
        for (std::uint32_t &w : scratch->faces) w = 7;
        mesh->take(*scratch);
        std::memcpy(now, after, sizeof now);
    }
};
}  // namespace

// The points of a face in turn, by the walk about it.
Polygons refined(const std::string &name, const Polygons &coarse) {
    const Held held = stepped(built(coarse));
    Polygons mesh{name, {}, {}, &coarse};
    for (std::size_t p = 0; p < held.counts[LAVYNGO_POINTS]; p++) {
        const double *at = held.tables->positions.data() + LAVYNGO_POSITION * p;
        mesh.points.push_back({at[LAVYNGO_X], at[LAVYNGO_Y], at[LAVYNGO_Z]});
    }
    for (std::uint32_t f = 0; f < held.counts[LAVYNGO_FACES]; f++) {
        const std::uint32_t start = held.tables->faces[LAVYNGO_FACE * f + LAVYNGO_FACE_START];
        std::vector<int> face;
        std::uint32_t e = start;
        do {
            const std::uint32_t *edge = held.tables->edges.data() + LAVYNGO_EDGE * e;
            const bool left = edge[LAVYNGO_LEFT_FACE] == f;
            face.push_back(int(edge[left ? LAVYNGO_ORIGIN : LAVYNGO_DESTINATION]));
            e = edge[left ? LAVYNGO_LEFT_ACW : LAVYNGO_RIGHT_ACW];
        } while (e != start);
        mesh.faces.push_back(face);
    }
    return mesh;
}

std::unique_ptr<Peer> library_peer(const Polygons &mesh) { return std::make_unique<LibraryPeer>(mesh); }
std::unique_ptr<Peer> published_peer(const Polygons &mesh) { return std::make_unique<PublishedPeer>(mesh); }
std::unique_ptr<Peer> limit_peer(const Polygons &mesh) { return std::make_unique<LimitPeer>(mesh); }
