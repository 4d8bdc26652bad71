// One step of the same meshes by OpenSubdiv, CGAL, OpenMesh and this library, and the limit, in one run: the rounds take turns,
// and the least of the medians of some sittings is given, in nanoseconds for each face after the step. Then building, in nanoseconds
// for each face.
//     peers [MESH.obj ..]
#include "peer.h"
#include <algorithm>
#include <chrono>
#include <cmath>
#include <cstdio>
#include <fstream>
#include <sstream>

namespace {
constexpr double PI = 3.14159265358979323846;

Polygons torus(int n) {
    Polygons mesh{"torus " + std::to_string(n) + " x " + std::to_string(n), {}, {}, nullptr};
    for (int i = 0; i < n; i++)
        for (int j = 0; j < n; j++) {
            const double a = 2 * PI * i / n, b = 2 * PI * j / n, r = 2 + std::cos(b);
            mesh.points.push_back({r * std::cos(a), r * std::sin(a), std::sin(b)});
        }
    auto at = [n](int i, int j) { return (i % n) * n + j % n; };
    for (int i = 0; i < n; i++)
        for (int j = 0; j < n; j++)
            mesh.faces.push_back({at(i, j), at(i + 1, j), at(i + 1, j + 1), at(i, j + 1)});
    return mesh;
}

// The lines `v` and `f` of an OBJ.
Polygons read_obj(const std::string &path) {
    Polygons mesh{path.substr(path.find_last_of('/') + 1), {}, {}, nullptr};
    std::ifstream in(path);
    for (std::string line; std::getline(in, line);) {
        std::istringstream words(line);
        std::string kind;
        words >> kind;
        if (kind == "v") {
            Point p{};
            words >> p[0] >> p[1] >> p[2];
            mesh.points.push_back(p);
        } else if (kind == "f") {
            std::vector<int> face;
            for (std::string corner; words >> corner;) face.push_back(std::stoi(corner) - 1);
            mesh.faces.push_back(face);
        }
    }
    return mesh;
}

double median(std::vector<double> times) {
    std::nth_element(times.begin(), times.begin() + long(times.size() / 2), times.end());
    return times[times.size() / 2];
}

// Whether two answers are the same points: the old ones each by its number, all by their sums.
bool same(const Peer &a, const Peer &b, std::size_t old) {
    const auto x = a.points(), y = b.points();
    if (a.faces() != b.faces() || x.size() != y.size()) return false;
    double sums[6] = {};
    for (std::size_t p = 0; p < x.size(); p++)
        for (int k = 0; k < 3; k++) {
            if (p < old && std::abs(x[p][k] - y[p][k]) > 1e-6) return false;
            sums[k] += x[p][k] - y[p][k];
            sums[3 + k] += x[p][k] * x[p][k] - y[p][k] * y[p][k];
        }
    return std::all_of(sums, sums + 6, [&](double s) { return std::abs(s) < 1e-6 * double(x.size()); });
}

constexpr int SITTINGS = 5;

// The least and the greatest of the medians of the sittings, for each peer.
struct Medians {
    std::vector<double> least, most;
};

// Times what is done with each peer, the rounds in turn: `prepare` is not timed, `run` is; in nanoseconds for each of so many faces.
template <typename Prepare, typename Run>
Medians timed(const std::vector<std::unique_ptr<Peer>> &peers, int rounds, Prepare prepare, Run run, std::size_t faces) {
    Medians found{std::vector<double>(peers.size(), 1e300), std::vector<double>(peers.size(), 0.0)};
    for (int sitting = 0; sitting < SITTINGS; sitting++) {
        std::vector<std::vector<double>> times(peers.size());
        for (int round = 0; round < rounds; round++)
            for (std::size_t k = 0; k < peers.size(); k++) {
                prepare(*peers[k]);
                const auto start = std::chrono::steady_clock::now();
                run(*peers[k]);
                const std::chrono::duration<double, std::nano> taken = std::chrono::steady_clock::now() - start;
                times[k].push_back(taken.count() / double(faces));
            }
        for (std::size_t k = 0; k < peers.size(); k++) {
            found.least[k] = std::min(found.least[k], median(times[k]));
            found.most[k] = std::max(found.most[k], median(times[k]));
        }
    }
    return found;
}

void print(const std::vector<std::unique_ptr<Peer>> &peers, const Medians &medians, const char *what) {
    for (std::size_t k = 0; k < peers.size(); k++)
        std::printf("  %-38s %7.1f ns a face%s (medians %.1f to %.1f)\n", peers[k]->name(), medians.least[k], what, medians.least[k],
                    medians.most[k]);
    std::fflush(stdout);
}

// Building; a mesh that is refined from another is not built.
void measure_building(const Polygons &mesh, int rounds) {
    std::vector<std::unique_ptr<Peer>> peers;
    for (auto make : {library_peer, opensubdiv_peer, cgal_peer, openmesh_peer}) peers.push_back(make(mesh));
    print(peers, timed(peers, rounds, [](Peer &) {}, [](Peer &p) { p.build(); }, mesh.faces.size()), ", building");
}

void measure(const Polygons &mesh) {
    std::vector<std::unique_ptr<Peer>> peers;
    for (auto make : {opensubdiv_peer, cgal_peer, openmesh_peer, limit_peer, library_peer, published_peer}) peers.push_back(make(mesh));
    for (auto &peer : peers) peer->prepare(), peer->step();
    const Peer &first = *peers[0], &library = *peers[4];
    const bool agree = same(first, *peers[1], mesh.points.size()) && same(first, *peers[2], mesh.points.size());
    const bool counted = library.faces() == first.faces() && library.points().size() == first.points().size();
    const char *form = "%s, %zu faces after the step: the peers %s, the library has %s many rows\n";
    std::printf(form, mesh.name.c_str(), library.faces(), agree ? "agree" : "DIFFER", counted ? "as" : "NOT AS");
    const int rounds = std::clamp(int(400000 / mesh.faces.size()), 9, 400);
    print(peers, timed(peers, rounds, [](Peer &p) { p.prepare(); }, [](Peer &p) { p.step(); }, library.faces()), "");
    if (!mesh.coarse) measure_building(mesh, rounds);
}
}  // namespace

int main(int argc, char **argv) {
    for (int n : {8, 32, 64}) measure(torus(n));
    const Polygons coarse = torus(64);
    measure(refined("torus 128 x 128", coarse));
    for (int k = 1; k < argc; k++) measure(read_obj(argv[k]));
}
