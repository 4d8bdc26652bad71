// What each of the compared libraries does here: hold a mesh of polygons, and refine it once by Catmull and Clark's rule with
// all the topology of the finer mesh.
#pragma once
#include <array>
#include <cstddef>
#include <memory>
#include <string>
#include <vector>

using Point = std::array<double, 3>;

// Points, and the points of each face in turn. Building takes no more than 4,096 faces: a larger mesh is the refinement of
// `coarse` by the library, which then begins with that.
struct Polygons {
    std::string name;
    std::vector<Point> points;
    std::vector<std::vector<int>> faces;
    const Polygons *coarse = nullptr;
};

struct Peer {
    virtual ~Peer() = default;
    virtual const char *name() const = 0;
    // Builds the mesh from its polygons, which stand ready in the form that the library takes. Timed.
    virtual void build() = 0;
    // Makes the mesh anew as it is before the step. Not timed.
    virtual void prepare() = 0;
    // The step. Timed.
    virtual void step() = 0;
    // How many faces there are after the step, and where the points are: those of the mesh before the step first, in their order.
    virtual std::size_t faces() const = 0;
    virtual std::vector<Point> points() const = 0;
};

std::unique_ptr<Peer> opensubdiv_peer(const Polygons &);
std::unique_ptr<Peer> cgal_peer(const Polygons &);
std::unique_ptr<Peer> openmesh_peer(const Polygons &);
std::unique_ptr<Peer> library_peer(const Polygons &);
std::unique_ptr<Peer> published_peer(const Polygons &);
std::unique_ptr<Peer> limit_peer(const Polygons &);

// The refinement of a mesh by the library.
Polygons refined(const std::string &name, const Polygons &coarse);
