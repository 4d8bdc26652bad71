// CGAL: Catmull and Clark's rule on a Surface_mesh.
#include "peer.h"
#include <CGAL/Simple_cartesian.h>
#include <CGAL/Surface_mesh.h>
#include <CGAL/subdivision_method_3.h>

namespace {
using Kernel = CGAL::Simple_cartesian<double>;
using Surface = CGAL::Surface_mesh<Kernel::Point_3>;

struct CgalPeer : Peer {
    std::vector<Kernel::Point_3> places;
    std::vector<std::vector<Surface::Vertex_index>> corners;
    Surface before, mesh;

    explicit CgalPeer(const Polygons &polygons) {
        for (const Point &p : polygons.points) places.push_back({p[0], p[1], p[2]});
        for (const auto &face : polygons.faces) {
            corners.emplace_back();
            for (int p : face) corners.back().push_back(Surface::Vertex_index(Surface::size_type(p)));
        }
        build();
        before = mesh;
    }
    void build() override {
        mesh.clear();
        mesh.reserve(Surface::size_type(places.size()), Surface::size_type(2 * corners.size()), Surface::size_type(corners.size()));
        for (const auto &p : places) mesh.add_vertex(p);
        for (const auto &face : corners) mesh.add_face(face);
    }
    const char *name() const override { return "CGAL Surface_mesh"; }
    void prepare() override { mesh = before; }
    void step() override {
        CGAL::Subdivision_method_3::CatmullClark_subdivision(mesh, CGAL::parameters::number_of_iterations(1));
    }
    std::size_t faces() const override { return mesh.number_of_faces(); }
    std::vector<Point> points() const override {
        std::vector<Point> found;
        for (auto v : mesh.vertices()) found.push_back({mesh.point(v).x(), mesh.point(v).y(), mesh.point(v).z()});
        return found;
    }
};
}  // namespace

std::unique_ptr<Peer> cgal_peer(const Polygons &mesh) { return std::make_unique<CgalPeer>(mesh); }
