// OpenMesh: the uniform subdivider of Catmull and Clark's rule on a polygon mesh of doubles.
#include "peer.h"
#include <OpenMesh/Core/Mesh/PolyMesh_ArrayKernelT.hh>
#include <OpenMesh/Tools/Subdivider/Uniform/CatmullClarkT.hh>

namespace {
struct Doubles : OpenMesh::DefaultTraitsDouble {};
using Mesh = OpenMesh::PolyMesh_ArrayKernelT<Doubles>;

struct OpenMeshPeer : Peer {
    std::vector<Mesh::Point> places;
    std::vector<std::vector<Mesh::VertexHandle>> corners;
    Mesh before, mesh;

    explicit OpenMeshPeer(const Polygons &polygons) {
        for (const Point &p : polygons.points) places.push_back({p[0], p[1], p[2]});
        for (const auto &face : polygons.faces) {
            corners.emplace_back();
            for (int p : face) corners.back().push_back(Mesh::VertexHandle(p));
        }
        build();
        before = mesh;
    }
    void build() override {
        mesh = Mesh();
        mesh.reserve(places.size(), 2 * corners.size(), corners.size());
        for (const auto &p : places) mesh.add_vertex(p);
        for (const auto &face : corners) mesh.add_face(face);
    }
    const char *name() const override { return "OpenMesh"; }
    void prepare() override { mesh = before; }
    void step() override {
        OpenMesh::Subdivider::Uniform::CatmullClarkT<Mesh, double> subdivider;
        subdivider.attach(mesh);
        subdivider(1);
        subdivider.detach();
    }
    std::size_t faces() const override { return mesh.n_faces(); }
    std::vector<Point> points() const override {
        std::vector<Point> found;
        for (auto v : mesh.vertices()) found.push_back({mesh.point(v)[0], mesh.point(v)[1], mesh.point(v)[2]});
        return found;
    }
};
}  // namespace

std::unique_ptr<Peer> openmesh_peer(const Polygons &mesh) { return std::make_unique<OpenMeshPeer>(mesh); }
