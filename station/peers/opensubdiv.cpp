// OpenSubdiv: one level of a TopologyRefiner with full topology in its last level, and the points by a PrimvarRefiner.
#include "peer.h"
#include <opensubdiv/far/primvarRefiner.h>
#include <opensubdiv/far/topologyDescriptor.h>

namespace {
using namespace OpenSubdiv;
using Refiner = Far::TopologyRefiner;
using Descriptor = Far::TopologyDescriptor;

struct Vertex {
    double x[3];
    void Clear(void * = nullptr) { x[0] = x[1] = x[2] = 0.0; }
    void AddWithWeight(const Vertex &from, float weight) {
        for (int k = 0; k < 3; k++) x[k] += weight * from.x[k];
    }
};

struct OpenSubdivPeer : Peer {
    std::vector<int> sizes, corners;
    std::vector<Vertex> old, fine;
    std::unique_ptr<Refiner> refiner;

    explicit OpenSubdivPeer(const Polygons &mesh) {
        for (const Point &p : mesh.points) old.push_back({{p[0], p[1], p[2]}});
        for (const auto &face : mesh.faces) {
            sizes.push_back(int(face.size()));
            corners.insert(corners.end(), face.begin(), face.end());
        }
    }
    const char *name() const override { return "OpenSubdiv, full topology"; }
    void build() override {
        Descriptor d;
        d.numVertices = int(old.size());
        d.numFaces = int(sizes.size());
        d.numVertsPerFace = sizes.data();
        d.vertIndicesPerFace = corners.data();
        using Factory = Far::TopologyRefinerFactory<Descriptor>;
        refiner.reset(Factory::Create(d, Factory::Options(Sdc::SCHEME_CATMARK, Sdc::Options())));
    }
    void prepare() override {
        build();
        fine.clear();
    }
    void step() override {
        Refiner::UniformOptions options(1);
        options.fullTopologyInLastLevel = true;
        options.orderVerticesFromFacesFirst = false;
        refiner->RefineUniform(options);
        fine.resize(std::size_t(refiner->GetLevel(1).GetNumVertices()));
        Vertex *to = fine.data();
        Far::PrimvarRefinerReal<double>(*refiner).Interpolate(1, old.data(), to);
    }
    std::size_t faces() const override { return std::size_t(refiner->GetLevel(1).GetNumFaces()); }
    std::vector<Point> points() const override {
        std::vector<Point> found;
        std::vector<bool> taken(fine.size());
        auto take = [&](std::size_t v) { found.push_back({fine[v].x[0], fine[v].x[1], fine[v].x[2]}), taken[v] = true; };
        for (int v = 0; v < int(old.size()); v++) take(std::size_t(refiner->GetLevel(0).GetVertexChildVertex(v)));
        for (std::size_t v = 0; v < fine.size(); v++)
            if (!taken[v]) take(v);
        return found;
    }
};
}  // namespace

std::unique_ptr<Peer> opensubdiv_peer(const Polygons &mesh) { return std::make_unique<OpenSubdivPeer>(mesh); }
