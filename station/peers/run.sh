#!/bin/sh
# Compares one step of this library, and building, with OpenSubdiv, CGAL and OpenMesh on the same meshes: station/peers/run.sh [MESH.obj ..]
# Needed: the Rattle kit, g++, and Debian's packages libosd-dev, libcgal-dev, libopenmesh-dev. Not part of the gate.
set -eu
here=$(cd "$(dirname "$0")" && pwd)
out=$here/../target/peers
library=$here/../../target/staticlib/libstation.a
for header in opensubdiv/far/primvarRefiner.h CGAL/Surface_mesh.h OpenMesh/Core/Mesh/PolyMesh_ArrayKernelT.hh; do
    if [ ! -f "/usr/include/$header" ]; then
        echo "peers: not compared, $header is not here (libosd-dev, libcgal-dev, libopenmesh-dev)"
        exit 0
    fi
done
"$here/../library.sh"
mkdir -p "$out"
for part in opensubdiv cgal openmesh library main; do
    if [ ! -f "$out/$part.o" ] || [ -n "$(find "$here/$part.cpp" "$here/peer.h" "$here/../lavyngo.h" -newer "$out/$part.o")" ]; then
        g++ -std=c++17 -O3 -DNDEBUG -w -c -o "$out/$part.o" "$here/$part.cpp"
    fi
done
g++ -o "$out/peers" "$out"/*.o "$library" -losdCPU -lOpenMeshTools -lOpenMeshCore -lgmp -lmpfr
exec "$out/peers" "$@"
