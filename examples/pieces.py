#!/usr/bin/env python3
"""Makes the example texts of this folder but for the cube, which is document 01's.

    examples/pieces.py            writes core.mesh, two-triangles.mesh, turned.mesh and clockwise.mesh beside this script
    examples/pieces.py --check    says whether they are up to date

core.mesh is a piece of core: eight faces about it, in four rings from the depth 12.0 to 12.4, a flat lower end of one face and a
broken upper end of four. two-triangles.mesh is the smallest closed mesh but for the empty one. turned.mesh is the core with one face listed the other
way round, which is refused with 15. clockwise.mesh is the core in version 2 with three faces turned round, which `mend` mends.
"""
import pathlib
import sys

HERE = pathlib.Path(__file__).resolve().parent
sys.path.insert(0, str(HERE.parent / "tools"))
from h import digits  # noqa: E402

# The directions of the eight corners about the core.
HALF = 0.7071067811865476
ABOUT = [(1.0, 0.0), (HALF, HALF), (0.0, 1.0), (-HALF, HALF), (-1.0, 0.0), (-HALF, -HALF), (0.0, -1.0), (HALF, -HALF)]
RADIUS = 0.049
RINGS = 4
# How far the broken end lies above or below the depth 12.0, corner by corner, and in its middle.
BROKEN = [0.011, 0.018, 0.006, -0.004, -0.013, -0.002, 0.009, 0.015]
MIDDLE = (0.008, -0.005, 0.021)


def quad(a, b, c, d):
    """A face of four sides with one point each; all intervals are 1."""
    return [[(b, 1.0)], [(c, 1.0)], [(d, 1.0)], [(a, 1.0)]]


def core():
    """The points and the faces of the piece of core."""
    points = []
    for ring in range(RINGS + 1):
        for corner, (x, y) in enumerate(ABOUT):
            depth = 12.0 + 0.1 * ring + (BROKEN[corner] if ring == 0 else 0.0)
            points.append((RADIUS * x, RADIUS * y, depth))
    middle = len(points)
    points.append((MIDDLE[0], MIDDLE[1], 12.0 + MIDDLE[2]))
    faces = []
    for ring in range(RINGS):
        for corner in range(8):
            near, far = 8 * ring + corner, 8 * ring + (corner + 1) % 8
            faces.append(quad(near, far, far + 8, near + 8))
    lower = [8 * RINGS + corner for corner in range(8)]
    faces.append([[(lower[k], 1.0), (lower[k + 1], 1.0)] for k in (0, 2, 4, 6)])
    for corner in (0, 2, 4, 6):
        faces.append(quad(middle, (corner + 2) % 8, corner + 1, corner))
    return points, faces


def two_triangles():
    """Two triangles back to back, whose sides sum up to 1, 1, 2 and 0."""
    points = [(0.0, 0.0, 0.0), (1.0, 0.0, 0.0), (0.0, 1.0, 0.0)]
    return points, [[[(1, 1.0)], [(2, 1.0)], [(0, 2.0)], []], [[(2, 1.0)], [(1, 1.0)], [(0, 2.0)], []]]


def turned():
    """The piece of core with its face 11 the other way round."""
    points, faces = core()
    a, b, c, d = (side[0][0] for side in faces[11])
    faces[11] = quad(d, c, b, a)
    return points, faces


def turned_round(face):
    """A face with its sides in opposite order, each backwards, each interval on its pair of points (document 02, section 8)."""
    points = [p for side in face for p, _ in side]
    listed = list(zip(points[-2::-1] + points[-1:], [d for side in face for _, d in side][::-1]))
    sides = []
    for side in face[::-1]:
        sides.append(listed[: len(side)])
        listed = listed[len(side) :]
    return sides


def clockwise():
    """The piece of core with three of its faces turned round."""
    points, faces = core()
    return points, [turned_round(face) if f in (3, 11, 32) else face for f, face in enumerate(faces)], 2


def text(points, faces, version=1):
    """A mesh text. A side's first point is the one listed last before it, going round."""
    lines = ["[mesh %d]" % version]
    lines += ["[point %s]" % " ".join(map(digits, point)) for point in points]
    for face in faces:
        last = [listed for side in face for listed in side][-1][0]
        sides = []
        for side in face:
            sides.append("[%s]" % " ".join([str(last)] + ["[%d %s]" % (p, digits(d)) for p, d in side]))
            last = side[-1][0] if side else last
        lines.append("[face %s]" % " ".join(sides))
    return "\n".join(lines + ["[end]", ""])


def main(words):
    pieces = {"core": core(), "two-triangles": two_triangles(), "turned": turned(), "clockwise": clockwise()}
    for name, piece in pieces.items():
        path = HERE / (name + ".mesh")
        if words != ["--check"]:
            path.write_text(text(*piece))
        elif not path.exists() or path.read_text() != text(*piece):
            sys.exit("examples: %s is not what pieces.py makes" % path.name)
    if words == ["--check"]:
        print("examples: %d texts are what pieces.py makes" % len(pieces))


if __name__ == "__main__":
    main(sys.argv[1:])
