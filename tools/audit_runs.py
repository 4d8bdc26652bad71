#!/usr/bin/env python3
"""Makes the input and the expected output of the program audit_runs.

    tools/audit_runs.py          writes crates/audit_runs/stdin and crates/audit_runs/stdout
    tools/audit_runs.py --check  says whether they are up to date

Accepted: the meshes that the oracle recorded (oracle/samples/*.out), after each stage, as far as
document 01 accepts them (the larger ones are left out). Refused: spoilt meshes, at least one for each clause of the audit.

A mesh in the input: a label of 32 bytes, then eight numbers of 8 bytes (points, edges, faces, and the lengths of the tables of
positions, points, edges, intervals, faces), then the five tables, numbers in 8 bytes and words in 4, all little-endian.
"""
import copy
import os
import struct
import sys

ROOT = os.path.join(os.path.dirname(os.path.abspath(__file__)), "..")
SAMPLES = os.path.join(ROOT, "oracle", "samples")
CRATE = os.path.join(ROOT, "crates", "audit_runs")
MOST = {"positions": 330, "points": 330, "edges": 1600, "intervals": 200, "faces": 500}
NONE = 0xFFFFFFFF
NAN = 0x7FF8000000000000
INF = 0x7FF0000000000000


class Mesh:
    """Five tables of rows, counts, and how many words of each table are lent (all, unless set)."""

    def __init__(self, points, edges, faces):
        self.positions = [[p[0], p[1], p[2]] for p in points]
        self.points = [[p[3], p[4], p[5]] for p in points]
        self.edges = [list(e[:8]) for e in edges]
        self.intervals = [e[8] for e in edges]
        self.faces = [list(f) for f in faces]
        self.counts = [len(points), len(edges), len(faces)]
        self.lent = {}

    def tables(self):
        flat = {
            "positions": sum(self.positions, []),
            "points": sum(self.points, []),
            "edges": sum(self.edges, []),
            "intervals": list(self.intervals),
            "faces": sum(self.faces, []),
        }
        return {k: v[: self.lent.get(k, len(v))] for k, v in flat.items()}

    def fits(self):
        return all(len(v) <= MOST[k] for k, v in self.tables().items())

    def record(self, label):
        t = self.tables()
        out = label.encode().ljust(32)[:32]
        out += struct.pack("<3Q", *self.counts)
        out += struct.pack("<5Q", *(len(t[k]) for k in ("positions", "points", "edges", "intervals", "faces")))
        for k in ("positions", "points", "edges", "intervals", "faces"):
            out += struct.pack("<%d%s" % (len(t[k]), "Q" if k in ("positions", "intervals") else "I"), *t[k])
        return out


def listings(name):
    """The meshes of a recorded answer, one for each stage that has a listing."""
    rows = None
    for line in open(os.path.join(SAMPLES, name + ".out")):
        words = line.strip().strip("[]").split()
        if words[0] == "mesh":
            rows = {"point": [], "edge": [], "face": []}
        elif words[0] == "point":
            rows["point"].append([int(w, 16) for w in words[1:4]] + [int(w) for w in words[4:]])
        elif words[0] == "edge":
            rows["edge"].append([int(w) for w in words[1:9]] + [int(words[9], 16)])
        elif words[0] == "face":
            rows["face"].append([NONE if w == "none" else int(w) for w in words[1:]])
        elif words[0] == "end":
            yield Mesh(rows["point"], rows["edge"], rows["face"])


def recorded():
    """Label and mesh of each recorded stage that document 01 accepts, up to 100 edges, and all stages of the cube; of text 1 in the first edition."""
    for line in open(os.path.join(SAMPLES, "INDEX")):
        name = line.split()[0]
        if name.startswith(("beyond-", "error-", "text-2-", "published-")):
            continue
        for stage, m in enumerate(listings(name)):
            numbers = sum(m.positions, []) + m.intervals
            short = len(m.edges) <= 100 or name == "cube"
            if all(n & INF != INF for n in numbers) and short:
                yield "%s %d" % (name, stage), m


ONE = struct.unpack("<Q", struct.pack("<d", 1.0))[0]


def built(perimeters, rows=None):
    """The winged edges of faces given as lists of (point, edge name): the edge leaves the point towards the next one. `rows` gives
    the row of each face, its own unless said otherwise."""
    rows = rows or list(range(len(perimeters)))
    number, edges = {}, []
    for f, places in enumerate(perimeters):
        for i, (p, name) in enumerate(places):
            q = places[(i + 1) % len(places)][0]
            if name not in number:
                number[name] = len(edges)
                edges.append([p, q, rows[f], NONE, 0, 0, 0, 0, ONE])
            else:
                edges[number[name]][3] = rows[f]
    left = set()
    for f, places in enumerate(perimeters):
        ids = [number[name] for _, name in places]
        for i, e in enumerate(ids):
            after, before = ids[(i + 1) % len(ids)], ids[i - 1]
            if e in left:
                edges[e][6], edges[e][7] = before, after
            else:
                edges[e][4], edges[e][5] = before, after
            left.add(e)
    np = 1 + max(p for places in perimeters for p, _ in places)
    points = []
    for p in range(np):
        own = [i for i, e in enumerate(edges) if p in e[:2]]
        points.append([ONE, ONE, ONE, len(own), own[-1], 0])
    faces = [None] * (1 + max(rows))
    for f, places in enumerate(perimeters):
        if faces[rows[f]] is None:
            faces[rows[f]] = [number[places[0][1]], NONE, NONE, NONE, NONE]
    return Mesh(points, edges, faces)


def plain(perimeters, rows=None):
    """The same with one edge for two points."""
    return built([[(p, (min(p, c[(i + 1) % len(c)]), max(p, c[(i + 1) % len(c)]))) for i, p in enumerate(c)] for c in perimeters], rows)


TETRAHEDRON = [[0, 1, 2], [0, 3, 1], [1, 3, 2], [2, 3, 0]]


def shifted(perimeters, d, keep=()):
    return [[p if p in keep else p + d for p in c] for c in perimeters]


def spoilt():
    """Label and mesh, one or more for each clause."""
    base = next(listings("cube"))

    def damage(label, change):
        m = copy.deepcopy(base)
        change(m)
        return label, m

    def put(table, row, place, value):
        def change(m):
            getattr(m, table)[row][place] = value

        return change

    def count(k, value):
        def change(m):
            m.counts[k] = value

        return change

    def lend(table, n):
        def change(m):
            m.lent[table] = n

        return change

    def interval(value):
        def change(m):
            m.intervals[5] = value

        return change

    def swap(m):
        m.edges[3][:4] = [m.edges[3][k] for k in (1, 0, 3, 2)]

    e = base.edges
    yield damage("one point too many", count(0, 9))
    yield damage("one edge too many", count(1, 13))
    yield damage("one face too many", count(2, 7))
    yield damage("2^64 - 1 points", count(0, 2**64 - 1))
    yield damage("2^64 - 1 edges", count(1, 2**64 - 1))
    yield damage("2^64 - 1 faces", count(2, 2**64 - 1))
    yield damage("one point too few", count(0, 7))
    yield damage("one edge too few", count(1, 11))
    yield damage("one face too few", count(2, 5))
    yield damage("positions short", lend("positions", 23))
    yield damage("points short", lend("points", 23))
    yield damage("edges short", lend("edges", 95))
    yield damage("intervals short", lend("intervals", 11))
    yield damage("faces short", lend("faces", 29))
    yield damage("start edge out of range", put("points", 2, 1, 12))
    yield damage("origin out of range", put("edges", 2, 0, 8))
    yield damage("destination out of range", put("edges", 2, 1, 8))
    yield damage("left face out of range", put("edges", 2, 2, 6))
    yield damage("right face out of range", put("edges", 2, 3, NONE))
    for k, name in enumerate(("LeftCw", "LeftAcw", "RightCw", "RightAcw")):
        yield damage(name + " out of range", put("edges", 4, 4 + k, 12))
    yield damage("face start out of range", put("faces", 3, 0, 12))
    yield damage("x infinite", put("positions", 0, 0, INF))
    yield damage("y not a number", put("positions", 3, 1, NAN))
    yield damage("z infinite", put("positions", 7, 2, INF | 1 << 63))
    yield damage("interval infinite", interval(INF))
    yield damage("interval not a number", interval(NAN))
    yield damage("interval -0", interval(1 << 63))
    yield damage("interval -1", interval(ONE | 1 << 63))
    yield damage("ends agree", put("edges", 6, 1, e[6][0]))
    yield damage("faces agree", put("edges", 6, 3, e[6][2]))
    yield damage("edge turned round", swap)
    yield damage("another end", put("edges", 6, 1, 0))
    yield damage("another face", put("edges", 6, 3, 0))
    for k, name in enumerate(("LeftCw", "LeftAcw", "RightCw", "RightAcw")):
        yield damage("another " + name, put("edges", 4, 4 + k, (e[4][4 + k] + 1) % 12))
    yield damage("LeftCw and LeftAcw change places", lambda m: m.edges[4].__setitem__(slice(4, 6), [e[4][5], e[4][4]]))
    yield damage("another face start", put("faces", 0, 0, 6))
    yield damage("another start edge", put("points", 0, 1, 6))
    yield damage("valence 2 for 3", put("points", 5, 0, 2))
    yield damage("valence 4 for 3", put("points", 5, 0, 4))
    yield damage("valence 2^32 - 1", put("points", 5, 0, NONE))
    yield damage("mark 2", put("points", 1, 2, 2))
    yield damage("corner out of range", put("faces", 4, 3, 8))
    yield damage("corner 2^32 - 2", put("faces", 4, 4, NONE - 1))
    yield "two edges join two points", built([[(0, "a"), (1, "c"), (2, "d")], [(0, "d"), (2, "c"), (1, "b")], [(0, "b"), (1, "e"), (3, "f")], [(0, "f"), (3, "e"), (1, "a")]])
    yield "a face passes a point twice", plain([[0, 1, 2], [0, 3, 4], [0, 2, 1, 0, 4, 3]])
    yield "faces of two edges", built([[(0, "a"), (1, "b")], [(0, "b"), (1, "a")]])
    yield "faces of 65 edges", plain([list(range(65)), list(range(64, -1, -1))])
    yield "two borders in one face", plain(TETRAHEDRON + shifted(TETRAHEDRON, 4), [0, 1, 2, 3, 0, 4, 5, 6])
    yield "two fans about one point", plain(TETRAHEDRON + shifted(TETRAHEDRON, 3, (0,)))
    single = plain([[0, 1, 2], [0, 2, 1]])
    single.points.append([0, 0, 0])
    single.positions.append([ONE, ONE, ONE])
    single.counts[0] = 4
    yield "a point with no edge", single
    single = copy.deepcopy(single)
    single.points[3] = [1, 0, 0]
    yield "a point of valence 1", single


def made():
    """Closed meshes that the oracle did not record."""
    yield "two faces of 64 edges", plain([list(range(64)), list(range(63, -1, -1))])
    m = next(listings("cube"))
    m.positions.append([NAN, NAN, NAN])
    m.points.append([NONE, NONE, NONE])
    m.edges.append([NONE] * 8)
    m.intervals.append(NAN)
    m.faces.append([NONE] * 5)
    m.lent = {"positions": 26, "points": 25, "edges": 103, "intervals": 13, "faces": 34}
    yield "more words than the counts say", m
    m = next(listings("cube"))
    m.positions[0] = [1 << 63] * 3
    yield "coordinates -0", m


def main():
    stdin, stdout = b"", b""
    for closed, meshes in ((True, recorded()), (True, made()), (False, spoilt())):
        for label, m in meshes:
            assert m.fits() and len(label) <= 32, label
            stdin += m.record(label)
            stdout += label.encode().ljust(32) + (b" closed\n" if closed else b" not closed\n")
    for name, data in (("stdin", stdin), ("stdout", stdout)):
        path = os.path.join(CRATE, name)
        if "--check" in sys.argv[1:]:
            if open(path, "rb").read() != data:
                sys.exit("%s is not up to date" % path)
        else:
            open(path, "wb").write(data)
    print("%d bytes, %d meshes" % (len(stdin), stdout.count(b"\n")))


main()
