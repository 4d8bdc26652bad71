#!/usr/bin/env python3
"""Writes the sample meshes into a folder: NAME.mesh (mesh text 1 or 2), NAME.orders for those that are visited in listed
orders, perhaps in the second edition, and INDEX with a line for each sample: its name, its number of steps, what it is.

    generate.py FOLDER

Nothing is left to chance or to a mathematical library: the numbers come from sums, products, quotients and a generator
with a fixed seed, so the texts are the same on every machine.
"""

import pathlib
import struct
import sys

SMALL = 0.000001
INFINITY = float("inf")
NAN = float("nan")
LARGEST = 1.7976931348623157e308


class Random:
    """A linear congruential generator (Knuth's MMIX constants)."""

    def __init__(self, seed):
        self.state = seed

    def below(self, bound):
        self.state = (self.state * 6364136223846793005 + 1442695040888963407) % 2**64
        return (self.state >> 33) % bound

    def shuffled(self, items):
        items = list(items)
        for last in range(len(items) - 1, 0, -1):
            other = self.below(last + 1)
            items[last], items[other] = items[other], items[last]
        return items

    def coordinate(self):
        """A number from -2 to 2 with a full significand."""
        return (self.below(2**31) * 2**22 + self.below(2**22)) / 2**51 - 2.0


def next_above(x):
    return struct.unpack(">d", struct.pack(">Q", struct.unpack(">Q", struct.pack(">d", x))[0] + 1))[0]


# A face is four sides, a side a list of (point, interval). A mesh is (points, faces).


def hexadecimal(x):
    return struct.pack(">d", x).hex()


def text(mesh, version=1):
    """A mesh text. A side's first point is the one listed last before it, going round; in version 1 an empty side is `[0]`."""
    points, faces = mesh
    lines = ["[mesh %d]" % version]
    for point in points:
        lines.append("[point %s]" % " ".join(map(hexadecimal, point)))
    for face in faces:
        listed = [point for side in face for point, _ in side]
        last = listed[-1] if listed else 0
        sides = []
        for side in face:
            first = last if side or version == 2 else 0
            sides.append("[%s]" % " ".join([str(first)] + ["[%d %s]" % (p, hexadecimal(d)) for p, d in side]))
            last = side[-1][0] if side else last
        lines.append("[face %s]" % " ".join(sides))
    return "\n".join(lines + ["[end]", ""])


def text_2(mesh):
    return text(mesh, 2)


def in_sides(border, intervals, lengths):
    """The face with this border, as document 01 writes it: the second point is listed first, the first one last. The
    points, each with its interval, are cut into four sides of these lengths."""
    listed = list(zip(border[1:] + border[:1], intervals))
    cuts = [sum(lengths[:k]) for k in range(5)]
    return [listed[cuts[k]:cuts[k + 1]] for k in range(4)]


def halves(n):
    """Lengths of four sides, the first two of which hold the larger half of n points."""
    first, second = n - n // 2, n // 2
    return [first - first // 2, first // 2, second - second // 2, second // 2]


def even(border, unit=1.0):
    """The face with intervals of one unit, the last doubled if their number is odd, so that the side sums agree."""
    n = len(border)
    return in_sides(border, [unit] * (n - n % 2) + [2.0 * unit] * (n % 2), halves(n))


def alternating(border, a, b):
    """The quadrilateral with the intervals a, b, a, b."""
    return in_sides(border, [a, b, a, b], [1, 1, 1, 1])


def balanced(border, intervals):
    """The face with these intervals, the smaller half of them raised at its end until the side sums agree."""
    n = len(border)
    first = n - n // 2
    difference = sum(intervals[:first]) - sum(intervals[first:])
    intervals = list(intervals)
    intervals[n - 1 if difference > 0 else first - 1] += abs(difference)
    return in_sides(border, intervals, halves(n))


def pairwise(border, intervals):
    """The face for text 2 with these intervals: of two opposite sides the lesser is raised at its end until their sums agree."""
    n = len(border)
    lengths = halves(n) if n > 3 else [1, 0, 2, 0]
    sides = in_sides(border, intervals, lengths)
    for one, other in ((sides[0], sides[2]), (sides[1], sides[3])):
        difference = sum(d for _, d in one) - sum(d for _, d in other)
        if difference != 0:
            raised = other if difference > 0 else one
            raised[-1] = raised[-1][0], raised[-1][1] + abs(difference)
    return sides


CUBE = [[0, 2, 3, 1], [4, 5, 7, 6], [0, 1, 5, 4], [2, 6, 7, 3], [0, 4, 6, 2], [1, 3, 7, 5]]


def cube_points(low=-1.0, high=1.0):
    return [tuple(high if k >> bit & 1 else low for bit in range(3)) for k in range(8)]


def circle(n):
    """n different points of the unit circle in turn, by its rational parametrisation."""
    ring = []
    for k in range(n):
        t = (2 * k - n + 1) / 2.0
        ring.append(((1.0 - t * t) / (1.0 + t * t), 2.0 * t / (1.0 + t * t)))
    return ring


def pillow(n):
    border = list(range(n))
    return [(x, y, 0.0) for x, y in circle(n)], [border, border[::-1]]


def prism(n):
    points = [(x, y, z) for z in (0.0, 1.0) for x, y in circle(n)]
    caps = [list(range(n))[::-1], list(range(n, 2 * n))]
    return points, caps + [[k, (k + 1) % n, n + (k + 1) % n, n + k] for k in range(n)]


def bipyramid(n):
    points = [(x, y, 0.0) for x, y in circle(n)] + [(0.0, 0.0, 1.0), (0.0, 0.0, -1.0)]
    upper = [[k, (k + 1) % n, n] for k in range(n)]
    return points, upper + [[(k + 1) % n, k, n + 1] for k in range(n)]


def torus(m, n):
    points = [(x * (2.0 + u), y * (2.0 + u), v) for x, y in circle(m) for u, v in circle(n)]
    borders = []
    for i in range(m):
        for j in range(n):
            a, b = i * n, (i + 1) % m * n
            borders.append([a + j, b + j, b + (j + 1) % n, a + (j + 1) % n])
    return points, borders


TETRAHEDRON = [(1.0, 1.0, 1.0), (1.0, -1.0, -1.0), (-1.0, 1.0, -1.0), (-1.0, -1.0, 1.0)], \
    [[0, 1, 2], [0, 3, 1], [0, 2, 3], [1, 3, 2]]
TWO_TRIANGLES = [(0.0, 0.0, 0.0), (1.0, 0.0, 0.0), (0.0, 1.0, 0.0)], [[0, 1, 2], [0, 2, 1]]


def evenly(shape, unit=1.0):
    points, borders = shape
    return points, [even(border, unit) for border in borders]


def unevenly(shape, seed):
    """Random intervals, multiples of 1/8 from 0 to some thousands, on every face."""
    random = Random(seed)
    points, borders = shape
    return points, [balanced(border, [random.below(1 << random.below(14)) / 8 for _ in border]) for border in borders]


def unevenly_2(shape, seed):
    """The same for text 2."""
    random = Random(seed)
    points, borders = shape
    return points, [pairwise(border, [random.below(1 << random.below(14)) / 8 for _ in border]) for border in borders]


def together(*meshes):
    """Several components in one mesh."""
    points, faces = [], []
    for more_points, more_faces in meshes:
        shift = len(points)
        faces += [[[(p + shift, d) for p, d in side] for side in face] for face in more_faces]
        points += more_points
    return points, faces


def by_direction(x, y, z):
    """The cube, its edges' intervals given by the axis they run along."""
    def interval(p, q):
        return {1: x, 2: y, 4: z}[p ^ q]
    return cube_points(), [alternating(b, interval(b[1], b[2]), interval(b[2], b[3])) for b in CUBE]


def dented(seed, turns):
    """A random closed mesh: a cube or tetrahedron of which edges got points, faces chords and faces middle points."""
    random = Random(seed)
    borders = [list(border) for border in (CUBE if random.below(2) else TETRAHEDRON[1])]
    count = 1 + max(map(max, borders))
    for _ in range(turns):
        border = borders[random.below(len(borders))]
        at = random.below(len(border))
        border[:] = border[at:] + border[:at]
        what = random.below(3)
        if what == 0:
            p, q = border[:2]
            for other in borders:
                for i in range(len(other)):
                    if {other[i - 1], other[i]} == {p, q}:
                        other.insert(i, count)
                        break
            count += 1
        elif what == 1 and len(border) > 3:
            at = 2 + random.below(len(border) - 3)
            p, q = border[0], border[at]
            if all({b[i - 1], b[i]} != {p, q} for b in borders for i in range(len(b))):
                borders.append(border[at:] + [p])
                border[:] = border[:at + 1]
        elif what == 2:
            borders += [[border[i - 1], border[i], count] for i in range(1, len(border))]
            border[:] = [border[-1], border[0], count]
            count += 1
    names = random.shuffled(range(count))
    points = [tuple(random.coordinate() for _ in range(3)) for _ in range(count)]
    return points, random.shuffled([[names[p] for p in border] for border in borders])


def orders(seed, shape, steps):
    """Random visiting orders, one for each step."""
    random = Random(seed)
    _, borders = shape
    sizes = [len(border) for border in borders]
    lists = []
    for _ in range(steps):
        lists.append(random.shuffled(range(len(sizes))))
        sizes = [4] * sum(sizes)
    return lists


def samples():
    """Yields name, number of steps, what it is, the mesh or its text, and the visiting orders if they are listed."""
    cube = cube_points(), CUBE
    valence_2 = [[0, 8, 2, 3, 9, 1], [4, 10, 5, 7, 6], [0, 1, 5, 10, 4], [2, 6, 7, 3], [0, 4, 6, 2, 8], [1, 9, 3, 7, 5]]
    middles = [(-1.0, 0.0, -1.0), (1.0, 0.0, -1.0), (0.0, -1.0, 1.0)]

    yield "empty", 2, "no points, no faces", ([], [])
    yield "cube", 2, "document 01's cube", evenly(cube)
    yield "cube-uneven", 2, "the cube, random intervals", unevenly(cube, 1)
    yield "cube-very-uneven", 2, "the cube, intervals 2^200, 2^-200 and 1 by direction", \
        by_direction(2.0**200, 2.0**-200, 1.0)
    yield "cube-sums-1-2-2-1", 2, "the cube, side sums 1, 2, 2, 1 on every face", \
        (cube_points(), [in_sides(b, [1.0, 2.0, 2.0, 1.0], [1, 1, 1, 1]) for b in CUBE])
    yield "cube-zero-one-way", 2, "the cube, intervals 0 along x", by_direction(0.0, 1.0, 2.0)
    yield "cube-zero-two-ways", 2, "the cube, intervals 0 along x and y", by_direction(0.0, 0.0, 1.0)
    yield "cube-zero", 1, "the cube, all intervals 0: not finite", evenly(cube, 0.0)
    yield "cube-huge", 2, "the cube, intervals 2^500", evenly(cube, 2.0**500)
    yield "cube-overflow", 1, "the cube, intervals 2^510: not finite", evenly(cube, 2.0**510)
    yield "cube-tiny", 2, "the cube, intervals 2^-500: all denominators but the face points' are small", \
        evenly(cube, 2.0**-500)
    yield "cube-underflow", 1, "the cube, intervals 2^-560: the weights are 0, not finite", evenly(cube, 2.0**-560)
    yield "cube-small-edges", 2, "the cube, intervals t/16 and t/8: some denominators small", \
        by_direction(SMALL / 16, SMALL / 8, SMALL / 16)
    yield "cube-minus-zero", 2, "the cube with coordinates -0 and 1", (cube_points(-0.0, 1.0), evenly(cube)[1])
    yield "cube-far", 1, "the cube with coordinates 2^1023 and less: not finite", \
        (cube_points(-2.0**1023, 2.0**1023), evenly(cube)[1])
    yield "cube-valence-2", 2, "the cube with points on three of its edges", \
        evenly((cube_points() + middles, valence_2))
    yield "two-triangles", 2, "document 01's two triangles, sums 1, 1, 2, 0 each", evenly(TWO_TRIANGLES)
    yield "two-triangles-small-sum", 2, "the sums t, 0, 0, 0 pass 13", \
        (TWO_TRIANGLES[0], [in_sides(b, [SMALL, 0.0, 0.0], [1, 1, 1, 0]) for b in TWO_TRIANGLES[1]])
    yield "two-triangles-one-side", 2, "all points on one side, intervals t/4: the other sides are empty", \
        (TWO_TRIANGLES[0], [in_sides(b, [SMALL / 4] * 3, [0, 3, 0, 0]) for b in TWO_TRIANGLES[1]])
    yield "tetrahedron", 2, "the tetrahedron", evenly(TETRAHEDRON)
    yield "tetrahedron-uneven", 2, "the tetrahedron, random intervals", unevenly(TETRAHEDRON, 2)
    yield "tetrahedron-minus-zero", 2, "the tetrahedron with all coordinates -0", \
        ([(-0.0, -0.0, -0.0)] * 4, evenly(TETRAHEDRON)[1])
    yield "octahedron", 2, "valence 4 at every point: no marks", evenly(bipyramid(4))
    yield "bipyramid-12", 2, "two points of valence 12, random intervals", unevenly(bipyramid(12), 3)
    yield "bipyramid-24-overflow", 1, "an overflow on the way that leaves finite positions", \
        evenly(bipyramid(24), 2.0**507)
    yield "prism-3", 2, "the prism over a triangle", evenly(prism(3))
    yield "prism-5-uneven", 2, "the prism over a pentagon, random intervals", unevenly(prism(5), 4)
    yield "prism-7", 2, "the prism over a heptagon", evenly(prism(7))
    yield "pillow-3-uneven", 2, "two triangles, random intervals", unevenly(pillow(3), 5)
    yield "pillow-4-rounding", 2, "the sums 1e17, 1, 1e17, 1 pass 13", \
        (pillow(4)[0], [in_sides(b, [1e17, 1.0, 1e17, 1.0], [1, 1, 1, 1]) for b in pillow(4)[1]])
    yield "pillow-5", 2, "two pentagons", evenly(pillow(5))
    yield "pillow-64", 1, "two 64-gons: valence 2 at every point", evenly(pillow(64))
    yield "pillow-64-uneven", 1, "two 64-gons, random intervals", unevenly(pillow(64), 6)
    yield "torus-3-3", 2, "the smallest torus of quadrilaterals", evenly(torus(3, 3))
    yield "torus-4-5-uneven", 2, "a torus, random intervals", unevenly(torus(4, 5), 7)
    yield "torus-8-8-uneven", 1, "a torus of 64 points, 64 faces, 256 listed points, random intervals", \
        unevenly(torus(8, 8), 8)
    yield "components", 2, "five components", together(
        evenly(TETRAHEDRON), unevenly(cube, 9), evenly(TWO_TRIANGLES), unevenly(pillow(6), 10), evenly(torus(3, 3)))
    for seed, turns in enumerate([4, 6, 8, 10, 12, 14], start=1):
        yield "random-%d" % seed, 2, "a random closed mesh, random intervals", unevenly(dented(seed, turns), seed)
    for seed, turns in enumerate([30, 40, 50], start=7):
        yield "random-%d" % seed, 1, "a larger random closed mesh, random intervals", \
            unevenly(dented(seed, turns), seed)

    yield "cube-orders", 2, "the cube, faces visited from last to first, then in a random order", evenly(cube), \
        [[5, 4, 3, 2, 1, 0], orders(11, cube, 2)[1]]
    yield "two-triangles-orders", 3, "the two triangles in random orders", evenly(TWO_TRIANGLES), \
        [[1, 0]] + orders(12, TWO_TRIANGLES, 3)[1:]
    yield "prism-5-orders", 2, "the prism of prism-5-uneven in random orders", unevenly(prism(5), 4), \
        orders(13, prism(5), 2)
    yield "random-3-orders", 2, "the mesh of random-3 in random orders", unevenly(dented(3, 8), 3), \
        orders(14, dented(3, 8), 2)
    yield "components-orders", 1, "two components in a random order", \
        together(evenly(TETRAHEDRON), unevenly(cube, 9)), \
        orders(15, ([], TETRAHEDRON[1] + CUBE), 1)
    yield "cube-unfit-order", 1, "a visiting order that names a face twice", evenly(cube), [[0, 1, 2, 3, 4, 4]]

    points, faces = evenly(cube)
    triangle = even([0, 1, 2])
    skew = in_sides(CUBE[5], [1.0, 1.0, 1.0, 2.0], [1, 1, 1, 1])
    yield "error-13", 1, "the cube, the last face's sums 1, 1, 1, 2", (points, faces[:5] + [skew])
    yield "error-13-above-t", 1, "the sums of the next binary64 above t, 0, 0, 0", \
        (TWO_TRIANGLES[0], [in_sides(b, [next_above(SMALL), 0.0, 0.0], [1, 1, 1, 0]) for b in TWO_TRIANGLES[1]])
    yield "error-13-rounding", 1, "the sums 1e17, 0.5, 1e17, 0.25", \
        (pillow(4)[0], [in_sides(b, [1e17, 0.5, 1e17, 0.25], [1, 1, 1, 1]) for b in pillow(4)[1]])
    yield "error-13-overflow", 1, "sides whose sums are infinite", \
        (pillow(4)[0], [in_sides(b, [LARGEST] * 4, [2, 0, 2, 0]) for b in pillow(4)[1]])
    yield "error-13-second-face", 1, "the cube without its first four faces, then a skew one: 13 before 20", \
        (points, [faces[4], skew])
    yield "error-13-same-face", 1, "a third face on an edge whose sums disagree too: 13 before 14", \
        (points, [even([0, 1, 2]), even([0, 2, 1]), in_sides([1, 0, 3], [1.0, 1.0, 1.0], [1, 1, 1, 0])])
    yield "error-14", 1, "two triangles back to back and a third one on an edge", \
        (points, [even([0, 1, 2]), even([0, 2, 1]), even([1, 0, 3])])
    yield "error-14-same-way", 1, "the third face runs as the first", \
        (points, [even([0, 1, 2]), even([0, 2, 1]), even([0, 1, 3])])
    yield "error-14-later-place", 1, "the edge with two faces already is the third face's closing one", \
        (points, [even([0, 1, 2]), even([0, 2, 1]), even([3, 4, 1, 0][::-1])])
    yield "error-14-before-13", 1, "a third face on an edge, then a skew face", \
        (points, [even([0, 1, 2]), even([0, 2, 1]), even([1, 0, 3]), skew])
    yield "error-20", 1, "the cube without its last face", (points, faces[:5])
    yield "error-20-triangle", 1, "one triangle", (points[:3], [triangle])

    yield "beyond-03-negative", 1, "document 01: 3. A negative interval", \
        (points, [alternating(b, -1.0, 1.0) for b in CUBE])
    yield "beyond-03-not-finite", 1, "document 01: 3. A coordinate that is not a number, one that is infinite", \
        ([(NAN, 0.0, INFINITY)] + points[1:], faces)
    yield "beyond-10-none", 1, "document 01: 10. A face with no point", (points, [[[], [], [], []]])
    yield "beyond-10-one", 1, "document 01: 10. Two faces of one point", \
        (points[:1], [in_sides([0], [0.0], [1, 0, 0, 0])] * 2)
    yield "beyond-10-two", 1, "document 01: 10. Two faces of two points", (points[:2], [even([0, 1]), even([1, 0])])
    yield "beyond-10-65", 1, "document 01: 10. Two 65-gons", evenly(pillow(65))
    yield "beyond-11", 1, "document 01: 11. A point number out of range", (points[:3], [even([0, 1, 3])])
    yield "beyond-12", 1, "document 01: 12. A point twice in a face", \
        (points[:4], [even([0, 1, 0, 2]), even([2, 0, 1, 0])])
    yield "beyond-15", 1, "document 01: 15. Two triangles that run the same way", (points[:3], [triangle, triangle])
    yield "beyond-15-cube", 1, "document 01: 15. The cube with a face turned round", \
        (points, faces[:3] + [even(CUBE[3][::-1])] + faces[4:])
    yield "beyond-21", 1, "document 01: 21. The tetrahedron and a point with no edge", \
        together(evenly(TETRAHEDRON), ([(2.0, 2.0, 2.0)], []))
    yield "beyond-22", 1, "document 01: 22. Two tetrahedra with a point in common", \
        (TETRAHEDRON[0] + points[:3], [even([p + shift for p in b]) for shift in (0, 3) for b in TETRAHEDRON[1]])

    def cube_2(intervals, last=None):
        """The cube as a text 2, these intervals beside the points of each face, of the last face perhaps others."""
        sides = [in_sides(b, intervals, [1, 1, 1, 1]) for b in CUBE[:5]]
        return text_2((points, sides + [in_sides(CUBE[5], last or intervals, [1, 1, 1, 1])]))

    def pillow_2(n, intervals, lengths):
        shape = TWO_TRIANGLES if n == 3 else pillow(n)
        return text_2((shape[0], [in_sides(b, intervals, lengths) for b in shape[1]]))

    def edited(text, old, new):
        assert text.count(old) == 1
        return text.replace(old, new)

    one = hexadecimal(1.0)
    ones, last = cube_2([1.0] * 4), "[3 [7 %s]]" % one
    triangles = pillow_2(3, [1.0, 1.0, 2.0], [2, 0, 1, 0])
    yield "text-2-cube", 1, "text 2: the cube, intervals 1, 2, 1, 2 beside the points of each face", \
        cube_2([1.0, 2.0, 1.0, 2.0])
    yield "text-2-cube-uneven", 1, "text 2: the cube, random intervals", text_2(unevenly_2(cube, 16))
    yield "text-2-triangles", 2, "text 2: two triangles, sums 2, 0, 2, 0 each, two sides empty", triangles
    yield "text-2-triangles-uneven", 2, "text 2: two triangles, random intervals, two sides empty", \
        text_2(unevenly_2(TWO_TRIANGLES, 17))
    yield "text-2-one-side", 1, "text 2: all points on one side, intervals t/4", \
        pillow_2(3, [SMALL / 4] * 3, [0, 3, 0, 0])
    yield "text-2-sums-t-t-0-0", 1, "text 2: the sums t, t, 0, 0 pass, which meet 13 in text 1", \
        pillow_2(4, [SMALL, SMALL, 0.0, 0.0], [1, 1, 1, 1])
    yield "text-2-prism-5", 1, "text 2: the prism over a pentagon, random intervals", text_2(unevenly_2(prism(5), 18))
    yield "text-2-random", 1, "text 2: a random closed mesh, random intervals", text_2(unevenly_2(dented(3, 8), 19))
    yield "text-2-orders", 1, "text 2: the prism over a triangle, random intervals, in a random order", \
        text_2(unevenly_2(prism(3), 20)), orders(21, prism(3), 1)
    yield "error-14-text-2", 1, "text 2: two triangles back to back and a third one on an edge", \
        text_2((points, [pairwise(b, [1.0] * 3) for b in ([0, 1, 2], [0, 2, 1], [1, 0, 3])]))
    yield "error-20-text-2", 1, "text 2: one triangle", text_2((points[:3], [pairwise([0, 1, 2], [1.0] * 3)]))
    yield "beyond-13-sums-1-2-2-1", 0, "document 02: 13. The sums 1, 2, 2, 1, which pass in text 1", \
        cube_2([1.0, 2.0, 2.0, 1.0])
    yield "beyond-13-rounding", 0, "document 02: 13. The sums 0.5, 1e17, 0.25, 1e17, which pass in text 1", \
        pillow_2(4, [0.5, 1e17, 0.25, 1e17], [1, 1, 1, 1])
    yield "beyond-13-other-pair", 0, "document 02: 13. The sums 1, 0.5, 1, 0.25 of the last face", \
        cube_2([1.0] * 4, [1.0, 0.5, 1.0, 0.25])
    yield "beyond-43", 0, "document 02: 43. A first point of the last face that is not the point listed last before it", \
        edited(ones, last, last.replace("[3 [", "[1 ["))
    yield "beyond-43-empty-side", 0, "document 02: 43. The first point of an empty side", \
        edited(triangles, "[1] [1 [0", "[0] [1 [0")
    yield "beyond-43-out-of-range", 0, "document 02: 43. A first point out of the points' range", \
        edited(ones, last, last.replace("[3 [", "[4294967295 ["))
    skewed = cube_2([1.0] * 4, [1.0, 1.0, 1.0, 2.0])
    yield "beyond-43-before-13", 0, "document 02: 43. A first point that disagrees, in a face whose sums disagree too", \
        edited(skewed, last, last.replace("[3 [", "[1 ["))
    yield "beyond-12-before-43", 0, "document 02: 12. A point twice in a face, whose first points disagree too", \
        edited(ones, last, last.replace("[3 [7", "[1 [1"))
    yield "beyond-13-before-43", 0, "document 02: 13. Sums that disagree, before a first point of the next face", \
        edited(cube_2([1.0, 2.0, 2.0, 1.0], [1.0] * 4), last, last.replace("[3 [", "[1 ["))

    def second(order):
        """A step of the second edition."""
        return "published", order

    def seconds(seed, shape, steps):
        return [second(order) for order in orders(seed, shape, steps)]

    def numbered(faces):
        return list(range(faces))

    triangles = unevenly(TWO_TRIANGLES, 22)
    random = Random(23)
    subnormal = [[[(p, d or (1 + random.below(3)) * 2.0**-1074)] for (p, d), in face] for face in by_direction(0.0, 1.0, 1.0)[1]]
    yield "published-cube", 1, "second edition: document 01's cube", evenly(cube), [second(numbered(6))]
    yield "published-cube-uneven", 1, "second edition: the cube, random intervals, from last to first", unevenly(cube, 1), \
        [second(numbered(6)[::-1])]
    yield "published-subnormal", 1, "second edition: the cube, intervals of 1 to 3 times 2^-1074 along x", \
        (points, subnormal), seconds(24, cube, 1)
    yield "published-not-finite", 1, "second edition: the cube, all intervals 0: not finite", evenly(cube, 0.0), \
        [second(numbered(6))]
    yield "published-unfit-order", 1, "second edition: a visiting order that names a face twice", evenly(cube), \
        [second([0, 1, 2, 3, 4, 4])]
    yield "published-small", 1, "second edition: the cube, intervals t/16 and t/8: some denominators small", \
        by_direction(SMALL / 16, SMALL / 8, SMALL / 16), seconds(25, cube, 1)
    yield "published-valence-2", 1, "second edition: the cube with points on three of its edges, random intervals", \
        unevenly((cube_points() + middles, valence_2), 26), seconds(27, (points, valence_2), 1)
    yield "published-triangles", 2, "second edition: two triangles, random intervals, two steps in random orders", triangles, \
        seconds(28, TWO_TRIANGLES, 2)
    yield "published-then-first", 2, "two triangles, a step of the second edition, then one of the first", triangles, \
        [second([1, 0]), numbered(6)]
    yield "published-after-first", 2, "two triangles, a step of the first edition, then one of the second", triangles, \
        [[1, 0], second(orders(29, TWO_TRIANGLES, 2)[1])]
    yield "published-prism-5", 1, "second edition: the prism of prism-5-uneven in a random order", unevenly(prism(5), 4), \
        seconds(30, prism(5), 1)
    yield "published-random", 1, "second edition: the mesh of random-3 in a random order", unevenly(dented(3, 8), 3), \
        seconds(31, dented(3, 8), 1)
    yield "published-text-2", 1, "second edition: the text text-2-triangles-uneven", text_2(unevenly_2(TWO_TRIANGLES, 17)), \
        [second([1, 0])]


def main(folder):
    folder = pathlib.Path(folder)
    index = []
    for name, steps, what, mesh, *orders_listed in samples():
        (folder / (name + ".mesh")).write_text(mesh if isinstance(mesh, str) else text(mesh))
        if orders_listed:
            steps_listed = [step if isinstance(step, tuple) else ("order", step) for step in orders_listed[0]]
            lines = ["[%s %s]\n" % (word, " ".join(map(str, order))) for word, order in steps_listed]
            (folder / (name + ".orders")).write_text("".join(lines))
        index.append("%s %d %s\n" % (name, steps, what))
    (folder / "INDEX").write_text("".join(index))


if __name__ == "__main__":
    main(sys.argv[1])
