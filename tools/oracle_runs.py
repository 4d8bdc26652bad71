#!/usr/bin/env python3
"""Makes the input and the expected output of the program oracle_runs.

    tools/oracle_runs.py          writes crates/oracle_runs/stdin and crates/oracle_runs/stdout
    tools/oracle_runs.py --check  says whether they are what it would write, and fails if not
    tools/oracle_runs.py --count  says how many samples and listings they hold, and how many bad inputs of each ground

What is expected of a sample is what the oracle recorded of the Rust (oracle/samples/NAME.out); where document 01 or 02 refuses what
the Rust accepts, it is the ground there: the one that oracle/samples/INDEX names, or 33 where a recorded number is not finite.
What is expected of a bad input is the ground of document 01. Nothing is taken from the program. The form of the input stands in
crates/oracle_runs/src/telling.rt and heads.rt.

A listing of more than FULL bytes is not written but told apart by its remainder: its bytes, each one more, are the digits of a number
in base 257, and the remainder of that by the prime 2^55 - 55 is written.

Document 01's joining intervals of the cube stand in the listing of its stage 1: `joining` looks them up.
"""
import collections
import os
import re
import sys

ROOT = os.path.join(os.path.dirname(os.path.abspath(__file__)), "..")
SAMPLES = os.path.join(ROOT, "oracle", "samples")
CRATE = os.path.join(ROOT, "crates", "oracle_runs")
# words or numbers of the program's tables of positions, points, edges, intervals, faces
TABLES = (1200, 1200, 6400, 800, 2000)
TEXT, LISTS, CUTS, CHANGES, ZEROS, ORDERS, SPOILT = range(7)
GENERAL, REFINE = range(2)
FULL = 18000
IN_FULL = {"cube"}
NOT_FINITE = {"cube-zero", "cube-overflow", "cube-underflow", "cube-far", "published-not-finite"}
NOUGHT, HALF, ONE, TWO = "0000000000000000", "3fe0000000000000", "3ff0000000000000", "4000000000000000"


# What the program must write


def zero(head, words):
    return "[%s %s kept]\n" % (head, " ".join(map(str, words)))


def words(points, edges, faces):
    """How many words or numbers so many rows have, table by table."""
    return (3 * points, 3 * points, 8 * edges, edges, 5 * faces)


def rows(listing):
    """How many points, edges and faces a listing has."""
    return tuple(listing.count("[%s " % kind) for kind in ("point", "edge", "face"))


def remainder(listing):
    r = 0
    for byte in listing.encode():
        r = (r * 257 + byte + 1) % (2**55 - 55)
    return "[listing %d %d %d %d]\n" % (rows(listing) + (r,))


class Run:
    """What is expected of a mesh that is built and refined."""

    def __init__(self, listing, listed, most=FULL):
        self.listing, self.most = listing, most
        # the edge rows that check 4 counts beyond the last edge are zero
        self.left = listed - rows(listing)[1]
        self.full = [len(listing) <= most]
        self.text = "[stage 0]\n" + self.shown() + self.rest()

    def shown(self):
        return self.listing if self.full[-1] else remainder(self.listing)

    def rest(self):
        return zero("zero", words(0, self.left, 0))

    def scratch(self, zeroed):
        points, edges, _ = counts = rows(self.listing)
        return zero("scratch", words(sum(counts), 4 * edges, 2 * edges) if zeroed else words(0, 0, 0))

    def accepted(self, listing):
        scratch = self.scratch(True)
        points, edges, _ = counts = rows(self.listing)
        assert rows(listing) == (sum(counts), 4 * edges, 2 * edges)
        self.listing, self.left = listing, 0
        self.full.append(self.full[-1] and len(listing) <= self.most)
        self.text += "[stage %d]\n" % (len(self.full) - 1) + self.shown() + self.rest() + scratch

    def refused(self, ground):
        """A step that is refused leaves the mesh as it was; on ground 33 the scratch rows that 32 counts are zero."""
        self.full.append(self.full[-1])
        self.text += "[stage %d]\n[refused %d]\n" % (len(self.full) - 1, ground)
        self.text += remainder(self.listing) + self.rest() + self.scratch(ground == 33)

    def told(self):
        return sum(self.full)


def refused(ground, counted=(0, 0, 0)):
    """What is expected where building is refused: from ground 10 on the rows that check 4 counts are zero (points, listed points for
    edges, faces)."""
    return "[stage 0]\n[refused %d]\n" % ground + zero("zero", words(*counted) if ground >= 10 else words(0, 0, 0))


# The records


def numbers(values):
    assert all(0 <= v < 10**10 for v in values), values
    return b"".join(b" %010d" % v for v in values)


class Records:
    """The records, each with what is expected of it."""

    def __init__(self):
        self.input = []
        self.output = []
        self.grounds = {}

    def add(self, label, kind, text, expected, further=(), limits=GENERAL, steps=0, told=1, tables=TABLES, scratch=TABLES):
        assert len(label) <= 32 and label not in self.grounds, label
        head = (kind, len(text), len(further), limits, steps, told) + tuple(tables) + tuple(scratch)
        self.input.append(label.ljust(32).encode() + numbers(head) + b"\n" + text + numbers(further))
        self.output.append(label.ljust(32) + "\n" + expected)
        self.grounds[label] = re.findall(r"\[refused ([0-9]+)\]", expected)

    def refuse(self, label, ground, text, **more):
        self.add(label, TEXT, text, refused(ground, counted(text)), **more)

    def run(self, label, run, text, kind=TEXT, **more):
        self.add(label, kind, text, run.text, steps=len(run.full) - 1, told=run.told(), **more)


def counted(text):
    """How many points, listed points and faces a text has."""
    return text.count(b"[point"), len(re.findall(rb"\[[0-9]+ [0-9a-f]{16}\]", text)), text.count(b"[face")


def read(name, ending):
    with open(os.path.join(SAMPLES, name + ending), "rb") as file:
        return file.read()


def stages(name):
    """The recorded answers: for each stage the listing, or the line that stands in its place."""
    parts = re.split(r"\[stage [0-9]+\]\n", read(name, ".out").decode())
    assert parts[0] == ""
    return parts[1:]


def samples():
    """Name, number of steps and description of each sample."""
    for line in read("INDEX", "").decode().splitlines():
        name, steps, what = line.split(" ", 2)
        yield name, int(steps), what


def orders(name):
    """The steps of a sample that lists them: for each its edition, 0 the first and 1 the second, and its visiting order."""
    if os.path.exists(os.path.join(SAMPLES, name + ".orders")):
        lines = [line.split() for line in read(name, ".orders").decode().replace("]", "").splitlines()]
        return [(("[order", "[published").index(words[0]), [int(f) for f in words[1:]]) for words in lines]


def in_further(listed):
    return [number for edition, order in listed for number in [edition, len(order)] + order]


def first(orders):
    """Steps of the first edition in these orders."""
    return [(0, order) for order in orders]


def is_finite(listing):
    return not any(int(word, 16) >> 52 & 0x7FF == 0x7FF for word in re.findall(r"\b[0-9a-f]{16}\b", listing))


def error(answer):
    found = re.match(r"\[error ([0-9]+)\]\n", answer)
    return int(found[1]) if found else None


def add_samples(records):
    for name, steps, what in samples():
        text, answers, listed = read(name, ".mesh"), stages(name), orders(name)
        ground = re.match(r"document 0[12]: ([0-9]+)\.", what)
        if ground:
            records.refuse(name, int(ground[1]), text)
            continue
        if error(answers[0]):
            assert error(answers[0]) in (13, 14, 20)
            records.refuse(name, error(answers[0]), text)
            continue
        run = Run(answers[0], counted(text)[1], 100000 if name in IN_FULL else FULL)
        for answer in answers[1:]:
            if error(answer):
                assert error(answer) == 31 and name in ("cube-unfit-order", "published-unfit-order")
                run.refused(31)
            elif is_finite(answer):
                run.accepted(answer)
            else:
                assert name in NOT_FINITE
                run.refused(33)
        assert len(run.full) == steps + 1
        if listed:
            assert len(listed) == steps
            records.run(name, run, text, ORDERS, further=in_further(listed))
        else:
            records.run(name, run, text)


# Bad inputs


def edited(text, old, new):
    """The text with the first place of some bytes changed."""
    assert old in text and old != new
    return text.replace(old, new, 1)


def add_unformed(records):
    """Texts that are not of the form: ground 1."""
    good = read("tetrahedron", ".mesh")
    one = ONE.encode()
    listed = b"[2 " + one + b"]"
    face = good.split(b"\n")[5] + b"\n"
    texts = {
        "empty text": b"",
        "one byte": b"[",
        "a head alone": b"[mesh 1]\n",
        "no last byte 10": good[:-1],
        "one byte 10 more": good + b"\n",
        "one byte x more": good + b"x",
        "one byte 0 more": good + b"\0",
        "two texts": good + good,
        "two end lines": good + b"[end]\n",
        "a byte 10 before": b"\n" + good,
        "version 0": edited(good, b"[mesh 1]", b"[mesh 0]"),
        "version 3": edited(good, b"[mesh 1]", b"[mesh 3]"),
        "version 01": edited(good, b"[mesh 1]", b"[mesh 01]"),
        "version 02": edited(good, b"[mesh 1]", b"[mesh 02]"),
        "version 10": edited(good, b"[mesh 1]", b"[mesh 10]"),
        "carriage returns": good.replace(b"\n", b"\r\n"),
        "carriage returns for bytes 10": good.replace(b"\n", b"\r"),
        "a carriage return at the end": good[:-1] + b"\r\n",
        "upper-case digits": edited(good, b" bff0", b" BFF0"),
        "an upper-case interval": edited(good, one + b"]]", one.upper() + b"]]"),
        "15 digits": edited(good, b" bff0", b" bff"),
        "17 digits": edited(good, b" bff0", b" bff00"),
        "a digit g": edited(good, b" bff0", b" bgf0"),
        "0x before the digits": edited(good, b" bff0", b" 0xf0"),
        "two coordinates": edited(good, b"[point " + one, b"[point"),
        "four coordinates": edited(good, b"[point " + one, b"[point " + one + b" " + one),
        "two spaces": edited(good, b"[point ", b"[point  "),
        "a tab": edited(good, b"[point ", b"[point\t"),
        "a space before a line's end": edited(good, b"]\n[point", b"]\n [point"),
        "a space at a line's end": edited(good, b"]\n[point", b"] \n[point"),
        "an empty line": edited(good, b"[face", b"\n[face"),
        "no space between sides": edited(good, b"]] [", b"]]["),
        "a leading zero": edited(good, b"[face [0 ", b"[face [00 "),
        "a leading zero of 2": edited(good, listed, b"[02 " + one + b"]"),
        "a listed point 4294967296": edited(good, listed, b"[4294967296 " + one + b"]"),
        "a first point 4294967296": edited(good, b"[face [0 ", b"[face [4294967296 "),
        "a listed point 2^64 + 2": edited(good, listed, b"[18446744073709551618 " + one + b"]"),
        "a point of 40 digits": edited(good, listed, b"[" + b"1" * 40 + b" " + one + b"]"),
        "a point -1": edited(good, listed, b"[-1 " + one + b"]"),
        "a point +2": edited(good, listed, b"[+2 " + one + b"]"),
        "a point 2.0": edited(good, listed, b"[2.0 " + one + b"]"),
        "a point a": edited(good, listed, b"[a " + one + b"]"),
        "no point number": edited(good, listed, b"[ " + one + b"]"),
        "no interval": edited(good, listed, b"[2]"),
        "two intervals": edited(good, listed, b"[2 " + one + b" " + one + b"]"),
        "no first point": edited(good, b"[face [0 ", b"[face [ "),
        "a side []": edited(good, b"[face", b"[face [] [] [] []]\n[face"),
        "three sides": edited(good, b"[face", b"[face [0] [0] [0]]\n[face"),
        "five sides": edited(good, b"[face", b"[face [0] [0] [0] [0] [0]]\n[face"),
        "no side": edited(good, b"[face", b"[face]\n[face"),
        "a point after a face": edited(good, b"[end]", good.split(b"\n")[1] + b"\n[end]"),
        "a face before the points": edited(good, b"[point", face + b"[point"),
        "no bracket": edited(good, b"[point", b"point"),
        "[POINT": edited(good, b"[point", b"[POINT"),
        "no end": edited(good, b"[end]\n", b""),
        "[end ]": edited(good, b"[end]", b"[end ]"),
    }
    for label, text in texts.items():
        records.refuse(label, 1, text)
    size = len(good)
    tried = "[tried %d refused %d]\n" % (size, size)
    records.add("each text cut short", CUTS, good, tried)
    for byte in (0, 13, 45, 65, 120, 255):
        records.add("byte %d at each place" % byte, CHANGES, good, tried, further=[byte])


def parsed(text):
    """The points and faces of a text: a face is four sides, each a list of (point, interval)."""
    points = [line.split()[1:] for line in text.decode().replace("]", "").splitlines() if line.startswith("[point")]
    faces = []
    for line in text.decode().splitlines():
        if line.startswith("[face"):
            sides = re.findall(r"\[[0-9]+((?: \[[0-9]+ [0-9a-f]{16}\])*)\]", line[5:])
            assert len(sides) == 4
            faces.append([[(int(p), d) for p, d in re.findall(r"\[([0-9]+) ([0-9a-f]{16})\]", side)] for side in sides])
    return points, faces


def written(points, faces, first="0"):
    """The text of points and faces, with this first point in each side."""
    lines = ["[mesh 1]"] + ["[point %s]" % " ".join(p) for p in points]
    for face in faces:
        sides = ["[%s]" % " ".join([first] + ["[%d %s]" % listed for listed in side]) for side in face]
        lines.append("[face %s]" % " ".join(sides))
    return ("\n".join(lines + ["[end]"]) + "\n").encode()


def border(*points):
    """A face with all its points on two sides, intervals 0: the side sums agree."""
    half = len(points) // 2
    return [[(p, NOUGHT) for p in points[:half]], [], [(p, NOUGHT) for p in points[half:]], []]


SKEW = [[(0, ONE)], [(1, ONE)], [(2, ONE)], [(3, TWO)]]
SPOT = [NOUGHT, NOUGHT, NOUGHT]
TETRAHEDRON = [border(0, 1, 2), border(0, 3, 1), border(1, 3, 2), border(2, 3, 0)]


def add_numbers(records):
    """Numbers that are not finite, and intervals with a sign bit: ground 3. Other numbers are stored bit for bit."""
    good = read("tetrahedron", ".mesh")
    start = stages("tetrahedron")[0]
    point = "[point " + ONE
    last = good.rindex(b"[point")

    def coordinate(label, bits):
        records.refuse(label, 3, edited(good, b"[point " + ONE.encode(), b"[point " + bits.encode()))

    def interval(label, bits):
        records.refuse(label, 3, edited(good, b"[1 " + ONE.encode(), b"[1 " + bits.encode()))

    coordinate("x not a number", "7ff8000000000000")
    coordinate("x not a number, negative", "fff8000000000000")
    coordinate("x the least NaN pattern", "7ff0000000000001")
    coordinate("x the last NaN pattern", "ffffffffffffffff")
    coordinate("x infinite", "7ff0000000000000")
    coordinate("x minus infinity", "fff0000000000000")
    records.refuse("the last y infinite", 3, good[:last] + good[last:].replace(b" bff0000000000000 bff0", b" bff0000000000000 7ff0", 1))
    records.refuse("the last z not a number", 3, good[:last] + good[last:].replace(b" 3ff0000000000000]\n", b" 7ff8000000000000]\n", 1))
    interval("interval not a number", "7ff8000000000000")
    interval("interval infinite", "7ff0000000000000")
    interval("interval minus infinity", "fff0000000000000")
    interval("interval -1", "bff0000000000000")
    interval("interval -0", "8000000000000000")
    interval("interval the least below 0", "8000000000000001")
    place = good.rindex(TWO.encode())
    records.refuse("an interval -0 of an old edge", 3, good[:place] + b"8000000000000000" + good[place + 16 :])
    for label, bits in (
        ("the largest coordinate", "7fefffffffffffff"),
        ("the least coordinate", "ffefffffffffffff"),
        ("a subnormal coordinate", "0000000000000001"),
        ("a coordinate -0", "8000000000000000"),
    ):
        text = edited(good, b"[point " + ONE.encode(), b"[point " + bits.encode())
        records.run(label, Run(start.replace(point, "[point " + bits, 1), counted(text)[1]), text)


def add_limits(records):
    """Ground 2."""
    name = "torus-8-8-uneven"
    text, start = read(name, ".mesh"), stages(name)[0]
    records.run("refine: 64, 64, 256", Run(start, 256), text, limits=REFINE)
    points, faces, listed = [SPOT] * 65, [[[], [], [], []]] * 65, [[[(0, NOUGHT)] * 257, [], [], []]]
    records.refuse("refine: 64 points", 21, written(points[:64], []), limits=REFINE)
    records.refuse("refine: 65 points", 2, written(points, []), limits=REFINE)
    records.refuse("65 points", 21, written(points, []))
    records.refuse("refine: 65 points, not finite", 2, written([["7ff8000000000000"] * 3] * 65, []), limits=REFINE)
    records.refuse("refine: 65 points, no end", 1, written(points, [])[:-6], limits=REFINE)
    records.refuse("refine: 64 faces", 10, written([], faces[:64]), limits=REFINE)
    records.refuse("refine: 65 faces", 2, written([], faces), limits=REFINE)
    records.refuse("65 faces", 10, written([], faces))
    records.refuse("refine: 257 listed points", 2, written([SPOT], listed), limits=REFINE)
    records.refuse("257 listed points", 10, written([SPOT], listed))
    records.refuse("refine: 16,384 bytes", 1, b"x" * 16384, limits=REFINE)
    records.refuse("refine: 16,385 bytes", 2, b"x" * 16385, limits=REFINE)

    def zeros(label, ground, *counts):
        points, faces, listed = counts
        records.add(label, ZEROS, b"", refused(ground, (points, listed, faces)), further=counts)

    zeros("4,096 points", 21, 4096, 0, 0)
    zeros("4,097 points", 2, 4097, 0, 0)
    zeros("4,096 faces", 10, 0, 4096, 0)
    zeros("4,097 faces", 2, 0, 4097, 0)
    zeros("16,384 listed points", 10, 1, 1, 16384)
    zeros("16,385 listed points", 2, 1, 1, 16385)
    zeros("4,096, 4,096, 16,384", 10, 4096, 4096, 16384)
    zeros("points that are not listed", 2, 1, 0, 5)


def add_lists(records):
    """Lists that no text stands for: their lengths disagree."""
    text, start = read("tetrahedron", ".mesh"), stages("tetrahedron")[0]

    def lists(label, ground, lengths, place=9999, word=0):
        coordinates, sides, listed, _ = lengths
        counts = (coordinates // 3, listed, sides // 4)
        records.add(label, LISTS, text, refused(ground, counts), further=list(lengths) + [place, word])

    run = Run(start, 12)
    records.run("lists: 12, 16, 12, 12", run, text, LISTS, further=[12, 16, 12, 12, 9999, 0])
    lists("lists: 11 coordinates", 2, (11, 16, 12, 12))
    lists("lists: 13 coordinates", 2, (13, 16, 12, 12))
    lists("lists: 14 coordinates", 2, (14, 16, 12, 12))
    lists("lists: 15 coordinates", 21, (15, 16, 12, 12))
    lists("lists: no coordinates", 11, (0, 16, 12, 12))
    lists("lists: 15 side lengths", 2, (12, 15, 12, 12))
    lists("lists: 17 side lengths", 2, (12, 17, 12, 12))
    lists("lists: 18 side lengths", 2, (12, 18, 12, 12))
    lists("lists: 20 side lengths", 10, (12, 20, 12, 12))
    lists("lists: no side lengths", 2, (12, 0, 12, 12))
    lists("lists: 11 listed points", 2, (12, 16, 11, 12))
    lists("lists: 13 listed points", 2, (12, 16, 13, 12))
    lists("lists: 11 intervals", 2, (12, 16, 12, 11))
    lists("lists: 13 intervals", 2, (12, 16, 12, 13))
    lists("lists: 11 of both", 2, (12, 16, 11, 11))
    lists("lists: 13 of both", 2, (12, 16, 13, 13))
    lists("lists: a side one longer", 2, (12, 16, 12, 12), 0, 2)
    lists("lists: a side one shorter", 2, (12, 16, 12, 12), 0, 0)
    lists("lists: a side of 2^32 - 1", 2, (12, 16, 12, 12), 0, 4294967295)
    lists("lists: sides of 10 by 2^32", 2, (12, 16, 10, 10), 0, 4294967295)
    lists("lists: points alone", 21, (12, 0, 0, 0))
    lists("lists: none, no side lengths", 2, (0, 3, 0, 0))
    records.run("lists: none", Run("[mesh 3]\n[end]\n", 0), text, LISTS, further=[0, 0, 0, 0, 9999, 0])


def shorter(tables, place, by=1):
    return tuple(t - by if i == place else t for i, t in enumerate(tables))


def add_rows(records):
    """Ground 4: few rows; and just enough."""
    text, start = read("tetrahedron", ".mesh"), stages("tetrahedron")[0]
    enough = words(4, 12, 4)
    names = ("positions", "points", "edges", "intervals", "faces")
    for place, name in enumerate(names):
        records.refuse("few %s" % name, 4, text, tables=shorter(enough, place))
        records.refuse("no %s" % name, 4, text, tables=shorter(enough, place, enough[place]))
    records.run("rows just enough", Run(start, 12), text, tables=enough)
    records.run("words of no whole row", Run(start, 12), text, tables=(14, 13, 103, 12, 24))
    records.run("empty, no rows", Run("[mesh 3]\n[end]\n", 0), read("empty", ".mesh"), tables=(0, 0, 0, 0, 0))
    bad = written([SPOT] * 4, TETRAHEDRON[:3] + [border(0, 1)])
    records.refuse("few rows, two points in a face", 4, bad, tables=shorter(words(4, 11, 4), 4))
    records.refuse("just enough rows, zeroed", 10, bad, tables=words(4, 11, 4))
    unfit = written([["7ff0000000000000", NOUGHT, NOUGHT]] * 4, TETRAHEDRON)
    records.refuse("few rows, not finite", 3, unfit, tables=shorter(enough, 0))


def add_faces(records):
    """Grounds 10 to 22, and which comes first."""
    spots = [SPOT] * 4

    def lists(label, ground, faces, points=spots):
        records.refuse(label, ground, written(points, faces))

    first = written(*parsed(read("tetrahedron", ".mesh")), first="4294967295")
    records.run("first points 4294967295", Run(stages("tetrahedron")[0], 12), first)
    lists("no point, no listed point", 10, [[[], [], [], []]], [])
    lists("no point, three listed", 11, [border(0, 1, 2)], [])
    lists("a point number too large", 11, TETRAHEDRON[:3] + [border(2, 4, 0)])
    lists("a point number 4294967295", 11, TETRAHEDRON[:3] + [border(2, 4294967295, 0)])
    lists("a point twice in turn", 12, TETRAHEDRON[:3] + [border(2, 2, 0)])
    lists("a point twice, apart", 12, TETRAHEDRON[:3] + [border(2, 3, 2, 0)])
    lists("a point last and first", 12, TETRAHEDRON[:3] + [border(2, 3, 0, 2)])
    lists("10 before 11", 10, [border(0, 9)])
    lists("10 of 65 before 12", 10, [border(*[0] * 65)])
    lists("11 before 12", 11, [border(0, 0, 9)])
    lists("12 before 13", 12, [[[(0, ONE)], [(1, NOUGHT)], [(0, NOUGHT)], []]])
    lists("13 before the next face's 10", 13, [SKEW, border(0, 1)])
    lists("10 before the next face's 13", 10, [border(0, 1), SKEW])
    lists("14 before the next face's 10", 14, TETRAHEDRON[:2] + [border(0, 1, 2), border(0, 1)])
    lists("15 before the next face's 11", 15, [border(0, 1, 2), border(0, 1, 3), border(0, 1, 9)])
    lists("13 before the same face's 15", 13, [border(0, 1, 2, 3), SKEW])
    lists("14 at the first edge, then 15", 14, TETRAHEDRON[:2] + [border(1, 0, 3)])
    lists("15 at the first edge, then 14", 15, [border(0, 1, 2), border(1, 0, 3), border(2, 0, 1)])
    lists("15 at the closing edge", 15, [border(0, 1, 2), border(1, 3, 2, 0)])
    lists("20 before 21", 20, TETRAHEDRON[:3], [SPOT] * 5)
    lists("21 before 22", 21, TETRAHEDRON + shifted(3, (0,)), [SPOT] * 8)
    lists("20 before 22", 20, TETRAHEDRON + shifted(3, (0,))[:3], [SPOT] * 7)
    lists("two tetrahedra at a point", 22, TETRAHEDRON + shifted(3, (0,)), [SPOT] * 7)
    lists("two tetrahedra at two points", 14, TETRAHEDRON + shifted(2, (0, 1)), [SPOT] * 6)


def shifted(by, kept):
    """The tetrahedron's faces with all points but the kept ones further on."""
    return [[[(p if p in kept else p + by, d) for p, d in side] for side in face] for face in TETRAHEDRON]


def cube_run(name="cube"):
    """The cube, of which only the remainders are written."""
    return Run(stages(name)[0], 24, 0)


def add_steps(records):
    """Steps that are refused: 30 to 33, what they leave, and that the next step goes on from there."""
    text, answers = read("cube", ".mesh"), stages("cube")
    numbered = list(range(6))
    unfit = {
        "no face": [],
        "five faces": numbered[:5],
        "seven faces": numbered + [0],
        "a face twice": [0, 1, 2, 3, 4, 0],
        "face 6": [0, 1, 2, 3, 4, 6],
        "face 4294967295": [4294967295, 1, 2, 3, 4, 5],
    }
    for label, order in unfit.items():
        run = cube_run()
        run.refused(31)
        records.run("order: " + label, run, text, ORDERS, further=in_further(first([order])))
    run = cube_run()
    tried = list(unfit.values()) + [numbered, numbered]
    for order in tried[:-2]:
        run.refused(31)
    run.accepted(answers[1])
    run.refused(31)
    records.run("unfit orders, then a fit one", run, text, ORDERS, further=in_further(first(tried)))
    enough = words(26, 48, 24)
    for place, name in enumerate(("positions", "points", "edges", "intervals", "faces")):
        run = cube_run()
        run.refused(32)
        records.run("step: few %s" % name, run, text, tables=shorter(enough, place))
        records.run("scratch: few %s" % name, run, text, scratch=shorter(enough, place))
        records.run("scratch: no %s" % name, run, text, scratch=shorter(enough, place, enough[place]))
    run = cube_run()
    run.accepted(answers[1])
    run.refused(32)
    records.run("step: rows just enough", run, text, tables=enough)
    records.run("scratch: rows just enough", run, text, scratch=enough)
    run = cube_run()
    run.refused(31)
    run.refused(32)
    records.run("31 before 32", run, text, ORDERS, further=in_further(first([[0], numbered])), scratch=shorter(enough, 0))
    run = cube_run("cube-zero")
    run.refused(32)
    records.run("32 before 33", run, read("cube-zero", ".mesh"), scratch=shorter(enough, 4))
    run = cube_run("cube-zero")
    run.refused(33)
    run.refused(33)
    records.run("33 twice", run, read("cube-zero", ".mesh"))
    for label, table, place, word in (
        ("valence 2", 1, 0, 2),
        ("valence 4", 1, 0, 4),
        ("start edge 12", 1, 4, 12),
        ("mark 2", 1, 2, 2),
        ("origin 8", 2, 0, 8),
        ("ends agree", 2, 1, 2),
        ("left face none", 2, 2, 4294967295),
        ("right face 6", 2, 3, 6),
        ("another LeftCw", 2, 4, 5),
        ("another LeftAcw", 2, 5, 5),
        ("another RightCw", 2, 6, 5),
        ("another RightAcw", 2, 7, 5),
        ("face start 12", 3, 0, 12),
        ("another face start", 3, 0, 11),
        ("corner 8", 3, 1, 8),
    ):
        run = cube_run()
        run.listing = spoilt(run.listing, table, place, word)
        run.refused(30)
        records.run("spoilt: " + label, run, text, SPOILT, further=[table, place, word])


def spoilt(listing, table, place, word):
    """The listing with a word changed: of the points 1, of the edges 2, of the faces 3."""
    kind, width, before = ((), ("point", 3, 4), ("edge", 8, 1), ("face", 5, 1))[table]
    lines = listing.split("\n")
    at = [i for i, line in enumerate(lines) if line.startswith("[" + kind)][place // width]
    fields = lines[at].rstrip("]").split(" ")
    assert fields[before + place % width] != str(word)
    fields[before + place % width] = str(word)
    lines[at] = " ".join(fields) + "]"
    return "\n".join(lines)


def joining(listing, face):
    """The intervals of the edges that leave the face point of a face, which is corner 0 of the face's row."""
    faces = [line.rstrip("]").split() for line in listing.splitlines() if line.startswith("[face ")]
    edges = [line.rstrip("]").split() for line in listing.splitlines() if line.startswith("[edge ")]
    return [e[9] for e in edges if e[1] == faces[face][2]]


def check_figures():
    """Document 01's figures that are no starred pieces, and document 02's of the second edition, stand in the recorded listings."""
    stage = stages("cube")[1]
    assert joining(stage, 0) == [TWO] * 4
    assert joining(stage, 2) in ([TWO, ONE] * 2, [ONE, TWO] * 2)
    assert joining(stage, 5) == [ONE] * 4
    assert stage.split("\n")[1].startswith("[point bfdc71c71c71c71c bfdc71c71c71c71c bfdc71c71c71c71c ")
    assert rows(stages("cube")[0]) == (8, 12, 6) and rows(stage) == (26, 48, 24)
    stage = stages("published-cube")[1]
    assert all(joining(stage, face) == [HALF] * 4 for face in range(6))
    assert stage.split("\n")[1].startswith("[point bfe1c71c71c71c72 bfe1c71c71c71c72 bfe1c71c71c71c72 ")


def main():
    check_figures()
    records = Records()
    add_samples(records)
    sampled = len(records.input)
    for add in (add_unformed, add_numbers, add_limits, add_lists, add_rows, add_faces, add_steps):
        add(records)
    data = {"stdin": b"".join(records.input), "stdout": "".join(records.output).encode()}
    if "--count" in sys.argv[1:]:
        count(records, sampled, data)
        return
    for name, content in data.items():
        path = os.path.join(CRATE, name)
        if "--check" not in sys.argv[1:]:
            open(path, "wb").write(content)
        elif open(path, "rb").read() != content:
            sys.exit("%s is not what tools/oracle_runs.py makes of the recorded answers" % path)
    print("oracle_runs: %d records" % len(records.input))


def count(records, sampled, data):
    out = "".join(records.output[:sampled])
    print("%d samples, %d of them refused in building" % (sampled, out.count("[stage 0]\n[refused")))
    for stage in range(4):
        parts = re.findall(r"\[stage %d\]\n\[(mesh|listing|refused)" % stage, out)
        print("stage %d: %d in full, %d by remainder, %d refused" % ((stage,) + tuple(map(parts.count, ("mesh", "listing", "refused")))))
    lines = re.findall(r"^\[(point|edge|face) ", out, re.M)
    hidden = [tuple(map(int, m)) for m in re.findall(r"\[stage [0-9]\]\n\[listing ([0-9]+) ([0-9]+) ([0-9]+)", out)]
    print("records in full: %d points, %d edges, %d faces" % tuple(map(lines.count, ("point", "edge", "face"))))
    print("records by remainder: %d points, %d edges, %d faces" % tuple(map(sum, zip(*hidden))))
    grounds = collections.Counter(int(g) for label, found in list(records.grounds.items())[sampled:] for g in set(found))
    print("%d further records; refused with " % (len(records.input) - sampled) + ", ".join("%d: %d" % g for g in sorted(grounds.items())))
    print("bytes: " + ", ".join("%s %d" % (name, len(content)) for name, content in data.items()))


main()
