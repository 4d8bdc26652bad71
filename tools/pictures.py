#!/usr/bin/env python3
"""Draws the pictures of docs/pictures.

    tools/pictures.py            writes edge.svg, refinement.svg and layers.svg
    tools/pictures.py --check    says whether they are up to date

edge.svg: an edge with its ends, its sides and its four neighbours. refinement.svg: one refinement of a face with the names of its
new rows. layers.svg: the crates in the layers of crates.txt.
"""
import re
import sys
from pathlib import Path

ROOT = Path(__file__).resolve().parent.parent
FOLDER = ROOT / "docs" / "pictures"
INK, OLD, NEW, PALE = "#222222", "#1f4e79", "#b5471b", "#eef3f8"
STYLE = "font-family='sans-serif' font-size='15'"


def svg(width, height, parts):
    """A picture with a white ground and one kind of arrow head."""
    head = (
        "<svg xmlns='http://www.w3.org/2000/svg' width='%d' height='%d' viewBox='0 0 %d %d' %s>"
        % (width, height, width, height, STYLE),
        "<defs><marker id='head' viewBox='0 0 10 10' refX='9' refY='5' markerUnits='userSpaceOnUse' markerWidth='14'"
        " markerHeight='14' orient='auto'><path d='M0 0L10 5L0 10z' fill='%s'/></marker></defs>" % INK,
        "<rect width='%d' height='%d' fill='white'/>" % (width, height),
    )
    return "\n".join([*head, *parts, "</svg>", ""])


def line(a, b, colour=INK, width=2, arrow=False, dashed=False):
    more = " marker-end='url(#head)'" * arrow + " stroke-dasharray='6 4'" * dashed
    return "<line x1='%g' y1='%g' x2='%g' y2='%g' stroke='%s' stroke-width='%g'%s/>" % (*a, *b, colour, width, more)


def dot(a, colour=INK):
    return "<circle cx='%g' cy='%g' r='5' fill='%s'/>" % (*a, colour)


def words(a, text, colour=INK, anchor="middle", size=15):
    return "<text x='%g' y='%g' fill='%s' text-anchor='%s' font-size='%d'>%s</text>" % (*a, colour, anchor, size, text)


def area(corners, colour):
    return "<polygon points='%s' fill='%s'/>" % (" ".join("%g,%g" % c for c in corners), colour)


def between(a, b, part):
    """The place that lies so far from a to b."""
    return (a[0] + (b[0] - a[0]) * part, a[1] + (b[1] - a[1]) * part)


def edge():
    """An edge that runs upwards: its left face is on the left."""
    origin, dest = (320, 330), (320, 110)
    ends = {"LeftAcw 1": (130, 60), "RightCw 2": (510, 60), "LeftCw 0": (130, 380), "RightAcw 3": (510, 380)}
    parts = [area([ends["LeftAcw 1"], dest, origin, ends["LeftCw 0"]], PALE)]
    parts += [area([ends["RightCw 2"], dest, origin, ends["RightAcw 3"]], "#f8f1ec")]
    for name, end in ends.items():
        near = dest if end[1] < 200 else origin
        label = between(near, end, 0.5)
        parts += [line(near, end, OLD), dot(end, OLD), words((label[0], label[1] + (-12 if near == dest else 24)), name, OLD)]
    parts += [line(origin, between(origin, dest, 0.97), INK, 4, True), dot(origin), dot(dest)]
    parts += [words((332, 225), "e", anchor="start"), words((320, 92), "destination"), words((320, 356), "origin")]
    parts += [words((195, 225), "left face"), words((465, 225), "right face")]
    parts += [words((320, 425), "Acw: the next edge of that face, going round anticlockwise; Cw: the one before.", size=14)]
    return svg(640, 445, parts)


def refinement():
    """A face of four edges before and after a step."""
    corners = [(90, 330), (330, 330), (330, 90), (90, 90)]
    parts = [area(corners, PALE), words((210, 215), "face f")]
    for k, corner in enumerate(corners):
        after = corners[(k + 1) % 4]
        parts += [line(corner, between(corner, after, 0.97), OLD, 3, True), dot(corner, OLD)]
    for k, place in enumerate([(90, 352), (330, 352), (330, 80), (90, 80)]):
        parts.append(words(place, "p%d" % k, OLD))
    for name, place in {"e0": (210, 352), "e1": (348, 215), "e2": (210, 80), "e3": (70, 215)}.items():
        parts.append(words(place, name, OLD))
    shifted = [(x + 400, y) for x, y in corners]
    middles = [between(shifted[k], shifted[(k + 1) % 4], 0.5) for k in range(4)]
    centre = (610, 210)
    parts.append(area(shifted, PALE))
    for k, corner in enumerate(shifted):
        after = shifted[(k + 1) % 4]
        parts += [line(corner, between(corner, middles[k], 0.95), OLD, 3, True)]
        parts += [line(middles[k], between(middles[k], after, 0.95), NEW, 3, True)]
        parts += [line(centre, between(centre, middles[k], 0.95), NEW, 2, True), dot(corner, OLD), dot(middles[k], NEW)]
    parts.append(dot(centre, NEW))
    for name, place in {"p0": (484, 352), "p1": (740, 352), "p2": (740, 80), "p3": (484, 80)}.items():
        parts.append(words(place, name, OLD))
    parts.append(words((550, 352), "origin half", OLD, size=12))
    for name, place in {"destination half": (668, 352), "midpoint of e2": (610, 80), "face point": (650, 203)}.items():
        parts.append(words(place, name, NEW, size=12))
    for name, place in {"(f, p0)": (550, 290), "(f, p1)": (672, 290), "(f, p2)": (672, 140), "(f, p3)": (550, 140)}.items():
        parts.append(words(place, name, size=14))
    parts.append(words((618, 270), "(f, e0)", NEW, "start", 13))
    below = (
        "Blue: old rows that stay. Red: new rows. A joining edge is named by (face, edge), a new face by (face, old point);",
        "a midpoint and a destination half by their edge, a face point by its face. An old edge may also run the other way.",
    )
    parts += [words((420, 395 + 20 * k), text, size=14) for k, text in enumerate(below)]
    return svg(840, 435, parts)


def layers():
    """The crates in the layers of the map in crates.txt, which names each of them once."""
    found, listed = [], []
    for row in (ROOT / "crates.txt").read_text().splitlines():
        if row.startswith("# -- "):
            found.append((re.sub(r" \(.*", "", row[5:]), []))
        elif re.match(r"# \w+: ", row):
            found[-1][1].append(row[2:].split(":")[0])
        elif found_here := re.match(r"(\w+)( staticlib)?:", row):
            listed.append(found_here[1])
    named = [crate for _, crates in found for crate in crates]
    if sorted(named) != sorted(listed):
        sys.exit("pictures: the map of crates.txt and its crates differ: %s" % sorted(set(named) ^ set(listed)))
    parts, y = [], 20
    for title, crates in found:
        rows = [crates[k : k + 5] for k in range(0, len(crates), 5)]
        height = 34 + 32 * len(rows)
        parts.append("<rect x='15' y='%d' width='850' height='%d' rx='6' fill='%s' stroke='%s'/>" % (y, height, PALE, OLD))
        parts.append(words((28, y + 21), title, OLD, "start"))
        for r, row in enumerate(rows):
            for c, crate in enumerate(row):
                left, top = 28 + 167 * c, y + 32 + 32 * r
                parts.append("<rect x='%d' y='%d' width='158' height='25' rx='4' fill='white' stroke='#8aa4bd'/>" % (left, top))
                parts.append(words((left + 79, top + 18), crate, size=13))
        y += height + 14
    parts.append(words((440, y + 8), "A crate uses only crates above it, or to its left in its layer.", size=14))
    return svg(880, y + 28, parts)


def main(arguments):
    pictures = {"edge": edge(), "refinement": refinement(), "layers": layers()}
    for name, picture in pictures.items():
        path = FOLDER / (name + ".svg")
        if arguments != ["--check"]:
            path.write_text(picture)
        elif not path.exists() or path.read_text() != picture:
            sys.exit("pictures: %s is not what tools/pictures.py draws" % path.relative_to(ROOT))
    if arguments == ["--check"]:
        print("pictures: %d are what tools/pictures.py draws" % len(pictures))


if __name__ == "__main__":
    main(sys.argv[1:])
