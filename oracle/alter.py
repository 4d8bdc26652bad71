#!/usr/bin/env python3
"""Puts the six Rust files into a folder, with some places altered.

    alter.py T_SPLINE FOLDER ALTERATION..

T_SPLINE is the folder that they stand in, an ALTERATION the name of a file of oracle/alterations. That file names a file (`file:`), a
piece of a line of it (`old:`) and what is put in its place (`new:`), as often as it needs. A piece that does not occur exactly once
fails: nothing is written then.
"""

import pathlib
import sys

SIX = ["mod.rs", "t_nurcc/mod.rs", "t_nurcc_edge/mod.rs", "t_nurcc_iter.rs", "t_nurcc_control_point.rs", "t_nurcc_face.rs"]
HERE = pathlib.Path(__file__).resolve().parent


def alter(texts, name):
    """One alteration of the texts, which are given by the names of their files."""
    file = old = None
    for line in (HERE / "alterations" / (name + ".edit")).read_text().splitlines():
        head, _, rest = line.partition(": ")
        if line.startswith("#"):
            continue
        elif head == "file":
            file = rest
        elif head == "old":
            old = rest
        elif head == "new" and old:
            count = texts[file].count(old)
            if count != 1:
                sys.exit("alteration %s: in %s this occurs %d times, not once: %s" % (name, file, count, old))
            texts[file] = texts[file].replace(old, rest)
            old = None
        else:
            sys.exit("alteration %s: a line that says nothing: %s" % (name, line))


def main(t_spline, folder, *names):
    texts = {file: (pathlib.Path(t_spline) / file).read_text() for file in SIX}
    for name in names:
        alter(texts, name)
    for file, text in texts.items():
        path = pathlib.Path(folder) / file
        path.parent.mkdir(parents=True, exist_ok=True)
        path.write_text(text)


if __name__ == "__main__":
    main(*sys.argv[1:])
