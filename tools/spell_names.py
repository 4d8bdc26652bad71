#!/usr/bin/env python3
"""Brings the names of definitions and lemmas to snake case, and those of types to camel case: tools/spell_names.py

A word such as `firstPoint`, alone or as a part of a name with dashes, becomes `first_point`; a type such as `First-ground` becomes
`FirstGround`. Names of Rust items, strings, inputs and outputs keep theirs: no item of src/ is spelled so. It was run once, after the
spelling of today's Rattle was brought in (docs/PORT.md); run again it changes nothing.
"""

import os
import re

WORD = re.compile(r"(?<![A-Za-z0-9_])([a-z][a-z0-9_]*[A-Z][A-Za-z0-9_]*)(?![A-Za-z0-9_])")
TYPE = re.compile(r"(?<![A-Za-z0-9_'·-])([A-Z][A-Za-z0-9_']*(?:-[A-Za-z0-9_']+)+)(?![A-Za-z0-9_'-])")
DECLARED = re.compile(r"(?m)^\s*(?:pub )?(?:abbrev |unfoldable |record |data )(?:pub )?([A-Z][A-Za-z0-9_']*(?:-[A-Za-z0-9_']+)+)")
STRING = re.compile(r'b?"(?:[^"\\]|\\.)*"')

# Where the snake case of a word is another name already, and what stands for the word of the library that was.
CHOSEN = {
    "getD": "get_or",
    "eachStep": "each_step_of",
    "edgeTo": "edge_to_point",
    "midStart": "mid_start_edge",
    "notFinite": "not_finite_made",
    "oneMore": "one_more_if",
    "tooLong": "is_too_long",
    "goes_Back": "goes_back",
    "Few-rows": "HasFewRows",
    "Missed-edge": "HasMissedEdge",
    "Missing-face": "HasMissingFace",
    "No-edge": "HasNoEdge",
    "No-room": "HasNoRoom",
    "Over-counts": "IsOverCounts",
    "Unfit-number": "HasUnfitNumber",
    "Mended-text": "TextMended",
    "Runs-share": "OrderedRunsShare",
}


def snake(word):
    word = re.sub(r"([a-z0-9])([A-Z])", r"\1_\2", word)
    return re.sub(r"([A-Z])([A-Z][a-z])", r"\1_\2", word).lower()


def files(*endings):
    for folder, below, names in os.walk("crates"):
        below[:] = sorted(d for d in below if d != "out")
        for name in sorted(names):
            if name.endswith(endings):
                yield os.path.join(folder, name)


def read(path):
    with open(path, encoding="utf-8") as f:
        return f.read()


def main():
    words, types = {}, {}
    for path in files(".antt"):
        text = read(path)
        for m in WORD.finditer(text):
            words[m.group(1)] = CHOSEN.get(m.group(1), snake(m.group(1)))
        for m in DECLARED.finditer(text):
            head, *rest = m.group(1).split("-")
            types[m.group(1)] = CHOSEN.get(m.group(1), head + "".join(p[:1].upper() + p[1:] for p in rest))

    def spelled(text):
        text = TYPE.sub(lambda m: types.get(m.group(1), m.group(1)), text)
        return WORD.sub(lambda m: words.get(m.group(1), m.group(1)), text)

    def outside_strings(text):
        out, at = [], 0
        for m in STRING.finditer(text):
            out += [spelled(text[at : m.start()]), m.group(0)]
            at = m.end()
        return "".join(out) + spelled(text[at:])

    pages = [os.path.join(d, f) for d, _, fs in os.walk("docs") for f in fs if f.endswith(".md")] + ["README.md", "NOTICE"]
    changed = 0
    for path in [*files(".antt", ".rt", ".edit"), "crates.txt", *pages]:
        old = read(path)
        new = outside_strings(old) if path.endswith(".rt") else spelled(old)
        if new != old:
            changed += 1
            with open(path, "w", encoding="utf-8") as f:
                f.write(new)
    print(f"{len(words)} words, {len(types)} types; {changed} files")
    for old, new in sorted({**words, **types}.items()):
        print(f"{old} {new}")


main()
