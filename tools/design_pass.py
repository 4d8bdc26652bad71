#!/usr/bin/env python3
"""Counts, over src/ of every crate, the places that docs/DESIGN-PASS.md tells of: tools/design_pass.py [POINT..] [--list]

A line for each count; with --list each place below it. Run it in a checkout of the commit that is asked about.
"""
import collections
import pathlib
import re
import sys

ROOT = pathlib.Path(__file__).resolve().parent.parent / "crates"
WORDS = {"while", "for", "in", "if", "else", "let", "mut", "fn", "pub", "return", "match", "true", "false", "requires", "ensures"}


def sources():
    for path in sorted(ROOT.glob("*/src/**/*.rt")):
        yield str(path.relative_to(ROOT)), re.sub(r"//.*", "", path.read_text())


def functions():
    """Each function: its place, its text, the names of its parameters."""
    head = re.compile(r"^( *)(?:pub(?:\([a-z]+\))? )?(?:const )?(?:unsafe )?(?:extern \"C\" )?fn (\w+).*?^\1\}", re.M | re.S)
    for place, text in sources():
        for found in head.finditer(text):
            whole = found.group(0)
            inside = re.search(r"fn \w+(?:<[^(]*>)?\((.*?)\)\s*(?:->|requires|ensures|where|\{)", whole, re.S)
            names = re.findall(r"(?:^|,)\s*(?:mut )?(\w+):", inside.group(1)) if inside else []
            yield f"{place}:{text.count(chr(10), 0, found.start()) + 1} {found.group(2)}", whole, names


def enums():
    """Each enum of ours: its place, and for each variant whether it holds something."""
    for place, text in sources():
        for found in re.finditer(r"^(?:pub )?enum (\w+)(?:<[^{]*>)? \{(.*?)^\}", text, re.M | re.S):
            flat = re.sub(r"\([^)]*\)|\{[^}]*\}", "+", found.group(2))
            holds = ["+" in part for part in flat.split(",") if part.strip()]
            yield f"{place} {found.group(1)}", holds


def shaped_enums():
    return [p for p, holds in enums() if any(holds)]


def plain_enums():
    return [p for p, holds in enums() if not any(holds)]


def number_codes():
    """A match each of whose arms is a number: a kind told by a number."""
    return [p for p, text, _ in functions() if (arms := re.findall(r"=> ([^,{\n]+),", text)) and len(arms) > 1
            and all(re.fullmatch(r"[0-9]+|[A-Z_0-9]+", a.strip()) for a in arms)]


def flags():
    """A struct with a bool beside other fields."""
    return [f"{place} {f.group(1)}" for place, text in sources()
            for f in re.finditer(r"struct (\w+)(?:<[^{]*>)? \{(.*?)^\}", text, re.M | re.S) if ": bool" in f.group(2)]


def shape(text):
    words = re.findall(r"\w+|[^\w\s]", text)
    return tuple("n" if w[0].isdigit() else w if w in WORDS or not re.match(r"\w", w) else "w" for w in words)


def twins():
    """Functions of at least 26 words that differ in names, types and numbers alone."""
    alike = collections.defaultdict(list)
    for place, text, _ in functions():
        alike[shape(text)].append(place)
    return [" ~ ".join(places) for words, places in alike.items() if len(places) > 1 and len(words) > 25]


def named_twins():
    """Functions of one crate whose names differ in the type alone: .._words and .._numbers."""
    known = collections.defaultdict(set)
    for place, _, _ in functions():
        known[place.split("/")[0]].add(place.split()[-1])
    return [f"{crate} {name} ~ {name.replace('words', 'numbers')}" for crate, names in sorted(known.items())
            for name in sorted(names) if "words" in name and name.replace("words", "numbers") in names]


def loops(kind):
    return [f"{place}:{text.count(chr(10), 0, f.start()) + 1} {f.group(0).strip()}" for place, text in sources()
            for f in re.finditer(rf"^ *{kind} [^\n]*", text, re.M)]


def counted_loops():
    """A while on a variable to which its body adds 1."""
    found = []
    for place, text in sources():
        for f in re.finditer(r"^( *)while ([^\n]*) \{\n(.*?)^\1\}", text, re.M | re.S):
            if any(re.search(rf"\b{n} \+= 1;|\b{n} = {n} \+ 1;", f.group(3)) for n in re.findall(r"\b[a-z]\w*\b", f.group(2))):
                found.append(f"{place}:{text.count(chr(10), 0, f.start()) + 1} while {f.group(2)}")
    return found


def casts():
    return [p for p, text, _ in functions() if re.search(r"\{\s*\w+ as \w+\s*\}$", text)]


def equalities():
    """A function that only compares its parameters, two by two."""
    return [p for p, text, _ in functions() if re.search(r"\{\s*(if \w+ == \w+ \{\s*(return )?\w+ == \w+;?\s*\}.*|\w+ == \w+\s*)\}$", text, re.S)]


def hand_impls():
    return [f"{place} {f.group(1)}" for place, text in sources()
            for f in re.finditer(r"^impl(?:<[^>]*>)? ((?:\w+::)*(?:PartialEq|Eq|PartialOrd|Ord|Clone|Copy|From|TryFrom|Display)\b.*?) \{", text, re.M)]


def together():
    """Functions that share three or more names of parameters with two others at least."""
    known = [(p, set(names)) for p, _, names in functions()]
    return [p for p, names in known if sum(len(names & other) >= 3 for q, other in known if q != p) >= 2]


def five_tables():
    five = {"positions", "points", "edges", "intervals", "faces"}
    return [p for p, _, names in functions() if five <= set(names)]


def five_lists():
    five = {"coordinates", "sides", "firsts", "listed", "beside"}
    return [p for p, _, names in functions() if five <= set(names)]


def facts():
    """A clause of requires that stands in three or more functions."""
    seen = collections.Counter()
    for _, text, _ in functions():
        seen.update(set(re.findall(r"^ +requires [\w ]*(\{.*?\})$", text, re.M)))
    return [f"{n} functions: {c}" for c, n in seen.most_common() if n >= 3]


def lengths():
    """A buffer that comes with a number of places that are in use."""
    return [p for p, text, names in functions() for n in names if re.search(rf"requires [\w ]*\{{ {n} ≤ length \w+\.(now|old) \}}", text)]


def switches():
    """A match on what to run: an edition, a version, limits."""
    return [p for p, text, _ in functions() if re.search(r"match (edition|version|bounds|kind|on|which)\b", text)]


def boxed():
    return [f"{place} {f.group(0)}" for place, text in sources() for f in re.finditer(r"\bdyn \w+|: fn\(|impl Fn\w*", text)]


def answers(only=None):
    found = []
    for path in sorted(ROOT.glob("*/proofs/**/Answers.antt")):
        for f in re.finditer(r"^(?:pub )?([\w-]+)(?: \w+)? c =\s*(.*?)(?=\n\S|\Z)", path.read_text(), re.M | re.S):
            if only is None or re.fullmatch(only, " ".join(f.group(2).split())):
                found.append(f"{path.relative_to(ROOT)} {f.group(1)}")
    return found


COUNTS = [
    ("1a", "enums of our own with a variant that holds something", shaped_enums),
    ("1b", "enums of our own that only name", plain_enums),
    ("1c", "matches that answer a number for a kind", number_codes),
    ("1d", "structs with a flag beside other fields", flags),
    ("2a", "groups of functions that differ in names, types and numbers alone", twins),
    ("2b", "functions whose names differ in the type alone", named_twins),
    ("3a", "loops that count an index by hand", counted_loops),
    ("3b", "while loops", lambda: loops("while")),
    ("3c", "for loops", lambda: loops("for")),
    ("4a", "functions that only cast", casts),
    ("4b", "functions that only compare their parameters", equalities),
    ("4c", "impls by hand of what std derives or names", hand_impls),
    ("5a", "functions with three or more parameters that two others have too", together),
    ("5b", "functions with the five tables of a mesh", five_tables),
    ("5c", "functions with the five lists of a mesh", five_lists),
    ("5d", "clauses of requires that stand in three or more functions", facts),
    ("6", "buffers with the number of their places in use beside them", lengths),
    ("7a", "matches on what to run", switches),
    ("7b", "closures, dyn values and function pointers as parameters", boxed),
    ("8a", "answers", answers),
    ("8b", "answers that only say what the check tries itself", lambda: answers(r"search rules|omega arith|refl|grind \(arith, common_steps\)")),
]


def main():
    wanted = [a for a in sys.argv[1:] if not a.startswith("-")]
    for point, words, count in COUNTS:
        if wanted and not any(point.startswith(w) for w in wanted):
            continue
        places = count()
        print(f"{point:3} {len(places):5}  {words}")
        if "--list" in sys.argv:
            print("".join(f"          {p}\n" for p in places), end="")


main()
