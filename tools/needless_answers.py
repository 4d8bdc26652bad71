#!/usr/bin/env python3
"""Takes out of a crate's proofs the answers that the check finds alone: tools/needless_answers.py CRATE [FUNCTION..]

The files Answers.antt are moved aside, the crate is checked with half of the search's limits (`--margin`), and of each file only the answers
that the check then asks for come back, with those that these cite. A file that others import from stays as it is. Run `rt check` and
`rt tidy` in the crate afterwards.
"""
import pathlib
import re
import subprocess
import sys

ROOT = pathlib.Path(__file__).resolve().parent.parent


def imported(crate, path):
    """Whether a file of the crate imports from this one."""
    name = f"Rattle.{crate.name}." + ".".join(path.relative_to(crate).with_suffix("").parts)
    return any(name in p.read_text() for p in crate.rglob("*.antt") if p != path and "out" not in p.parts)


def asked_for(crate, files):
    """The goals that the check leaves without these files, by file."""
    for path in files:
        path.unlink()
    try:
        said = subprocess.run(["rt", "check", "--margin", "--allow-holes"], cwd=crate, capture_output=True, text=True)
    finally:
        for path, text in files.items():
            path.write_text(text)
    line = r"^fn \S+: no proof: expected answers in \./(proofs/\S+/Answers\.antt); `search` did not prove (.*)$"
    return {crate / m.group(1): set(re.findall(r"`([^`]+)`", m.group(2))) for m in re.finditer(line, said.stdout + said.stderr, re.M)}


def kept_answers(text, goals):
    """The head of a file and its answers that are asked for or cited; and whether the file has all that is asked for."""
    head, *answers = re.split(r"(?m)^(?=pub [^\n]* : goal\.)", text)
    names = [re.match(r"pub (\S+) :", a).group(1) for a in answers]
    asked = [any(g == n or g.startswith(n + "-clause-") for g in goals) for n in names]
    cited = [any(re.search(rf"(?<![\w-]){re.escape(n)}(?![\w-])", b) for b in answers if b != a) for n, a in zip(names, answers)]
    whole = all(any(g == n or g.startswith(n + "-clause-") for n in names) for g in goals)
    return head, [a for a, x, y in zip(answers, asked, cited) if x or y], len(answers), whole


def main():
    crate = ROOT / "crates" / sys.argv[1]
    wanted = sys.argv[2:]
    files = {p: p.read_text() for p in crate.glob("proofs/**/Answers.antt")
             if (not wanted or p.parent.name in wanted) and not imported(crate, p)}
    goals = asked_for(crate, files)
    total = gone = 0
    for path, text in sorted(files.items()):
        head, kept, count, whole = kept_answers(text, goals.get(path, set()))
        total += count
        if not whole:
            print(f"{path.relative_to(ROOT)}: the check asks for other goals, so it stays")
        elif not kept:
            path.unlink()
            gone += count
        elif len(kept) < count:
            path.write_text(head + "".join(kept))
            gone += count - len(kept)
    print(f"{crate.name}: {gone} of {total} answers went")


main()
