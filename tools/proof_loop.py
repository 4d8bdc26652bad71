#!/usr/bin/env python3
"""The edit loop of a proof: runs `rt check` on one crate and says what matters. docs/PROOFS.md says how to work with it.

  tools/proof_loop.py NAME OPTIONS

  (none)               check; each function that is not proved, the errors, the goals that are left
  --fn F               only the function F and what it calls (`rt check --only F`); it also limits --try and --answers-of
  --write              with --fn F: first have `rt check --start F` write the files of F's proof, or what they lack
  --holes              pass --allow-holes, so that the goal of each hole is printed, and what cites a hole is checked too
  --try                at each hole of an Answers.antt try the default answers, one check for each, and keep what closes
  --try --answers 'A;B'
                       the same with answers of your own, in this order
  --need N             only what is said of the goal N, in full
  --answers-of F       one line for each answer of F's files; runs no check
  --cut N              cut texts at N characters (default 700; 0: never)
  --last               read the output of the last run again and run nothing

Run it anywhere below a repository (the folder with crates.txt). The whole output of the last check is kept in
target/proof_loop/NAME.txt. Exit status: that of `rt check`. It is the edit loop; the verdict is `rt ci NAME` or `rt ci`.
"""

import argparse
import os
import re
import shutil
import subprocess
import sys
import time
from pathlib import Path

ANSWERS = ["search rules", "omega arith", "grind arith", "grind (arith, rows)", "grind (arith, common_steps)", "refl"]
# the words of an answer that an import of their module brings
COMMON = {"rules", "arith", "rows", "common_steps", "refl", "sym"}
NAME = r"[^\s.(){}:=,;`]+"
HOLE = re.compile(rf"^({NAME})( [^=\n]*)? = \?[ \t]*$", re.M)
# what a check says of the kit, of its progress and of how to go on
PLAIN = re.compile(
    r"statements |logic /|library |axioms |checked |rt: (chose|begins|rt |\S+: begins)|started=|linked |crate \S+: modules"
    r"|note: (a goal may be false|to see how far|no hole is left)|(fn|struct|enum|const|impl|trait|cycle) \S+: (proved|no holes)"
)


def find_root():
    here = Path.cwd()
    for folder in [here, *here.parents]:
        if (folder / "crates.txt").is_file():
            return folder
    sys.exit("proof_loop: no crates.txt in this folder or above it")


def run(root, name, words):
    """`rt check` in the crate's folder; gives its output, seconds and status."""
    if not shutil.which("rt"):
        sys.exit("proof_loop: no `rt` in PATH")
    began = time.time()
    ran = subprocess.run(
        ["rt", "check", *words], cwd=root / "crates" / name, stdout=subprocess.PIPE, stderr=subprocess.STDOUT, errors="replace"
    )
    keep = root / "target" / "proof_loop"
    keep.mkdir(parents=True, exist_ok=True)
    (keep / f"{name}.txt").write_text(ran.stdout)
    return ran.stdout, time.time() - began, ran.returncode


def blocks(text):
    """What a check said, piece by piece: a line, with the deeper lines after it."""
    out = []
    for line in text.splitlines():
        if out and line.startswith(" "):
            out[-1] += "\n" + line
        else:
            out.append(line)
    return out


def short(text):
    """Without the prefixes of modules."""
    modules = "Rattle|lib|mathlib|Prim|native|borrow|denote|mir|vc|base|prog|sound|contract"
    return text if text.startswith("help: write ") else re.sub(rf"(?<![\w.·/])(?:{modules})(?:\.\w+)*\.(?=[^\s.{{])", "", text)


def cut(text, n):
    text = text.rstrip()
    return text if not n or len(text) <= n else f"{text[:n]} ..[{len(text) - n} more; --need shows all]"


def show(text, o, seconds):
    functions = re.findall(r"^fn \S+: (.*)$", text, re.M)
    for block in blocks(text):
        if not block.strip() or PLAIN.match(block) or o.need and f"`{o.need}`" not in block:
            continue
        print(cut(short(block), 0 if o.need else o.cut))
    proved = sum(1 for said in functions if said.startswith(("proved", "no holes")))
    print(f"\n{proved} of {len(functions)} functions proved; {seconds:.1f} s")


def files(root, name, fn):
    """The crate's files of answers, of the function fn or of all: proofs/F/Answers.antt, or Proof.antt where code is walked by hand."""
    top = root / "crates" / name / "proofs"
    found = sorted([*top.rglob("Answers.antt"), *top.rglob("Invariants.antt"), *top.rglob("Proof.antt")])
    of = [p.parent.relative_to(top).as_posix() for p in found]
    return [p for p, f in zip(found, of) if not fn or fn in (f, f.split("/")[-1])]


def answers(text):
    """The answers of a file, each in one line."""
    for m in re.finditer(rf"(?m)^(?!use |--|pub |abbrev |unfolding )({NAME})( [^=\n]*)? =((?:.*\n)(?:[ \t]+.*\n)*)", text + "\n"):
        yield f"{m.group(1)}{m.group(2) or ''} = {' '.join(m.group(3).split())}"


def imported(text, answer):
    """The file with an import of what the answer names of the common words."""
    lacking = [w for w in re.findall(r"[^\s(),]+", answer) if w in COMMON and not re.search(rf"(?m)^use .*[{{ ]{w}[,}}]", text)]
    line = f"use Rattle.std.proofs.Common.{{{', '.join(lacking)}}}\n"
    return re.sub(r"\A((?:--.*\n)*)", lambda m: m.group(1) + line, text) if lacking else text


def filled(text, holes, answer):
    """The file with the answer at these holes."""
    return imported(HOLE.sub(lambda m: f"{m.group(1)}{m.group(2) or ''} = {answer}" if m.group(1) in holes else m.group(0), text), answer)


def try_answers(root, name, fn, tried, words):
    """One check for each answer: put it at every hole that is left, and keep it where no error names the declaration."""
    left = {p: [m.group(1) for m in HOLE.finditer(p.read_text())] for p in files(root, name, fn) if p.name == "Answers.antt"}
    total = sum(map(len, left.values()))
    print(f"  {total} holes")
    for answer in tried:
        left = {p: holes for p, holes in left.items() if holes}
        if not left:
            break
        before = {p: p.read_text() for p in left}
        good = {p: [] for p in left}
        try:
            for p, holes in left.items():
                p.write_text(filled(before[p], holes, answer))
            text, seconds, _ = run(root, name, [*words, "--allow-holes"])
            for p in left:
                place = re.escape(p.relative_to(root / "crates" / name).as_posix())
                errors = re.findall(rf"(?m)^(?:\./)?{place}:\d+:\d+: error(?:\[[^]]*\])?: (?:`([^`]+)`: )?", text)
                # an error that names no declaration says nothing of any of them
                judged = "" not in errors and re.search(r"(?m)^(logic|only|holes)=", text)
                good[p] = [h for h in left[p] if h not in errors] if judged else []
        finally:
            for p in left:
                p.write_text(filled(before[p], good[p], answer) if good[p] else before[p])
        print(f"  {answer}: closes {sum(map(len, good.values()))} of {sum(map(len, left.values()))} ({seconds:.0f} s)")
        left = {p: [h for h in holes if h not in good[p]] for p, holes in left.items()}
    print(f"  {total - sum(map(len, left.values()))} of {total} holes closed")


def main():
    a = argparse.ArgumentParser(prog="tools/proof_loop.py", formatter_class=argparse.RawDescriptionHelpFormatter, description=__doc__)
    a.add_argument("name")
    for flag in ("--write", "--holes", "--try", "--last"):
        a.add_argument(flag, action="store_true", dest=flag[2:].replace("try", "tries"))
    for flag in ("--fn", "--answers", "--need", "--answers-of"):
        a.add_argument(flag, default="")
    a.add_argument("--cut", type=int, default=700)
    o = a.parse_args()
    root = find_root()
    name = o.name.rstrip("/").split("/")[-1]
    if not (root / "crates" / name / "src").is_dir():
        sys.exit(f"proof_loop: no crates/{name}/src")
    if o.answers_of:
        for p in files(root, name, o.answers_of):
            for line in answers(p.read_text()):
                print(cut(line, o.cut))
        return 0
    if o.last:
        show((root / "target" / "proof_loop" / f"{name}.txt").read_text(), o, 0.0)
        return 0
    only = ["--only", o.fn] if o.fn else []
    if o.write:
        if not o.fn:
            sys.exit("proof_loop: --write wants --fn F")
        print(run(root, name, ["--start", o.fn, "--allow-holes"])[0])
    if o.tries:
        try_answers(root, name, o.fn, o.answers.split(";") if o.answers else ANSWERS, only)
    text, seconds, status = run(root, name, [*only, *["--allow-holes"] * o.holes])
    show(text, o, seconds)
    return status


if __name__ == "__main__":
    try:
        sys.exit(main())
    except BrokenPipeError:
        os._exit(1)
