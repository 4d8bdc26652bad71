#!/usr/bin/env python3
"""The layout of proof files: long paths bound to names, long lines broken.

    tools/proof_layout.py                  say which files of the crates have a line of more than 200 bytes, and which proof files an
                                           answer in which a long path stands twice: more than eight steps back in the code, or more
                                           than five projections; exit status 1 if any has
    tools/proof_layout.py --write NAME..   break the long lines of these crates' proof files, and bind their paths back to names

A proof that walks the code by hand (proofs/F/Proof.antt) reaches a fact by a path from where an answer stands back to the thing in the
code that brought the fact: `c.before.before.loop.inv`. Such paths, where they are long, get names of their own; in Answers.antt, where
the check gives each fact its name, there are none, and only long lines are broken. docs/PROOFS.md says more. The layout has no state:

    bound(text)         the proof file with its long paths bound to names and its long lines broken
    long_lines(text)    what of a proof file is not in the layout
    wide_lines(text)    what of any other file is not

A line that --write leaves too long, as that of a type, is broken by hand; `rt fmt` in the crate's folder goes last.
"""

import re
import sys
from pathlib import Path

WIDTH = 120  # what a broken line is filled to
WIDE = 130  # an answer with a wider line is laid out anew
HARD = 200  # any other declaration with a wider line is
STEP = 8  # a place so many steps back is bound to a name of its own: c8, c16, ..
LONG = 5  # a path of more projections stands once in an answer

# a line may end with the first and does not begin with them, and the other way round with the second
AFTER = {"=", ":", "→", "↔", "×", "↦", "in"}
BEFORE = {"∙", "≡", "+", "*", "∸", "-", "<", "≤", "∷", "++", "/", "%", "^", "←", "|", "let", "λ", "then", "else"}
CLOSING = {"(": ")", "{": "}"}


class Unfit(Exception):
    """The text has something that is not laid out here: a comment inside a term, a block."""


def tokens(text):
    """[(word, whether a space stands before it)]"""
    out, space, i = [], False, 0
    while i < len(text):
        m = re.compile(r"\s+").match(text, i)
        if m:
            space, i = True, m.end()
            continue
        if text.startswith("--", i) and space | (i == 0):
            raise Unfit
        m = re.compile(r'"(?:\\.|[^"\\])*"|[(){},;]|[^\s(){},;"]+').match(text, i)
        if not m:
            raise Unfit
        if m.group(0) in ("where", "do"):
            raise Unfit
        if m.group(0) in CLOSING.values() and out and out[-1][0] in (",", ";"):
            out.pop()
        # a projection is written tight, and is a word of its own here
        for word in [m.group(0)] if m.group(0)[0] == '"' else re.split(r"(?<=[^.])(?=\.[^.])", m.group(0)):
            out.append((word, space))
            space = False
        i = m.end()
    return out


def flat(toks):
    return "".join((" " if s and k else "") + w for k, (w, s) in enumerate(toks))


# -- Paths


def is_step(w):
    return len(w) > 1 and w[0] == "." and w[1] not in ".0123456789"


def is_number(w):
    return bool(re.fullmatch(r"\.\d+", w))


def read_path(toks, i, known):
    """The path at i, if one stands there: (steps back, thing or "", the index after it)."""
    w = toks[i][0]
    if w not in known or (i and toks[i - 1][0] in (".", "@")):
        return None
    n, j = known[w], i + 1
    while j < len(toks) and toks[j] == (".before", False):
        n, j = n + 1, j + 1
    if j < len(toks) and not toks[j][1] and is_step(toks[j][0]):
        return n, toks[j][0][1:], j + 1
    return n, "", j


def written(base, n, thing):
    return [(base, True)] + [(".before", False)] * n + ([("." + thing, False)] if thing else [])


def end_of_let(toks, i):
    """The index of the `in` that closes the `let` at i."""
    depth = lets = 0
    for j in range(i, len(toks)):
        w = toks[j][0]
        depth += (w in CLOSING) - (w in CLOSING.values())
        if depth == 0 and w == "let":
            lets += 1
        if depth == 0 and w == "in":
            lets -= 1
            if not lets:
                return j
    raise Unfit


def without_bindings(toks):
    """The answer with every path written from `c`, and the names that its `let`s bind to places: [(name, steps, thing)]."""
    known, names, out, i = {"c": 0}, [], [], 0
    while i < len(toks):
        if toks[i][0] == "let" and toks[i + 2][0] == "=":
            name, value = toks[i + 1][0], toks[i + 3 : end_of_let(toks, i)]
            path = read_path(value, 0, known) if value else None
            if path and path[2] == len(value) and binders(toks, name) == 1 and only_under(toks, i, name):
                if path[1]:
                    names.append((name, path[0], path[1]))
                else:
                    known[name] = path[0]
                at = i
                i += 4 + len(value)
                if toks[i : i + 1]:
                    toks = toks[:i] + [(toks[i][0], toks[at][1])] + toks[i + 1 :]
                continue
        path = read_path(toks, i, known) if toks[i][0] != "c" else None
        if path:
            steps = written("c", path[0], path[1])
            out += [(steps[0][0], toks[i][1])] + steps[1:]
            i = path[2]
        else:
            out.append(toks[i])
            i += 1
    return out, names


def binders(toks, name):
    """How many `let`s and `λ`s bind the name."""
    n, binder = 0, False
    for k, (w, _) in enumerate(toks):
        if w == "λ":
            binder = True
        elif binder and w.rstrip(".") == name:
            n += 1
        elif w == name and k and toks[k - 1][0] == "let":
            n += 1
        if binder and w.endswith("."):
            binder = False
    return n


def only_under(toks, i, name):
    """Whether the name is used only after the `let` at i, and inside the bracket in which it stands."""
    if any(w == name for w, _ in toks[:i]):
        return False
    depth = 0
    for k in range(i, len(toks)):
        depth += (toks[k][0] in CLOSING) - (toks[k][0] in CLOSING.values())
        if depth < 0:
            return all(w != name for w, _ in toks[k:])
    return True


def paths_of(toks):
    """Every path from `c`: [(index, steps, thing, index after)]."""
    out, i = [], 0
    while i < len(toks):
        p = read_path(toks, i, {"c": 0})
        if p:
            out.append((i, *p))
            i = p[2]
        else:
            i += 1
    return out


def with_bindings(toks, names):
    """The answer with names for the places that its paths reach far back."""
    given = {(n, x): k for k, n, x in names}
    paths = paths_of(toks)
    uses = {}
    for _, n, x, _ in paths:
        uses[(n, x)] = uses.get((n, x), 0) + 1
    taken = {w for w, _ in toks if not is_step(w)} | {k for k, _, _ in names}
    far = sorted({n for n, x in [*uses, *given] if n > STEP})
    places = []
    if len([1 for n, x in {*uses, *given} if n > STEP]) > 1 or (far and far[-1] > STEP + 3):
        places = [p for p in range(STEP, far[-1], STEP) if any(n > p for n in far)]
    place = {p: ("c" if f"c{p}" not in taken else "place") + str(p) for p in places}

    def base(n):
        p = max([p for p in places if p <= n], default=0)
        return (place[p] if p else "c"), n - p

    bind = dict(given)
    for (n, x), k in uses.items():
        if (n, x) in bind or not x:
            continue
        if (n >= STEP and (k > 1 or base(n)[1] > 2)) or (n >= 4 and k > 1) or (n >= 2 and k > 2) or (n >= 1 and k > 3):
            name = x
            if name in taken or name in bind.values():
                name = "the-" + x
            if name in taken or name in bind.values():
                name = f"{x}-at-{n}"
            bind[(n, x)] = name
    head = []
    for a, p in enumerate(places):
        head.append([("let", True), (place[p], True), ("=", True), *written(place[places[a - 1]] if a else "c", STEP, ""), ("in", True)])
    for (n, x), name in sorted(bind.items(), key=lambda b: (-b[0][0], b[1])):
        head.append([("let", True), (name, True), ("=", True), *written(*base(n), x), ("in", True)])
    out, i = [], 0
    for at, n, x, end in paths:
        out += toks[i:at]
        new = [(bind[(n, x)], True)] if (n, x) in bind else written(*base(n), x)
        out += [(new[0][0], toks[at][1])] + new[1:]
        i = end
    shared, out = with_shared(out + toks[i:], taken | set(bind.values()) | set(place.values()))
    return [t for b in head + shared for t in b] + out


# What an answer names several times is bound too: the mesh and the lists that a function is handed.
SHARED = {"mesh_of": ["m", "t", "m2"], "lists": ["l", "l2"]}


def with_shared(toks, taken):
    """The bindings of what stands in brackets more than once, and the answer with the names in its place."""
    groups = {}
    for i, (w, _) in enumerate(toks[:-1]):
        if w == "(" and toks[i + 1][0] in SHARED:
            j, depth = i, 0
            while True:
                depth += (toks[j][0] in CLOSING) - (toks[j][0] in CLOSING.values())
                if not depth:
                    break
                j += 1
            groups.setdefault(flat(toks[i : j + 1]), []).append((i, j))
    head, cuts = [], []
    for text, spans in groups.items():
        a, b = spans[0]
        inner = toks[a + 1 : b]
        if len(spans) < 2 or any(w != "_" and binders(toks, w) for w, _ in inner) or "_" in [w for w, _ in inner]:
            continue
        name = next((n for n in SHARED[inner[0][0]] if n not in taken), None)
        if name:
            taken.add(name)
            head.append([("let", True), (name, True), ("=", True), (inner[0][0], True), *inner[1:], ("in", True)])
            cuts += [(a, b, name) for a, b in spans]
    for a, b, name in sorted(cuts, reverse=True):
        toks = toks[:a] + [(name, toks[a][1])] + toks[b + 1 :]
    return head, toks


def repeated(toks):
    """Whether a path of more than eight steps from the place, or of more than five projections from any name, stands more than once."""
    seen = set()
    for _, n, x, _ in paths_of(toks):
        if n >= STEP and x:
            if (n, x) in seen:
                return True
            seen.add((n, x))
    i = 0
    while i < len(toks):
        j = i + 1
        while j < len(toks) and not toks[j][1] and (is_step(toks[j][0]) or is_number(toks[j][0])):
            j += 1
        path = flat(toks[i:j])
        if j - i > LONG + 1 and path in seen:
            return True
        seen.add(path)
        i = j
    return False


def searched(toks):
    """Whether the answer leaves the proof to `search`: it looks into every name in scope, and would find less with more of them."""
    return any(w == "search" for w, _ in toks[:1]) or any(a[0] == "=" and b[0] == "search" for a, b in zip(toks, toks[1:]))


# -- Lines


def chunks(toks):
    """What stands between two places where a line may break: [[token or nested group]]; a group is (open, chunks, close)."""

    def seq(i, close):
        out, glue, binder = [], False, False
        while i < len(toks):
            w, space = toks[i]
            if w == close:
                return out, i
            if w in CLOSING:
                inner, j = seq(i + 1, CLOSING[w])
                wide_brace = w == "{" and inner and toks[i + 1][1]
                item, nxt = (("{ ", inner, " }") if wide_brace else (w, inner, CLOSING[w])), j + 1
            else:
                item, nxt = w, i + 1
            ends = isinstance(item, str) and (is_step(w) or is_number(w) or w in AFTER)
            if out and (glue or binder or ends or not space):
                out[-1].append((item, space))
            else:
                out.append([(item, space)])
            if w == "λ":
                binder = True
            elif binder and isinstance(item, str) and w.endswith("."):
                binder = False
            glue = w in BEFORE
            i = nxt
        if close:
            raise Unfit
        return out, i

    return seq(0, "")[0]


def text_of(item):
    if isinstance(item, str):
        return item
    return item[0] + flat_seq(item[1]) + item[2]


def flat_chunk(ch):
    return "".join((" " if s and k else "") + text_of(it) for k, (it, s) in enumerate(ch))


def flat_seq(seq):
    return " ".join(flat_chunk(c) for c in seq)


class Lines:
    def __init__(self, first, indent):
        self.done, self.cur, self.indent, self.open = [], first, indent, False

    def fits(self, t):
        return len(self.cur) + len(t) + 1 <= WIDTH

    def fresh(self):
        return not self.cur.strip()

    def newline(self):
        if not self.fresh():
            self.done.append(self.cur.rstrip())
            self.cur = " " * self.indent
            self.open = False

    def put(self, t, space=True):
        if space and not self.fresh() and not self.open:
            self.cur += " "
        self.cur += t
        self.open = False

    def glued(self, t, opens=False):
        self.cur += t
        self.open = opens


def lets_in(ch):
    return sum(1 for it, _ in ch if it == "let"), sum(1 for it, _ in ch if it == "in")


def parts(ch):
    """Whether the chunk ends a part of a record or a tuple: each has lines of its own."""
    return ch[-1][0] in (",", ";")


def lay(seq, out, top=False):
    """Write the chunks of one bracket over lines."""
    if not top and out.fits(flat_seq(seq)):
        out.put(flat_seq(seq))
        return
    k, listed = 0, any(parts(ch) for ch in seq)
    while k < len(seq):
        ch = seq[k]
        if ch[0][0] == "let":
            # a `let`, up to its `in`, has lines of its own
            depth, j = 0, k
            while j < len(seq):
                a, b = lets_in(seq[j])
                depth += a - b
                if depth <= 0:
                    break
                j += 1
            if not out.open:
                out.newline()
            put_terms(seq[k : j + 1], out)
            out.newline()
            k = j + 1
            continue
        j = k + 1
        while j < len(seq) and seq[j][0][0] != "let" and not parts(seq[j - 1]):
            j += 1
        if listed and k and not out.open:
            out.newline()
        put_terms(seq[k:j], out)
        k = j


def put_terms(seq, out):
    """Terms joined by an operator: what does not fit into the line goes to the next, from its operator on."""
    k = 0
    while k < len(seq):
        j = k + 1
        while j < len(seq) and seq[j][0][0] != "∙":
            j += 1
        if seq[k][0][0] == "∙" and not out.fits(flat_seq(seq[k:j])):
            out.newline()
        for ch in seq[k:j]:
            put_chunk(ch, out)
        k = j


def put_chunk(ch, out):
    t = flat_chunk(ch)
    if out.fits(t):
        out.put(t)
        return
    if len(t) + out.indent <= WIDTH:
        out.newline()
        out.put(t)
        return
    if len(out.cur) > WIDTH // 3:
        out.newline()
    first = True
    for it, s in ch:
        if isinstance(it, str):
            if first:
                out.put(it)
            elif s:
                if not out.fits(it) and it not in AFTER:
                    out.newline()
                out.put(it)
            else:
                out.glued(it)
        else:
            if first or s:
                out.put(it[0])
            else:
                out.glued(it[0])
            out.open = True
            lay(it[1], out)
            out.glued(it[2])
        first = False


def laid(first, toks, indent, own_line):
    """The term on lines of its own after `first`, or going on in its line."""
    out = Lines(first, indent)
    if own_line:
        out.newline()
    lay(chunks(toks), out, top=True)
    out.done.append(out.cur.rstrip())
    return "\n".join(x for x in out.done if x.strip())


# -- Files


ALONE = ("--", "use ", "data ", "record ", "pub record ", "pub data ")


def indent(line):
    return len(line) - len(line.lstrip())


def units(text):
    """The file in pieces: a declaration's line with the deeper lines after it, or a single line of anything else."""
    lines = text.split("\n")
    out, i = [], 0
    while i < len(lines):
        ind, j = indent(lines[i]), i + 1
        alone = lines[i].rstrip().endswith(" where") or lines[i].lstrip().startswith(ALONE)
        if lines[i].strip() and not alone:
            while j < len(lines) and lines[j].strip() and (indent(lines[j]) > ind or lines[j].lstrip()[0] in ")}"):
                j += 1
        out.append("\n".join(lines[i:j]))
        i = j
    return out


HEAD = re.compile(r"^(\s*[^\s:=()]+(?: (?:[^\s:=()]+|\([^=]*?\)|\{[^=]*?\}))*? =)(?=\s)(.*)$", re.S)
ANSWER = re.compile(r"\(λ (?:[^\s.()]+ )*c(?: [^\s.()]+)*\.(?=\s)")


def answer_spans(unit):
    """The answers in a piece of a file: [(first, last, what stands before, whether it is a clause)]."""
    m = HEAD.match(unit)
    if m and re.search(r" c(?= )", m.group(1)):
        return [(m.end(1), len(unit), True)]
    out, at = [], 0
    while True:
        m = ANSWER.search(unit, at)
        if not m:
            return out
        depth, i, quoted = 1, m.end(), False
        while i < len(unit) and depth:
            ch = unit[i]
            if ch == '"':
                quoted = not quoted
            if not quoted:
                depth += (ch == "(") - (ch == ")")
            i += 1
        out.append((m.end(), i - 1, False))
        at = i


def wide(text, n):
    """Whether a line is wider than n, in bytes where n is HARD."""
    return any((len(l.encode()) if n == HARD else len(l)) > n for l in text.split("\n"))


def uses(line):
    """A long `use` line as several, about equally long."""
    m = re.fullmatch(r"use (\S+)\.\{([^{}]*)\}", line)
    if not m:
        return [line]
    names = m.group(2).split(", ")

    def cut(width):
        out = [names[:1]]
        for n in names[1:]:
            if len(f"use {m.group(1)}.{{{', '.join([*out[-1], n])}}}") > width:
                out.append([n])
            else:
                out[-1].append(n)
        return out

    few = len(cut(WIDE))
    width = min(w for w in range(WIDE // 2, WIDE + 1) if len(cut(w)) == few)
    return [f"use {m.group(1)}.{{{', '.join(x)}}}" for x in cut(width)]


def bound_unit(unit):
    ind = indent(unit)
    for a, b, clause in reversed(answer_spans(unit)):
        body = unit[a:b]
        whole = unit[unit.rfind("\n", 0, a) + 1 : (unit + "\n").find("\n", b)]
        try:
            toks = tokens(body)
        except Unfit:
            continue
        walks = any(n for _, n, _, _ in paths_of(toks))
        if not walks or not (repeated(toks) and not searched(toks) or wide(whole, WIDE)):
            continue
        try:
            new = toks if searched(toks) else with_bindings(*without_bindings(toks))
            head = unit[unit.rfind("\n", 0, a) + 1 : a]
            if clause:
                one = head + flat([(" " + new[0][0], False), *new[1:]])
                lines = one if len(one) <= WIDTH and new[0][0] != "let" else laid(head, new, ind + 4, True)
            else:
                one = head + flat([(" " + new[0][0], False), *new[1:]])
                lines = one if len(one) <= WIDTH else laid(head, new, ind + 4, True)
        except Unfit:
            continue
        unit = unit[: a - len(head)] + lines + unit[b:]
    if wide(unit, HARD) and unit.startswith("use "):
        return "\n".join(uses(unit))
    if wide(unit, HARD) and not unit.lstrip().startswith("--"):
        try:
            return "\n".join(laid(" " * ind, tokens(unit.strip()), ind + 4, False).split("\n"))
        except Unfit:
            pass
    return unit


def bound(text):
    return "\n".join(bound_unit(u) for u in units(text))


def long_lines(text):
    """The lines of a proof file that are too wide, and the answers in which a long path stands twice."""
    out = wide_lines(text)
    line = 1
    for unit in units(text):
        for a, b, _ in answer_spans(unit):
            try:
                if repeated(tokens(unit[a:b])):
                    out.append(f"{line}: a path of more than {STEP} steps, or of more than {LONG} projections, stands twice in one answer")
            except Unfit:
                pass
        line += unit.count("\n") + 1
    return out


def wide_lines(text):
    """The lines of any file that are too wide, by their bytes."""
    return [f"{k + 1}: {len(l.encode())} bytes" for k, l in enumerate(text.split("\n")) if len(l.encode()) > HARD]


def laid_out(root, name):
    """Bring the crate's proof files into the layout."""
    if not (root / "crates" / name / "src").is_dir():
        sys.exit(f"proof_layout: no crates/{name}/src")
    for p in sorted((root / "crates" / name / "proofs").rglob("*.antt")):
        old = p.read_text()
        new = bound(old)
        if new != old:
            p.write_text(new)
            print(f"{p.relative_to(root)}: {old.count(chr(10))} lines, now {new.count(chr(10))}")


def main(words):
    """Say which files of the crates are not in the layout; exit status 1 if any is not."""
    root = Path(__file__).resolve().parent.parent
    if words[:1] == ["--write"]:
        for name in words[1:]:
            laid_out(root, name)
        return 0
    if words:
        sys.exit(__doc__)
    files = [p for end in ("rt", "antt", "edit") for p in root.glob(f"crates/*/*/**/*.{end}") if "out" not in p.relative_to(root).parts]
    bad = 0
    for p in sorted(files):
        proof = p.suffix == ".antt" and "proofs" in p.parts
        for l in (long_lines if proof else wide_lines)(p.read_text()):
            bad = 1
            print(f"{p.relative_to(root)}:{l}")
    return bad


if __name__ == "__main__":
    raise SystemExit(main(sys.argv[1:]))
