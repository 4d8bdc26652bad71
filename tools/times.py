#!/usr/bin/env python3
"""The times of the gate, read from the log that .ci/run keeps.

    tools/times.py [LOG]            print one line: checks, proofs, edits, programs, runs, whole; how many crates and edits came with
                                    requests; and the crates of over 60 seconds
    tools/times.py [LOG] --write    put that line and the seconds of each crate into the section "The gate" of docs/TIMES.md

LOG is .ci/target/log where none is named. A line of it is the seconds since the start and what was said then; the parts of the gate
begin with `==`. `rt ci` proves crates side by side and tries edits beside them, and prints no seconds of its own. So the seconds of a
crate are those from when the last of the crates that it uses was told until it was told itself, the wait for a processor included; and
those of the edits are what they took after the last proof. A crate that an earlier run on the machine has proved is told as kept, at
once, and has no seconds.
"""
import re
import sys
from pathlib import Path

ROOT = Path(__file__).resolve().parent.parent
TIMES = ROOT / "docs" / "TIMES.md"
HEAD = "## The gate\n"
LONG = 60


class Log:
    """What the log says: when each part ended, when each crate was told, which were kept, and how many edits each has."""

    def __init__(self, path):
        self.title, self.began, self.ended = "", {}, {}
        self.told, self.kept, self.edits, self.tally = {}, set(), {}, ""
        for line in path.read_text(errors="replace").splitlines():
            second, _, text = line.partition(" ")
            self.read(int(second), text)

    def read(self, second, text):
        self.ended["whole"] = second
        if text.startswith("== the gate "):
            self.title = text.removeprefix("== the gate ")
        elif text.startswith("== "):
            self.began[text.removeprefix("== ")] = second
        elif found := re.match(r"rt: must-fail (\w+)/", text):
            self.edits[found[1]] = self.edits.get(found[1], 0) + 1
            self.ended["edits"] = second
        elif found := re.match(r"rt: (\w+) (proved$|is kept: )", text):
            self.told[found[1]] = second
            self.kept |= {found[1]} if found[2] != "proved" else set()
            self.ended["proofs"] = second
        elif re.match(r"rt: \w+(: its tests are proved$)", text):
            self.ended["proofs"] = second
        elif re.match(r"rt: \w+( ran\b|: its tests passed$)", text):
            self.ended["programs"] = second
        elif re.fullmatch(r"\d+ passed, \d+ failed", text):
            self.tally = text

    def parts(self):
        """The parts of the gate with their seconds."""
        proving = self.began["rt ci"]
        proofs = self.ended["proofs"]
        edits = self.ended.get("edits", proofs)
        programs = self.ended.get("programs", edits)
        running = min((s for part, s in self.began.items() if part.startswith("station/")), default=self.ended["whole"])
        return {
            "checks": proving,
            "proofs": proofs - proving,
            "edits": edits - proofs,
            "programs": programs - edits,
            "runs": self.ended["whole"] - running,
            "whole": self.ended["whole"],
        }

    def seconds(self):
        """The seconds of each crate that this run proved."""
        return {
            crate: self.told[crate] - max([self.told[below] for below in uses if below in self.told], default=self.began["rt ci"])
            for crate, uses in listed().items()
            if crate in self.told and crate not in self.kept
        }

    def line(self):
        told = [f"{name} {spoken(seconds)}" for name, seconds in self.parts().items()]
        told[2] = f"{sum(self.edits.values())} {told[2]}"
        return ", ".join(told)


def spoken(seconds):
    return f"{seconds // 60} min {seconds % 60} s"


def listed():
    """The crates of crates.txt, each with those that it uses."""
    rows = re.findall(r"^(\w+)(?: staticlib)?:(.*)$", (ROOT / "crates.txt").read_text(), re.M)
    return {crate: uses.split() for crate, uses in rows}


def requested():
    """The crates that came with a request: crates.txt names document 02 beside them."""
    return set(re.findall(r"^# (\w+): .*document 02", (ROOT / "crates.txt").read_text(), re.M))


def shares(log):
    """How many of the crates and of the edits came with requests."""
    came = requested()
    edits = sum(number for crate, number in log.edits.items() if crate in came)
    return f"{len(came)} of {len(listed())} crates and {edits} of {sum(log.edits.values())} edits"


def section(log):
    rows = ["| Crate | Told after | Seconds | Edits |", "|---|---|---|---|"]
    seconds = log.seconds()
    for crate in listed():
        rows.append(f"| {crate} | {spoken(log.told[crate] - log.began['rt ci'])} | {seconds.get(crate, 'kept')} | {log.edits.get(crate, 0)} |")
    return f"{HEAD}`.ci/run` {log.title}: {log.line()}. Its last line: '{log.tally}'. Of this {shares(log)} came with requests of \
document 02 (crates.txt names it beside them).\n\n" + "\n".join(rows) + "\n"


def main():
    write = "--write" in sys.argv[1:]
    named = [word for word in sys.argv[1:] if word != "--write"]
    log = Log(Path(named[0]) if named else ROOT / ".ci" / "target" / "log")
    lacking = [crate for crate in listed() if crate not in log.told]
    if lacking or "rt ci" not in log.began:
        sys.exit(f"times: this is no log of a gate that proved these crates: {' '.join(lacking)}")
    print(log.line())
    print("came with requests:", shares(log))
    if log.kept:
        print(f"kept from earlier runs on the machine: {len(log.kept)} crates")
    for crate, seconds in log.seconds().items():
        if seconds > LONG:
            print(f"over {LONG} s: {crate}, {seconds} s")
    if write:
        before, _, rest = TIMES.read_text().partition(HEAD)
        _, mark, after = rest.partition("\n## ")
        TIMES.write_text(before + section(log) + mark + after)


main()
