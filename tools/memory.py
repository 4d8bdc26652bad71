#!/usr/bin/env python3
"""The memory that the check of each crate takes.

    tools/memory.py COMMAND..       run the command, then print the most memory that the prover had resident for each crate, in GB

The command is `.ci/run`, or `rt ci` in the repository's folder, or `rt check` in a crate's; a crate that is not proved again has no
line. What is resident is read from /proc (VmHWM) four times a second while the prover runs, so that what comes in the last quarter of a
second is not seen. Where several processes of the prover share a check, the largest is told. The wrong edits, which are proved in
copies, are not counted, and neither is what `rt ci NAME..` proves, in a copy as well. Crates over 3 GB are marked.
"""
import os
import subprocess
import sys
import time
from pathlib import Path

ROOT = Path(__file__).resolve().parent.parent
MOST = 3.0


def proving():
    """The processes of the prover on a crate of this repository: crate and GB. Each is run in its crate's folder."""
    for folder in Path("/proc").glob("[0-9]*"):
        try:
            words = (folder / "cmdline").read_bytes().decode(errors="replace").split("\0")
            if Path(words[0]).name != "rattle" or "--crate-name" not in words:
                continue
            name = words[words.index("--crate-name") + 1]
            if os.readlink(folder / "cwd") != f"{ROOT}/crates/{name}":
                continue
            for line in (folder / "status").read_text().splitlines():
                if line.startswith("VmHWM:"):
                    yield name, int(line.split()[1]) / 1048576
        except (OSError, IndexError):
            continue


def main():
    if len(sys.argv) < 2 or sys.argv[1] in ("-h", "--help"):
        sys.exit(__doc__)
    most, command = {}, subprocess.Popen(sys.argv[1:])
    while command.poll() is None:
        for name, gigabytes in proving():
            most[name] = max(most.get(name, 0.0), gigabytes)
        time.sleep(0.25)
    for name, gigabytes in sorted(most.items(), key=lambda item: -item[1]):
        print(f"{name} {gigabytes:.1f} GB{', over ' + str(MOST) if gigabytes > MOST else ''}")
    sys.exit(command.returncode)


main()
