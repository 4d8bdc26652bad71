#!/usr/bin/env python3
"""Compiles and runs the C examples of the manual: each block of C must write what the block `output` after it has.

    manual.py MANUAL.md LIBRARY.a FOLDER
"""

import pathlib
import re
import subprocess
import sys


def main(manual, library, folder):
    here = pathlib.Path(__file__).parent
    blocks = re.findall(r"```c\n(.*?)```\n```output\n(.*?)```", pathlib.Path(manual).read_text(), re.S)
    for number, (source, expected) in enumerate(blocks, start=1):
        program = pathlib.Path(folder) / ("manual_%d" % number)
        program.with_suffix(".c").write_text(source)
        command = ["cc", "-std=c11", "-O2", "-Wall", "-Wextra", "-Werror", "-I", here, "-o", program]
        subprocess.run([*command, program.with_suffix(".c"), library], check=True)
        written = subprocess.run([program], check=True, capture_output=True, text=True).stdout
        if written != expected:
            sys.exit("example %d of the manual writes\n%s" % (number, written))
    print("%d examples of the manual write what it says" % len(blocks))


if __name__ == "__main__":
    main(*sys.argv[1:])
