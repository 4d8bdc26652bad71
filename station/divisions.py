#!/usr/bin/env python3
"""Says which integer divisions (div, idiv of x86-64) stand in the code that functions of an archive reach. Divisions of floats
are none of these.

    divisions.py ARCHIVE FUNCTION..    how many there are, by function; the exit status is 1 if there is one

Reads what `objdump -dr` says. What is called outside the archive, as memset, is named and not looked into.
"""

import re
import subprocess
import sys

HEAD = re.compile(r"^[0-9a-f]+ <(.+)>:$")
INSTRUCTION = re.compile(r"^ *[0-9a-f]+:\t(\S+)(.*)$")
REFERENCE = re.compile(r"^\s+[0-9a-f]+: R_X86_64_\S+\s+(?:\.text\.)?(.+?)(?:[-+]0x[0-9a-f]+)?$")
CALL = re.compile(r"^(?:call|j)")


def read(archive):
    """Each function's names in calls and jumps, and its integer divisions."""
    said = subprocess.run(["objdump", "-dr", "--no-show-raw-insn", archive], capture_output=True, text=True, check=True).stdout
    calls, divisions, function, calling = {}, {}, None, False
    for line in said.split("\n"):
        if head := HEAD.match(line):
            function = head[1]
            calls[function], divisions[function] = set(), []
        elif reference := REFERENCE.match(line):
            if calling:
                calls[function].add(reference[1])
        elif instruction := INSTRUCTION.match(line):
            calling = bool(CALL.match(instruction[1]))
            # the name of a generic function may have spaces and brackets in it
            if calling and (here := re.search(r"<(.+)>$", instruction[2])) and not re.search(r"\+0x[0-9a-f]+$", here[1]):
                calls[function].add(here[1])
            if calling and "*" in instruction[2] and instruction[1].startswith("call"):
                sys.exit("%s calls through a pointer: what it reaches is not known" % function)
            if re.fullmatch(r"i?div[bwlq]?", instruction[1]):
                divisions[function].append(line.strip())
    return calls, divisions


def main(archive, *functions):
    calls, divisions = read(archive)
    reached, todo, outside = [], list(functions), set()
    while todo:
        name = todo.pop()
        if name not in calls:
            if name in functions:
                sys.exit("%s is not in %s" % (name, archive))
            outside.add(name)
        elif name not in reached:
            reached.append(name)
            todo += calls[name]
    found = 0
    for name in sorted(reached):
        for line in divisions[name]:
            print("%s: %s" % (name, line))
            found += 1
    print("%d integer divisions in the %d functions that %s reach; outside the archive: %s"
          % (found, len(reached), ", ".join(functions), ", ".join(sorted(outside)) or "none"))
    sys.exit(0 if found == 0 else 1)


if __name__ == "__main__":
    main(*sys.argv[1:])
