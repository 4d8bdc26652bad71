#!/usr/bin/env python3
"""Sums up a callgrind profile with instruction addresses: profile.py CALLGRIND.OUT"""

import collections
import re
import sys


def read(path):
    """The cost of each instruction of each function, and the calls: (caller, callee) to (times, cost with callees)."""
    names, cost, calls = {}, collections.defaultdict(dict), collections.Counter()
    times = collections.Counter()
    function = callee = pending = None
    address = 0

    def named(spec):
        number, name = re.match(r"\((\d+)\)(?: (.*))?", spec).groups()
        return names.setdefault(number, name)

    for line in open(path):
        if line.startswith("fn="):
            function = named(line[3:].strip())
        elif line.startswith("cfn="):
            callee = named(line[4:].strip())
        elif line.startswith("calls="):
            pending = int(line[6:].split()[0])
        elif match := re.match(r"(0x[0-9a-f]+|[+-]\d+|\*) \S+ (\d+)$", line):
            place, amount = match[1], int(match[2])
            if place.startswith("0x"):
                address = int(place, 16)
            elif place != "*":
                address += int(place)
            if pending is None:
                cost[function][address] = cost[function].get(address, 0) + amount
            else:
                calls[function, callee] += amount
                times[function, callee] += pending
                pending = None
    return cost, calls, times


def main(path):
    cost, calls, times = read(path)
    total = sum(sum(part.values()) for part in cost.values())
    print("%d instructions in one step\n\nby function" % total)
    for function in sorted(cost, key=lambda f: -sum(cost[f].values())):
        amount = sum(cost[function].values())
        if amount > total / 1000:
            print("%5.1f %%  %s" % (100 * amount / total, function))
    print("\ncalls")
    for (caller, callee), number in sorted(times.items(), key=lambda item: -calls[item[0]]):
        if number > 1 and calls[caller, callee] > total / 1000:
            print("%5.1f %%  %d from %s to %s" % (100 * calls[caller, callee] / total, number, caller, callee))
    print("\nruns of instructions executed equally often")
    groups = []
    for function, part in cost.items():
        for address, amount in sorted(part.items()):
            last = groups[-1] if groups else None
            if last and last[0] == function and last[3] == amount and address - last[2] < 16:
                last[2], last[4] = address, last[4] + 1
            else:
                groups.append([function, address, address, amount, 1])
    for function, first, _, often, number in sorted(groups, key=lambda g: -g[3] * g[4])[:24]:
        print("%5.1f %%  %d instructions %d times, from %#x of %s" % (100 * often * number / total, number, often, first, function))


if __name__ == "__main__":
    main(*sys.argv[1:])
