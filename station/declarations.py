#!/usr/bin/env python3
"""Holds the prototypes of lavyngo.h against the functions that crates/station_c exports: names, order and types; and these against the
functions of crates/station that they call: the same names, parameters and clauses, and a body that is the call of that name alone.

    declarations.py STATION_C.RT STATION.RT LAVYNGO.H
"""

import re
import sys

# What a parameter of Rattle is in C; a slice is a pointer and its number of elements.
SLICES = {"f64": "double", "u32": "uint32_t", "u8": "uint8_t"}
NUMBERS = {"f64": "double"}
RESULTS = {"u32": "uint32_t"}
# A parameter whose name in C is a word of Rattle.
NAMES = {"place": "where"}


def in_c(name, kind):
    """The C parameters of one parameter of Rattle."""
    name = NAMES.get(name, name)
    if kind in NUMBERS:
        return ["%s %s" % (NUMBERS[kind], name)]
    const = "" if kind.startswith("&mut ") else "const "
    inner = kind.removeprefix("&mut ").removeprefix("&")
    if inner == "[usize; 3]":
        return ["%ssize_t %s[3]" % (const, name)]
    if inner in ("[usize; 1]", "usize"):
        return ["%ssize_t *%s" % (const, name)]
    element = re.fullmatch(r"\[(\w+)\]", inner)
    return ["%s%s *%s" % (const, SLICES[element[1]], name), "size_t %s_length" % name]


def functions(source, before):
    """The functions whose heads begin with `before`: the words of their parameters, results and clauses, and those of their bodies."""
    form = before + r"fn (\w+)\(((?:(?!\n\{\n|\n\}\n).)*)\n\{\n((?:(?!\n\}\n).)*)\n\}"
    return {name: (head.split(), body.split()) for name, head, body in re.findall(form, source, re.S)}


def called(source, library):
    """Says which export is not the function of its name in the library, with its clauses said again."""
    exports, given = functions(source, r'#\[unsafe\(no_mangle\)\]\npub extern "C" '), functions(library, r"\npub ")
    if not exports or exports.keys() != given.keys() or len(exports) != source.count("no_mangle"):
        sys.exit("the exports are %s\n  and the library's functions %s" % (sorted(exports), sorted(given)))
    for name, (head, body) in exports.items():
        if head != given[name][0]:
            sys.exit("%s has other parameters or clauses than the library's" % name)
        arguments = re.findall(r"(\w+): ", " ".join(head).split(") ->")[0])
        words = re.findall(r"\w+|\S", " ".join(body))
        call = re.findall(r"\w+|\S", "station::%s(%s)" % (name, ", ".join(arguments)))
        if [w for w in words if w != ","] != [w for w in call if w != ","]:
            sys.exit("%s is not the call of station::%s with its own parameters in their order" % (name, name))
    return len(exports)


def exported(source):
    """The prototypes that the exported functions ask for."""
    form = r'#\[unsafe\(no_mangle\)\]\s*pub extern "C" fn (\w+)\((.*?)\)\s*->\s*(\w+)'
    found = {}
    for name, parameters, result in re.findall(form, source, re.S):
        pairs = re.findall(r"(\w+):\s*([^,]+?)\s*(?:,|$)", parameters.strip())
        found[name] = (RESULTS[result], sum((in_c(*pair) for pair in pairs), []) or ["void"])
    return found


def declared(header):
    """The prototypes of the header."""
    text = re.sub(r"/\*.*?\*/", "", header, flags=re.S)
    found = {}
    for result, name, parameters in re.findall(r"^(\w+) (lavyngo_\w+)\(\s*(.*?)\);", text, re.S | re.M):
        found[name] = (result, [" ".join(p.split()) for p in parameters.split(",")])
    return found


def main(exporting, library, header):
    source = open(exporting).read()
    called(source, open(library).read())
    asked, given = exported(source), declared(open(header).read())
    for name in sorted(asked.keys() | given.keys()):
        if asked.get(name) != given.get(name):
            sys.exit("%s\n  the library: %s\n  the header:  %s" % (name, asked.get(name), given.get(name)))
    print("%d functions, %d parameters: the header declares what the library exports, with the clauses of what it calls"
          % (len(asked), sum(len(parameters) for _, parameters in asked.values())))


if __name__ == "__main__":
    main(*sys.argv[1:])
