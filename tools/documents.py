#!/usr/bin/env python3
"""The documents held against the files that they name.

    tools/documents.py            print README.md's table of the files to read: the files of specs/ that state the claims and the
                                  contracts of the library's own functions, and all that these files use
    tools/documents.py --write    put that table into README.md in the place of the one there
    tools/documents.py --check    say whether README.md has that table, and whether every path below crates/ that a document names,
                                  every edit that docs/HOLLOW.md names and every name of code that README.md has is there
"""
import re
import sys
from pathlib import Path

ROOT = Path(__file__).resolve().parent.parent

# The files that state the claims, and those that the contracts of `build`, `build_text`, `audit`, `step`, `refine`, `find_depth`, `write_listing`, `read_listing`,
# `handover`, `mend_text`, `mend` and of the functions for C cite.
STATED = """
    audited_meshes/Audit audited_meshes/Claims building_tests/Lent built_meshes/Building built_meshes/Builds built_meshes/Claims
    built_meshes/Lent building_claims/Connects building_claims/LentContent closed_meshes/Refinement closed_meshes/Renumbering crossings/Claims explained_edges/Claims
    filed_pieces/Pieces filed_pieces/TextTwo full_agreement/Agreement handover_outputs/Claims handover_outputs/Output listings/Claims listings/Handing
    mend_outputs/Claims mend_outputs/Output mended_lists/Claims mended_lists/Grounds mended_texts/Claims
    mesh_printing/Claims outcomes/Outcomes refine_outputs/Bytes refine_outputs/Claims refine_outputs/Output refined_meshes/Refines
    explained_texts/Numbers explained_texts/Places refined_meshes/SplitStarts refusal_places/Claims renumbered_meshes/Claims runs/Runs station/Station
    station_audits/Told station_building/Told station_listings/Told station_mending/Told station_places/Told station_steps/Told ordered_runs/Claims
    steps/FirstGround steps/LentScratch steps/OneStep steps/Step text_meshes/Claims text_meshes/TextBuilding mesh_printing/Faces
    tables/Lent told_edges/Claims whole_grounds/Claims
""".split()

# What each crate's definitions are about, in the order of the table.
ABOUT = {
    "closed_meshes": "closed meshes over any rows, their refinement, names, what two meshes share",
    "positions": "positions, small and finite numbers",
    "edge_ends": "the numbers of connections, the mark for no row",
    "t_spline": "the neighbours and the faces of an edge",
    "edge_links": "connecting two edges",
    "perimeters": "the places beside a place of a perimeter",
    "tables": "the five tables",
    "t_nurcc_edge": "connecting two rows",
    "audited_meshes": "the audit",
    "text_numbers": "forms on bytes, decimal and hexadecimal numbers",
    "mesh_lines": "the lines of mesh texts 1 and 2",
    "mesh_text": "mesh texts 1 and 2",
    "built_meshes": "building",
    "building_claims": "what else is claimed of building, and lists to compute it on",
    "listed_points": "the lists that building is handed, as one record",
    "building_tests": "the first points and the limits of these lists",
    "text_meshes": "building from a text",
    "refined_meshes": "the visits of a refinement, and what the second edition settles after them",
    "position_rules": "the position rules",
    "steps": "the step",
    "walks": "walks about faces and points, borders, the edge to a neighbour",
    "renumbered_meshes": "meshes that are one but for the numbers of their rows",
    "runs": "demand 3",
    "full_agreement": "full agreement of visiting orders",
    "ordered_runs": "a list of steps as a function makes it",
    "outcomes": "demand 1",
    "mesh_answers": "the lines of an answer",
    "listings": "the handover listing",
    "mesh_printing": "the printing of mesh texts 1 and 2",
    "mended_lists": "faces of lists turned round, and the choice of faces",
    "mended_texts": "faces of a text turned round, the mender of texts",
    "refine_outputs": "what the program `refine` writes",
    "handover_outputs": "what the program `handover` writes",
    "mend_outputs": "what the program `mend` writes",
    "refusal_places": "where the first ground in the faces is met",
    "whole_grounds": "the answer of building told without tables",
    "text_places": "where a text is refused",
    "told_edges": "the points of an edge, and the face that runs it before",
    "explained_edges": "the same of an edge of a text",
    "told_texts": "the answer to a text, told without tables",
    "explained_texts": "what is claimed of the place and of the answer that are told of a text",
    "crossings": "depths that edges cross, the depth finder",
    "station_answers": "how an answer is told to a C caller",
    "station_building": "what the C functions that build answer and leave",
    "station_audits": "what the C functions that audit and find a depth answer and leave",
    "listing_answers": "what is written for a C caller beside an answer about a listing",
    "station_listings": "what the C functions of the listing answer and leave",
    "station_steps": "what the C functions of the step answer and leave",
    "station_mending": "what the C function of the mender answers and leaves",
    "station_places": "what the C function that explains a text answers and writes",
    "station": "the version of the library",
    "filed_pieces": "document 01's starred pieces, and pieces of mesh text 2",
}
USE = re.compile(r"^(?:pub )?use Rattle\.(?!std\.)(\w+)\.specs\.(\w+)", re.M)


def read_files():
    """Each crate's files, with their numbers of lines."""
    found = {}
    todo = [tuple(name.split("/")) for name in STATED]
    while todo:
        crate, file = todo.pop()
        if file == "declared" or file in found.setdefault(crate, {}):
            continue
        text = (ROOT / "crates" / crate / "specs" / f"{file}.antt").read_text()
        found[crate][file] = text.count("\n")
        todo += USE.findall(text)
    return found


def table(found):
    rows = ["| Files | Lines | About |", "|---|---|---|"]
    for crate, about in ABOUT.items():
        files = sorted(found[crate])
        rows.append(f"| crates/{crate}/specs: {', '.join(files)} | {sum(found[crate].values())} | {about} |")
    total = sum(sum(files.values()) for files in found.values())
    return "\n".join(rows) + f"\n\nTogether {total} lines, and the contracts of the functions named above.\n"


def missing():
    """What documents name and is not there."""
    for document in [ROOT / "README.md", ROOT / "NOTICE", *sorted((ROOT / "docs").glob("**/*.md"))]:
        for path in re.findall(r"crates/[a-z_]+(?:/[A-Za-z0-9_]+)*(?:\.[a-z]+)?", document.read_text()):
            # what a check makes is not there before it
            if not (ROOT / re.sub(r"^(crates/\w+)/out(/.*)?$", r"\1", path)).exists():
                yield f"{document.name} names {path}"
    for row in (ROOT / "docs" / "HOLLOW.md").read_text().split("\n"):
        for crate, edits in re.findall(r"(\w+): ((?:`\w+`(?:, )?)+)", row):
            for edit in re.findall(r"\w+", edits):
                if not (ROOT / "crates" / crate / "must-fail" / f"{edit}.edit").exists():
                    yield f"HOLLOW.md names the edit {edit} of {crate}"


    said = set()
    for file in (ROOT / "crates").glob("*/*/**/*"):
        if file.suffix in (".rt", ".antt") and file.relative_to(ROOT).parts[2] in ("src", "specs", "proofs"):
            said |= set(re.findall(r"[^\s(){}\[\],;.:`\"']+", file.read_text()))
    for name in sorted(set(re.findall(r"`([A-Za-z][\w-]*)`", (ROOT / "README.md").read_text())) - said):
        yield f"README.md names {name}, which no file of the crates has"


def main():
    found = read_files()
    if set(found) != set(ABOUT):
        sys.exit(f"documents: of these crates it is not known what to read: {sorted(set(found) ^ set(ABOUT))}")
    readme = ROOT / "README.md"
    if sys.argv[1:] == ["--write"]:
        before, head, rest = readme.read_text().partition("| Files | Lines | About |\n")
        _, last, after = rest.partition("contracts of the functions named above.\n")
        if not head or not last:
            sys.exit("documents: README.md has no table of the files to read")
        readme.write_text(before + table(found) + after)
        return
    if sys.argv[1:] != ["--check"]:
        print(table(found), end="")
        return
    wrong = list(missing())
    if table(found) not in readme.read_text():
        wrong.append("README.md has another table of the files to read: tools/documents.py --write puts this one there")
    if wrong:
        sys.exit("\n".join(f"documents: {line}" for line in wrong))
    print("documents: the files and the edits that they name are there")


main()
