#!/usr/bin/env python3
"""python3 tools/columns.py: that each column has one name and one order in every signature under crates/.

A signature names its read-only columns first, then those that are lent, each in the order below. What a column is called is
listed here, too: a slice with another name is a leaf's own, and is listed with it. Programs are not looked at.
"""

import pathlib
import re
import sys

# A build: its input, then what it leaves.
BUILD = """
ids kinds classes lengths class_ids loaders dumped class_kinds slot_starts slot_ends static_starts static_ends
slot_offsets slot_labels slot_weak static_names static_types static_values codes escape_places escape_ids bytes starts bodies
roots offsets targets labels weak_from weak_to roots_out working account bases short long_at long_value fields table
escape_at escape_label edge_codes counting ranking
""".split()
# from_parts is handed the roots behind the weak pairs.
PARTS = [name for name in BUILD if name != "roots"]
PARTS.insert(PARTS.index("weak_to") + 1, "roots")
# A question, which is asked of a build's columns.
ASK = """
bases short long_at long_value edge_codes targets fields escape_at escape_label weak_from weak_to
""".split()
# The incoming side of a graph, made from those columns and asked in turn.
INCOMING = "sources places in_bases in_short in_long_at in_long_value working".split()
# A reader holds target and code parts (document 01).
READER = "targets codes fields escape_at escape_label".split()
# What leaf calls name for themselves: any numbers, values to be coded, a column or a part of one, rows, the answer, one object's
# edges, which a question writes, and a list of objects that is asked, with its marks.
OWN = """
s d xs values marks from to rows from_offsets from_labels from_weak weak answer own_targets own_labels
objects found column
""".split()

PROGRAMS = {"print", "case_text", "case_graph", "case_incoming", "case_each", "replay", "show_cases", "show_worked"}


def order_of(path):
    crate = path.parts[1]
    if path.parts[1:] == ("ask_edges", "src", "lib.rt"):
        return READER
    if crate == "inverse" or crate.startswith("incoming") or path.name == "holders.rt":
        return ASK + INCOMING
    if crate.startswith("ask_") or path.name in ("questions.rt", "read.rt", "lent.rt"):
        return ASK
    return PARTS if "parts" in crate or path.name == "parts.rt" else BUILD


def faults(path):
    text = re.sub(r"//.*", "", path.read_text())
    for name, words in re.findall(r"\bfn (\w+)(?:<[^>]*>)?\(([^)]*)\)", text):
        order = order_of(path)
        slices = [word.strip() for word in words.split(",") if "&" in word and "[" in word]
        for lent in (False, True):
            names = [s.split(":")[0] for s in slices if ("&mut" in s) == lent]
            known = [n for n in names if n in order]
            if known != sorted(known, key=order.index):
                yield f"{path}: {name}: {', '.join(names)} are not in the order of tools/columns.py"
        kinds = ["&mut" in s for s in slices]
        if kinds != sorted(kinds):
            yield f"{path}: {name}: a lent column stands before one that is read"
        for other in (s.split(":")[0] for s in slices):
            if other not in BUILD + INCOMING + OWN:
                yield f"{path}: {name}: {other} is no column's name"


def main():
    found = [
        fault
        for path in sorted(pathlib.Path("crates").glob("*/src/**/*.rt"))
        if path.parts[1] not in PROGRAMS
        for fault in faults(path)
    ]
    print("\n".join(found), end="\n" if found else "")
    sys.exit(1 if found else 0)


main()
