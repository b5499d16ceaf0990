#!/usr/bin/env python3
"""Prints rows of a file of rows, by their names, with the definitions that they need.

    .ci/wrong/chosen_rows.py FILE NAME..
"""
import re
import sys


def parts_of(text):
    """The definitions and the rows of a file, each with its lines, by their names."""
    definitions, rows, current = {}, {}, []
    is_definition = False
    for line in text.split("\n"):
        if line.startswith((":= ", "== ")):
            is_definition = line.startswith(":= ")
            current = definitions.setdefault(line.split()[1], []) if is_definition else rows.setdefault(line[3:], [])
        elif is_definition and (not line or line.startswith("--")):
            current = []
        current.append(line)
    return definitions, rows


def needed(definitions, lines, names):
    """Adds the names of the definitions that lines refer to, callees first."""
    for name in re.findall(r"@(\w+)", "\n".join(lines)):
        if name in definitions and name not in names:
            needed(definitions, definitions[name], names)
            names.append(name)


def main(path, chosen):
    with open(path, encoding="utf8") as file:
        definitions, rows = parts_of(file.read())
    missing = set(chosen) - set(rows)
    if missing:
        raise SystemExit(f"chosen_rows: {path} has no row {', '.join(sorted(missing))}")
    names = []
    for name in chosen:
        needed(definitions, rows[name], names)
    for name in names:
        print("\n".join(definitions[name]))
    print()
    for name in chosen:
        print("\n".join(rows[name]).rstrip("\n") + "\n")


main(sys.argv[1], sys.argv[2:])
