#!/usr/bin/env python3
"""The sources of a static library over the crate gimli_c: one export for each of its calls for C.

    exports.py FOLDER

writes them into FOLDER/src. A static library exports only functions of its own, and no crate can depend on it. So gimli_c is a
library, which is proved once, and each export has the signature and the clauses of the call, to the letter, and hands its
arguments on. The prover sees that the call's clauses are the export's.
"""
import glob
import os
import re
import sys

CRATE = os.path.join(os.path.dirname(os.path.abspath(__file__)), "..")
HEAD = "//! Exports of gimli_c, made by exports.py.\n\n"
MARK = "#[unsafe(no_mangle)]"
# Constants that aren't statuses.
OTHERS = ["OPTIONS_SIZE", "VERSION"]
CALL = re.compile(r'((?:^///[^\n]*\n)*^' + re.escape(MARK) + r'\npub extern "C" fn (\w+)\(([^)]*)\).*?)\n\{\n', re.M | re.S)


def named(text, pattern):
    """The names of that pattern in a text, in order, each once."""
    return sorted(set(re.findall(pattern, text)))


def module(path, source):
    """The exports of the calls of one file, with what their signatures and clauses name."""
    calls = CALL.findall(source)
    if len(calls) != source.count(MARK):
        sys.exit(f"{path}: a call for C isn't laid out as this script reads it")
    lines = re.findall(r"^ghost use [^;]*;\n", source, re.M)
    told = re.sub(r"///.*", "", "".join(signature for signature, _, _ in calls))
    statuses = [name for name in named(told, r"\b[A-Z][A-Z0-9_]+\b") if name not in OTHERS]
    lines += [f"use gimli_c::{name};\n" for name in named(told, r"\bGimli\w+|\b(?:" + "|".join(OTHERS) + r")\b")]
    lines += [f"use gimli_c::status::{name};\n" for name in statuses]
    lines += ["use std::alloc::Global;\n"] * ("Global" in told)
    for signature, name, parameters in calls:
        arguments = ", ".join(re.findall(r"(\w+):", parameters))
        lines.append(f"\n{signature}\n{{\n    gimli_c::{name}({arguments})\n}}\n")
    return HEAD + "".join(lines)


def main(folder):
    modules = {}
    for path in sorted(glob.glob(f"{CRATE}/src/**/*.rt", recursive=True)):
        source = open(path).read()
        if MARK in source:
            modules[os.path.relpath(path, f"{CRATE}/src")[:-3].replace("/", "_")] = module(path, source)
    os.makedirs(f"{folder}/src")
    for name, text in modules.items():
        open(f"{folder}/src/{name}.rt", "w").write(text)
    root = "".join(f"mod {name};\n" for name in modules)
    open(f"{folder}/src/lib.rt", "w").write(f"{HEAD}#![tactic(auto)]\n\n{root}")


main(sys.argv[1])
