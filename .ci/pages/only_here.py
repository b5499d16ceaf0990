#!/usr/bin/env python3
"""Compares what docs/explanation/DIFFERENCES.md lists as "Only here" with the sources and with gimli's names.

    .ci/pages/only_here.py                  prints what is wrong; the status is then 1
    .ci/pages/only_here.py --names FOLDER   prints gimli's names, from a folder with its sources of this layer

The names are the public items of gimli_line, gimli_bytes, gimli_build and gimli_write: `Type::call`, or a type, a trait or a
function alone. gimli's are in .ci/pages/gimli_names.txt. Each that gimli lacks has to be named in code somewhere on the page, by its
last part, unless its type is named there and is only here. Each name that stands under "Only here" has to be in these crates,
and not in gimli.
"""
import glob
import os
import re
import sys

TOP = os.path.dirname(os.path.dirname(os.path.dirname(os.path.realpath(__file__))))
CRATES = ("gimli_line", "gimli_bytes", "gimli_build", "gimli_write")
NAMES = f"{TOP}/.ci/pages/gimli_names.txt"
BLOCK = re.compile(r"^( *)(?:pub )?(?:unsafe )?(impl|trait)\b(.*)")
CALL = re.compile(r"^( *)(pub )?(?:const )?(?:unsafe )?fn (\w+)")
ITEM = re.compile(r"^ *pub (?:struct|enum|trait|type) (\w+)")
# gimli makes some of its types by macros.
MADE = re.compile(r"define_(?:id|string_table|section)!\(\s*(\w+)")
CODE = re.compile(r"`([^`]+)`")


def owner_of(header):
    """The type or trait of a block, and whether the block implements a trait."""
    while re.search(r"<[^<>]*>", header):
        header = re.sub(r"<[^<>]*>", "", header)
    header = re.split(r"\bwhere\b|[{:]", header.replace("::", "/"))[0]
    return header.split(" for ")[-1].strip().split("/")[-1].lstrip("&"), " for " in header


def names_in(text):
    """The public names of a source."""
    text = re.split(r"^#\[cfg\(test\)\]\nmod", text, flags=re.M)[0].replace("->", "  ")
    found, owner, is_trait, is_open, indent = set(MADE.findall(text)), "", False, False, -1
    lines = text.split("\n")
    for number, line in enumerate(lines):
        block, call, item = BLOCK.match(line), CALL.match(line), ITEM.match(line)
        if item:
            found.add(item[1])
        if line.strip() and not line.startswith(" " * (indent + 1)) and not line.strip().startswith((")", "{", "where")):
            owner, indent = "", -1
        if block:
            header = block[3]
            for more in lines[number + 1 : number + 12]:
                if "{" in header:
                    break
                header += f" {more.strip()}"
            owner, implements = owner_of(header)
            is_trait, indent = block[2] == "trait", len(block[1])
            is_open = not implements and (not is_trait or line.strip().startswith("pub "))
        elif call and len(call[1]) == 0 and call[2]:
            found.add(call[3])
        elif call and owner and is_open and (call[2] or is_trait) and len(call[1]) == indent + 4:
            found.add(f"{owner}::{call[3]}")
    return found


def exported(crate):
    """The names that the root of a crate exports."""
    text = open(f"{TOP}/crates/{crate}/src/lib.rt", encoding="utf8").read()
    uses = re.findall(r"pub use ([\w:]+?)(?:::\{([^}]*)\})?;", text)
    return {it.strip() for path, names in uses for it in (names.split(",") if names else [path.split("::")[-1]])}


def here():
    """The public names of the crates."""
    found = set()
    for crate in CRATES:
        roots = exported(crate)
        for file in glob.glob(f"{TOP}/crates/{crate}/src/**/*.rt", recursive=True):
            if not file.endswith("laws.rt"):
                names = names_in(open(file, encoding="utf8").read())
                found |= {it for it in names if it.split("::")[0] in roots}
    return found


def listed():
    """What the page names in code, in all and under "Only here"."""
    page = open(f"{TOP}/docs/explanation/DIFFERENCES.md", encoding="utf8").read()
    part = page.split("\n## Only here\n")[1].split("\n- `gimli_lookup`")[0]
    # The type after `of` is gimli's.
    return [set(CODE.findall(it)) for it in (page, re.sub(r"\bof\s+`\w+`", "", part))]


def main(words):
    if words[:1] == ["--names"]:
        found = set()
        for file in glob.glob(f"{words[1]}/src--src--*.rs.txt"):
            found |= names_in(open(file, encoding="utf8").read())
        # The string tables are two types of one macro, whose `$name` each is.
        for table in ("StringTable", "LineStringTable"):
            found |= {it.replace("$name", table) for it in found if it.startswith("$name::")}
        print(*sorted(it for it in found if "$" not in it), sep="\n")
        return 0
    gimli = {it for it in open(NAMES, encoding="utf8").read().split("\n") if it and not it.startswith("#")}
    own, (page, part) = here(), listed()
    last = {it.split("::")[-1] for it in page}
    wrong = []
    for name in sorted(own - gimli):
        owner, _, call = name.rpartition("::")
        if (call not in last) and not (owner and owner not in gimli and owner in last):
            wrong.append(f"docs/explanation/DIFFERENCES.md: {name} is public, gimli has no such name, and the page doesn't name it")
    for name in sorted(part):
        fits = {it for it in own if it == name or it.endswith(f"::{name}")}
        if not fits:
            wrong.append(f"docs/explanation/DIFFERENCES.md: {name} is listed under \"Only here\", and no public item has that name")
        elif fits <= gimli:
            wrong.append(f"docs/explanation/DIFFERENCES.md: {name} is listed under \"Only here\", and gimli has it too")
    print(*wrong, sep="\n", end="\n" if wrong else "")
    return 1 if wrong else 0


if __name__ == "__main__":
    sys.exit(main(sys.argv[1:]))
