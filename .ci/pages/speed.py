#!/usr/bin/env python3
"""The two tables of docs/explanation/SPEED.md, and the sentences there that follow from them, made of what compare/speed/count counted.

  .ci/pages/speed.py --write   writes them, each between the comment `<!-- NAME, by .ci/pages/speed.py -->` and the next blank line
  .ci/pages/speed.py --check   says which one isn't what the data gives; the status is then 1
"""
import os
import re
import sys
import textwrap

TOP = os.path.dirname(os.path.dirname(os.path.dirname(os.path.realpath(__file__))))
PAGE = "docs/explanation/SPEED.md"
# The ways of compare/speed/peers.tsv, in the words of the page.
WAYS = {
    "index": "`gimli_line_index_find`, the index made before",
    "index_all": "`gimli_line_index_find_all`, the index made before",
    "elf": "`gimli_line_index_find`, the index made in the run",
    "addr2line": "the crate addr2line 0.19 (of Debian, on gimli 0.27)",
    "libdw": "libdw 0.188",
    "libbacktrace": "libbacktrace of gcc 12.2",
    "llvm-gsymutil": "llvm-gsymutil 14",
    "llvm-symbolizer": "llvm-symbolizer 14",
}


def text_of(name):
    with open(os.path.join(TOP, name), encoding="utf8") as file:
        return file.read()


def rows_of(name):
    return [it.split("\t") for it in text_of(f"compare/speed/{name}").splitlines() if it and not it.startswith("#")]


def ways():
    """Each way with what it takes to open, of the first lookup, of one of 10,000 on the mean, and of each after these; seconds and MB of a million."""
    return {name: (*map(int, counts[:4]), *counts[4:]) for name, *counts in rows_of("peers.tsv")}


def total(count, way):
    """The instructions of so many lookups in one run; between what was counted, in proportion."""
    opened, first, each, more = way[:4]
    if count <= 10000:
        return opened + first + (count - 1) * (10000 * each - first) / 9999
    return opened + 10000 * each + (count - 10000) * more


def overtakes(one, other):
    """After how many lookups the first way has executed less than the second: two digits of it, or None."""
    low, high = 1, 10**9
    if total(high, one) >= total(high, other):
        return None
    while low < high:
        middle = (low + high) // 2
        low, high = (low, middle) if total(middle, one) <= total(middle, other) else (middle + 1, high)
    return low if low < 100 else round(low, 2 - len(str(low)))


def number(count):
    if count < 100_000:
        return f"{count:,}"
    return f"{count / 1e6:.2f} million" if count < 10_000_000 else f"{count / 1e6:.0f} million"


def table(head, rows):
    return "\n".join("| " + " | ".join(it) + " |" for it in [head, ["---"] * len(head), *rows]).replace("| --- ", "|---").replace("|--- ", "|---").replace("--- |", "---|")


def operations():
    return table(["Work", "Operation", "Here", "gimli 0.27"], [(it + [""])[:4] for it in rows_of("operations.tsv")])


def lookups():
    head = ["Way", "Open", "First", "Mean of 10,000", "Each after that", "A million"]
    found = [[WAYS[name], *map(number, it[:4]), f"{it[4]} s, {it[5]} MB"] for name, it in ways().items()]
    return table(head, found)


def pays():
    """When an index pays that is made in the run."""
    found = ways()
    if "elf" not in found:
        return "The run that makes its index first hasn't been counted."
    made, words = found["elf"], []
    for name, said in (("libbacktrace", "libbacktrace"), ("libdw", "libdw"), ("addr2line", "addr2line")):
        count = name in found and overtakes(made, found[name])
        if count:
            words.append(f"{said} {'at once' if count == 1 else f'after {number(count)} lookups'}")
    listed = ", ".join(words[:-1]) + f" and {words[-1]}" if len(words) > 1 else "".join(words) or "none of them"
    return f"Making it takes {number(made[0])} instructions here. Counting these, it overtakes {listed}."


def machine():
    return f"Counted on {text_of('compare/speed/machine.txt').strip()}."


PARTS = {"operations": operations, "lookups": lookups, "pays": pays, "machine": machine}


def made(page):
    for name, make in PARTS.items():
        text = make()
        text = text if text.startswith("|") else textwrap.fill(text, 100)
        page, count = re.subn(rf"(<!-- {name}, by \.ci/pages/speed\.py -->\n).*?(?=\n\n|\n?\Z)", lambda it: it[1] + text, page, flags=re.S)
        if count != 1:
            sys.exit(f"{PAGE}: {count} places for {name}")
    return page


def main(words):
    if words not in (["--write"], ["--check"]):
        sys.exit(__doc__)
    page = text_of(PAGE)
    if words == ["--write"]:
        with open(os.path.join(TOP, PAGE), "w", encoding="utf8") as file:
            file.write(made(page))
    elif page != made(page):
        print(f"{PAGE} isn't what compare/speed/*.tsv give: .ci/pages/speed.py --write")
        return 1
    return 0


if __name__ == "__main__":
    sys.exit(main(sys.argv[1:]))
