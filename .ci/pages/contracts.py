#!/usr/bin/env python3
"""The contracts that the pages CALLING.md quote from the sources of their crates.

  .ci/pages/contracts.py CRATE [CALL..]   prints the contracts of a crate, or of some of its calls
  .ci/pages/contracts.py --write          puts the contracts, and the files that are quoted whole, into the pages
  .ci/pages/contracts.py --check          says which page has another text than its source; the status is then 1

A page names the calls in a comment, and the block of code after it has their contracts:

  <!-- contracts of DebugLine::program, round_trip -->

A signature and each clause stand as in the source, with two changes: `S` is `self.now` or `self.old`, and `S'` is `self.new`. What
is longer than a line is broken, and the rest of it stands four columns to the right. The quotes of code are checked too, by
`.ci/pages/quotes.py`.
"""
import collections
import glob
import os
import re
import sys

sys.dont_write_bytecode = True
import quotes
import terms

TOP = os.path.dirname(os.path.dirname(os.path.dirname(os.path.realpath(__file__))))
WIDTH = 100
BLOCK = re.compile(r"<!-- contracts of ([^>]*?) -->\n```text\n(.*?)```\n", re.S)

Function = collections.namedtuple("Function", "name head clauses lines")


def squeezed(text):
    return re.sub(r"\s+", " ", text).strip()


# ---- the functions of a source


def end_of(text, start, opening, closing):
    """The place after the bracket that closes the one at `start`."""
    depth = 0
    for i in range(start, len(text)):
        depth += (text[i] == opening) - (text[i] == closing and text[i - 1] not in "-=")
        if depth == 0:
            return i + 1
    raise ValueError("a bracket isn't closed")


def owner_of(header):
    """The name of the type or trait that the header of an `impl` or `trait` block is about."""
    if header.startswith("<"):
        header = header[end_of(header, 0, "<", ">") :].strip()
    header = re.sub(r"\s+where.*", "", header).split(" for ")[-1]
    return header.split(":")[0].split("<")[0].strip()


def end_of_answer(text, start):
    """The place after the type of an answer."""
    depth = 0
    for i in range(start, len(text)):
        if depth == 0 and (text[i] in "{;" or re.match(r"\s(requires|ensures|where)\b", text[i : i + 12])):
            return i
        depth += (text[i] in "<([") - (text[i] in ")]" or (text[i] == ">" and text[i - 1] != "-"))
    raise ValueError("a signature doesn't end")


def clauses_at(text, start):
    """The clauses of a function, whose signature ends at `start`, and the lines that they take."""
    bounds = re.match(r"\s*where\b.*?(?=\b(?:requires|ensures)\b|\{)", text[start:], re.S)
    i, found = start + (bounds.end() if bounds else 0), []
    first = i
    while m := re.match(r"\s*((?:requires|ensures)\*?(?: [a-z_0-9]+)?)\s*\{", text[i:]):
        opening = i + m.end() - 1
        i = end_of(text, opening, "{", "}")
        term = re.sub(r",? (?=\))", "", re.sub(r"(?<=\() ", "", squeezed(text[opening + 1 : i - 1])))
        found.append((m[1], re.sub(r"\bself\.(now|old)\b", "S", re.sub(r"\bself\.new\b", "S'", term))))
    return found, sum(bool(line.strip()) for line in text[first:i].split("\n"))


def functions(crate):
    """The public functions of a crate, and those of its traits, in the order of its files."""
    found = []
    for path in sorted(glob.glob(f"{TOP}/crates/{crate}/src/**/*.rt", recursive=True)):
        text = re.sub(r"//[^\n]*", "", open(path, encoding="utf8").read())
        heads = re.finditer(r"^(?:pub )?(impl|trait)\b([^{]*)\{", text, re.M)
        blocks = [(m.start(), end_of(text, m.end() - 1, "{", "}"), m[1], owner_of(squeezed(m[2]))) for m in heads]
        for m in re.finditer(r'^ *(pub (?:extern "C" )?)?(?:const )?fn ([a-z_0-9]+)', text, re.M):
            inside = [it for it in blocks if it[0] < m.start() < it[1]]
            if m[1] or inside and inside[-1][2] == "trait":
                name = "::".join([it[3] for it in inside[-1:]] + [m[2]])
                opening = end_of(text, m.end(), "<", ">") if text[m.end()] == "<" else m.end()
                closing = end_of(text, opening, "(", ")")
                arrow = re.match(r"\s*->\s*", text[closing:])
                end = end_of_answer(text, closing + arrow.end()) if arrow else closing
                head = squeezed(text[m.end() : end]).replace("( ", "(").replace(", )", ")")
                found.append(Function(name, f"fn {name}{head}", *clauses_at(text, end)))
    return found


# ---- the lines of a page


def of_signature(head):
    """The lines of a signature: where it is too long it is broken before an argument, or before the arrow."""
    parts, opened = [""], ""
    for i, c in enumerate(head):
        if c == " " and (opened == "(" and head[i - 1] == "," or not opened and head[i + 1 : i + 3] == "->"):
            parts.append("")
            continue
        if c in "([<{":
            opened += c
        elif c in ")]}" or c == ">" and head[i - 1] != "-":
            opened = opened[:-1]
        parts[-1] += c
    lines = [parts[0]]
    for part in parts[1:]:
        if len(lines[-1] + part) < WIDTH:
            lines[-1] += " " + part
        else:
            lines.append("    " + part)
    return lines


def of_clause(word, term):
    """The lines of a clause: where it is too long it is broken before an operator, or before an argument."""
    start = f"  {word}: "
    line = terms.Term(start + term, WIDTH, ())
    return terms.joined(start, line.lay(len(start), len(line.text), len(start), 2, 6, 0))


def contracts(crate, names):
    """The contracts of calls, as lines of a page, and a sentence for each name that no call has, or that several have."""
    lines, told, listed = [], [], functions(crate)
    for name in names:
        found = [it for it in listed if it.name == name]
        if len(found) != 1:
            told.append(f"{len(found)} calls of {crate} have the name {name}")
        for function in found:
            lines += of_signature(function.head)
            lines += [line for clause in function.clauses for line in of_clause(*clause)]
    return lines, told


def of_page(path, write):
    """A sentence for each thing that is wrong with a page; `write` puts the contracts in."""
    crate, page = os.path.basename(os.path.dirname(path)), open(path, encoding="utf8").read()
    told = []

    def renewed(m):
        lines, wrong = contracts(crate, squeezed(m[1]).split(", "))
        told.extend(wrong)
        block = "".join(line + "\n" for line in lines)
        if block != m[2] and not write:
            told.append(f"the contracts of {squeezed(m[1])} aren't those of the source")
        return m[0].replace(f"```text\n{m[2]}```", f"```text\n{block}```")

    new = BLOCK.sub(renewed, page)
    if new != page and write:
        open(path, "w", encoding="utf8").write(new)
    told += [f"a line of {len(line)} columns: {line[:40]}" for line in new.split("\n") if len(line) > WIDTH]
    return [f"crates/{crate}/CALLING.md: {it}" for it in told]


def main(words):
    if words[:1] == ["--write"] or words[:1] == ["--check"]:
        write = words[0] == "--write"
        told = [it for path in sorted(glob.glob(f"{TOP}/crates/*/CALLING.md")) for it in of_page(path, write)]
        told += quotes.stale(TOP, write)
        print("\n".join(told), end="\n" if told else "")
        return 1 if told else 0
    if not words:
        raise SystemExit(__doc__)
    lines, told = contracts(words[0], words[1:] or list(dict.fromkeys(it.name for it in functions(words[0]))))
    print("\n".join(lines))
    return 0


if __name__ == "__main__":
    sys.exit(main(sys.argv[1:]))
