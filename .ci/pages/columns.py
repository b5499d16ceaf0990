#!/usr/bin/env python3
"""Lines that fit on a screen: at most 100 characters in src and specs, and at most 120 in proofs.

  .ci/pages/columns.py --check [CRATE..]   lists each line that is longer, and ends with status 1 where there is one
  .ci/pages/columns.py --write [CRATE..]   lays such lines out, and lists those that it leaves

Only what is too long is laid out, so a second run changes nothing: the paragraphs of comments are wrapped, a list of imports
becomes several lines of one module, a text that stands alone is broken by a backslash, and a term, which is a clause of .rt or
anything of .antt, at its operators (`.ci/pages/terms.py`). `rt fmt` formats the crates that changed. Another longer line of code in
.rt is a person's to break.

What a wrong body names by its text (`old:` of an edit) is never broken, and may be longer. A belief may have line breaks: where
what it names was broken, it is written anew. An attribute may be longer too, since `rt fmt` keeps it on one line.
"""
import collections
import glob
import os
import re
import subprocess
import sys

sys.dont_write_bytecode = True
import pages
import terms

TOP = os.path.dirname(os.path.dirname(os.path.dirname(os.path.realpath(__file__))))
LIMITS = {"src": 100, "specs": 100, "proofs": 120}
COMMENT = re.compile(r"(\s*)(///|//!|//|--)(?: |$)")
TEXT = re.compile(r'(\s*)"((?:[^"\\]|\\.)*)"(,?)')
IMPORTS = re.compile(r"(\s*(?:pub )?(?:ghost )?use [^{]*\{)(.*)(\};?)")
# So many imports on a line make it worth to name the module again.
FEW = 2
# rt fmt may indent what was laid out, so that it is laid out again, at most so often.
ROUNDS = 9


def edits():
    """The wrong bodies and beliefs, each with the folder that its files are named from and whether it may hold line breaks."""
    for path in sorted(glob.glob(f"{TOP}/crates/*/must-fail/*.edit") + glob.glob(f"{TOP}/tried/*/*.edit")):
        crate = path.split("/")[-3 if "/must-fail/" in path else -2]
        yield path, "" if crate == "beliefs" else f"crates/{crate}/", crate == "beliefs"


def old_texts():
    """The texts that edits name, by the file that they stand in: those of wrong bodies, and those of beliefs too."""
    hard, all_of_them = collections.defaultdict(set), collections.defaultdict(set)
    for path, folder, is_belief in edits():
        for line in open(path, encoding="utf8"):
            word, _, text = line.rstrip("\n").partition(": ")
            if word == "file":
                file = folder + text
            elif word == "old":
                all_of_them[file].update(it for it in text.split("\\n" if is_belief else "\n") if it.strip())
                hard[file].update([] if is_belief else [text])
    return hard, all_of_them


def mended(path, folder):
    """A belief with each old text as its file has it now, where that differs in layout alone."""
    lines, texts, old = open(path, encoding="utf8").read().split("\n"), {}, None
    for i, line in enumerate(lines):
        word, _, text = line.partition(": ")
        text = text.replace("\\n", "\n")
        if word == "file":
            file = folder + text
            texts.setdefault(file, open(os.path.join(TOP, file), encoding="utf8").read())
        elif word == "old":
            old = text
            if old not in texts[file]:
                pattern = r"\s+".join(re.escape(it) for it in old.split()).replace(r"\{", r"\{\s*").replace(r"\s+\}", r";?\s+\}")
                old = (re.search(r"\s*" * old.startswith(" ") + pattern, texts[file]) or [old])[0]
                lines[i] = "old: " + old.replace("\n", "\\n")
        elif word == "new":
            texts[file] = texts[file].replace(old, text)
    return "\n".join(lines)


# ---- imports and comments


def imports(found, width, kept):
    """A list of imports as several lines of one module; or as rt fmt lays out one, where few names go on a line."""
    head, names, end = found.groups()
    term, units = terms.Term(found[0], width, kept), []
    for name in re.finditer(r"[^,{}\s][^,{}]*(?:\{[^}]*\})?", names):
        if units and found.start(2) + name.start() - 1 in term.kept:
            units[-1] += ", " + name[0]
        else:
            units.append(name[0])
    lines, line = [], units[0]
    for unit in units[1:]:
        more = f"{line}, {unit}"
        if len(head + more + end) > width:
            lines, more = lines + [head + line + end], unit
        line = more
    lines.append(head + line + end)
    if any(", " in unit for unit in units) or len(units) >= FEW * len(lines) and all(len(it) <= width for it in lines):
        return lines
    indent = re.match(r"\s*", head)[0]
    return [head] + [f"{indent}  {unit}," for unit in units] + [indent + end]


def text(found, width, kept):
    """A text that stands alone on its line, over several: a backslash at the end of a line leaves out what the next begins with."""
    indent, rest, end = found.groups()
    term, lines = terms.Term(found[0], width, kept), []
    start = len(indent) + 1
    while len(indent) + len(rest) + len(end) + 2 > width:
        cuts = [i for i in range(width - len(indent) - 2) if rest[i : i + 1] == " " and start + i + 1 not in term.kept]
        if not cuts:
            break
        cut = cuts[-1] + 1
        lines.append(f"{indent}{'' if lines else chr(34)}{rest[:cut]}\\")
        rest, start = rest[cut:], start + cut
    return lines + [f"{indent}{'' if lines else chr(34)}{rest}{chr(34)}{end}"]


def comment(lines, width):
    """A block of a comment with its paragraphs wrapped that have a line that is too long."""
    indent, mark = COMMENT.match(lines[0]).groups()
    start, out, paragraph, fenced = indent + mark, [], [], False

    def close():
        if any(len(it) > width for it in paragraph):
            text = [it[len(start) + 1 :] for it in paragraph]
            item = pages.ITEM.match(text[0])
            first = item[0] if item else re.match(r"\s*", text[0])[0]
            words = " ".join([text[0][len(first) :]] + [it.strip() for it in text[1:]])
            out.extend(pages.wrapped(f"{start} {first}", f"{start} {' ' * len(first)}", words))
        else:
            out.extend(paragraph)
        paragraph.clear()

    for line in lines:
        text = line[len(start) + 1 :]
        fence = text.lstrip().startswith("```")
        alone = fenced or fence or not text.strip() or re.match(r"\||#|<!--|---- |    ", text) is not None
        fenced ^= fence
        if alone or pages.ITEM.match(text):
            close()
        (out if alone else paragraph).append(line)
    close()
    return out


# ---- files


def in_terms(text):
    """The numbers of the lines of a .rt file that hold terms."""
    found = set()
    for clause in re.finditer(r"^ *" + terms.CLAUSE.pattern, text, re.M):
        end = terms.Term(text, 0, ()).closing(clause.end() - 1, len(text))
        first = text.count("\n", 0, clause.start())
        found.update(range(first, first + text.count("\n", clause.start(), end) + 1))
    return found


def written(source, is_rust, width, hard, kept):
    """A file with its long lines laid out."""
    lines, out, i = source.split("\n"), [], 0
    is_term = in_terms(source) if is_rust else range(len(lines))
    while i < len(lines):
        found = COMMENT.match(lines[i])
        if found:
            end = next((j for j in range(i, len(lines)) if not lines[j].startswith(found[0].rstrip())
                        or COMMENT.match(lines[j]) is None or COMMENT.match(lines[j])[2] != found[2]), len(lines))
            out += comment(lines[i:end], width)
            i = end
            continue
        line, imported = lines[i], IMPORTS.fullmatch(lines[i])
        if len(line) <= width:
            out.append(line)
        elif imported and ("ghost" in imported[1] or not is_rust):
            out += imports(imported, width, kept)
        elif is_rust and TEXT.fullmatch(line):
            out += text(TEXT.fullmatch(line), width, hard)
        elif i in is_term and not re.search(r" do \S| where \S| (--|//) |\{-", line):
            out += terms.broken(line, width, hard, bool(out) and out[-1].endswith(("=", " in", ".", "↦")))
        else:
            out.append(line)
        i += 1
    return "\n".join(out)


def files(crates):
    """The files whose width is looked at, each with its limit."""
    for folder, limit in LIMITS.items():
        kind = "rt" if folder == "src" else "antt"
        for path in sorted(glob.glob(f"{TOP}/crates/*/{folder}/**/*.{kind}", recursive=True)):
            name = os.path.relpath(path, TOP)
            if not crates or name.split("/")[1] in crates:
                yield name, limit


def laid_out_files(crates, hard, kept):
    """Lays out the files with long lines, and formats their crates. Whether anything has changed."""
    changed = set()
    for name, limit in files(crates):
        path = os.path.join(TOP, name)
        text = open(path, encoding="utf8").read()
        new = written(text, name.endswith(".rt"), limit, hard[name], kept[name])
        if new != text:
            open(path, "w", encoding="utf8").write(new)
            changed.add(name.split("/")[1])
    for crate in sorted(changed):
        subprocess.run(["rt", "fmt"], cwd=f"{TOP}/crates/{crate}", stdout=subprocess.DEVNULL, check=True)
    return changed


def write(crates):
    """Lays out until nothing changes, and mends the beliefs."""
    rounds = 0
    while rounds < ROUNDS and laid_out_files(crates, *old_texts()):
        rounds += 1
    for path, folder, is_belief in edits():
        text = mended(path, folder) if is_belief else None
        if text and text != open(path, encoding="utf8").read():
            open(path, "w", encoding="utf8").write(text)


def long_lines(crates):
    """A sentence for each line that is too long."""
    hard, _ = old_texts()
    for name, limit in files(crates):
        named = [it for it in hard[name] if len(it) > limit]
        for number, line in enumerate(open(os.path.join(TOP, name), encoding="utf8").read().split("\n"), 1):
            if len(line) > limit and not line.lstrip().startswith("#[") and not any(it in line for it in named):
                yield f"{name}:{number}: {len(line)} characters"


def main(words):
    if words[:1] not in (["--check"], ["--write"]):
        raise SystemExit(__doc__)
    if words[0] == "--write":
        write(words[1:])
    told = list(long_lines(words[1:]))
    print("\n".join(told), end="\n" if told else "")
    sys.exit(1 if told else 0)


if __name__ == "__main__":
    main(sys.argv[1:])
