"""Says whether each quote of the pages, and each example in a comment of a library, is the text of its source.

The line before a block of code names the source, as a comment that a reader of the page doesn't see:

  <!-- crates/uses/src/ends.rt -->           the block is the whole file
  <!-- part of crates/uses/src/main.rt -->   the block stands in the file, line by line, with nothing between
  <!-- lines of crates.txt -->               each line stands in the file, but one that begins with `my_program`
  <!-- items new, find of src/a.rt -->       the block is these items of the file, each with its comment, in this order

Before ` -->` may stand ` with NEW for OLD`: the page has NEW where the source has OLD. Code in Rattle, in antt and in C has to
name its source; a script, a picture and an output needn't. An example in a comment (`///`) begins at the left edge, wherever its
source stands.
"""
import glob
import os
import re
import textwrap

LIBRARIES = (
    "gimli_core",
    "gimli_line",
    "gimli_lookup",
    "gimli_bytes",
    "gimli_build",
    "gimli_write",
    "gimli_index",
    "gimli_compilation",
    "elf_sections",
    "inflate",
    "debug_files",
)
PAGES = ("*.md", "docs/*/*.md", "crates/*/CALLING.md", "crates/*/data/*.md", "tried/*/README.md", "bindings/*/*.md")
CODE = ("rust", "antt", "c", "cpp")
MARK = re.compile(r"<!-- (part of |lines of |items [\w, ]+ of |)(\S+)(?: with (\S+) for (\S+))? -->")


def blocks(lines):
    """The blocks of code of a page: where each begins and ends, its language, and its mark."""
    start = None
    for i, line in enumerate(lines):
        if not line.startswith("```"):
            continue
        if start is None:
            start = i + 1
            continue
        yield start, i, lines[start - 1][3:].strip(), MARK.fullmatch(lines[start - 2]) if start > 1 else None
        start = None


def at_the_edge(lines):
    """The same lines, moved to the left edge."""
    return textwrap.dedent("\n".join(lines)).split("\n")


def is_part(block, source):
    """Whether a block stands in a source, in code or in a comment of C."""
    parts = [source[i : i + len(block)] for i in range(len(source))]
    parts += [[re.sub(r"^ \*( |$)", "", line) for line in part] for part in parts if all(line.startswith(" *") for line in part)]
    return bool(block) and any(part == block or at_the_edge(part) == block for part in parts)


def without_layout(lines):
    """The text of lines without the marks of comments and all that a layout adds."""
    text = "".join(re.sub(r"^\s*(--|///?|//!)(?= |$)", "", line) for line in lines)
    return re.sub(r"\s+", "", text).replace(";}", "}")


def laid_out_anew(block, source):
    """The lines of the source that say the same as a part in another layout; None where there are none."""
    wanted = without_layout(block)
    starts = [i for i, line in enumerate(source) if without_layout([line]) and wanted.startswith(without_layout([line]))]
    for start in starts:
        for end in range(start + 1, len(source) + 1):
            found = without_layout(source[start:end])
            if found == wanted:
                return source[start:end]
            if not wanted.startswith(found.rstrip(";")):
                break
    return None


def item(source, name):
    """The lines of an item of a source: the first of this name, with the comment and the attributes before it."""
    begins = re.compile(rf"( *)(?:pub )?(?:fn|struct|enum|trait|type|int|void) {name}\b")
    at, indent = next((i, m[1]) for i, line in enumerate(source) if (m := begins.match(line)))
    end = next(i for i in range(at, len(source)) if source[i] == indent + "}" or source[i].endswith(";") and i == at)
    while source[at - 1].startswith((indent + "///", indent + "#[")):
        at -= 1
    return source[at : end + 1]


def items(source, names):
    """The lines of several items, with an empty line between."""
    lines = []
    for name in names.split(", "):
        lines += [""] * bool(lines) + item(source, name)
    return lines


def difference(top, lines, start, end, language, mark):
    """What is wrong with a quote: a sentence and the lines that belong there, where they are known; None where it is right."""
    if not mark:
        return ("names no source", None) if language in CODE else None
    how, path, new, old = mark.groups()
    try:
        text = open(os.path.join(top, path)).read()
    except OSError:
        return f"names {path}, which isn't there", None
    source = (text.replace(old, new) if new else text).rstrip("\n").split("\n")
    block = lines[start:end]
    if how == "part of ":
        return None if is_part(block, source) else (f"is no part of {path}", laid_out_anew(block, source))
    if how == "lines of ":
        lost = [line for line in block if line not in source and not line.startswith("my_program")]
        return (f"has lines that {path} lacks: {lost[0]}", None) if lost else None
    if how:
        try:
            source = items(source, how.removeprefix("items ").removesuffix(" of "))
        except StopIteration:
            return f"names an item that {path} lacks", None
    return None if block == source else (f"differs from {path}", source)


def comments(lines):
    """The comments of a source as pages: where each begins, how it is indented, and its lines without their marks."""
    start = None
    for i, line in enumerate(lines + [""]):
        is_comment = re.match(r"\s*///(?: |$)", line)
        if is_comment and start is None:
            start = i
        elif not is_comment and start is not None:
            indent = lines[start].index("///")
            yield start, indent, [it[indent + 4 :] for it in lines[start:i]]
            start = None


def wrong_examples(top, path):
    """A sentence for each example of a source that isn't quoted."""
    lines = open(path).read().split("\n")
    name = os.path.relpath(path, top)
    for start, _, comment in comments(lines):
        for a, b, language, mark in blocks(comment):
            wrong = difference(top, comment, a, b, language, mark)
            if wrong:
                yield f"{name}:{start + a}: the block {wrong[0]}"


def stale(top, write):
    """A sentence for each quote that differs from its source. Where it quotes a whole file, or differs in its layout alone,
    `write` puts the text in."""
    told = []
    for path in sorted(page for pattern in PAGES for page in glob.glob(os.path.join(top, pattern))):
        lines = open(path).read().split("\n")
        kept = list(lines)
        for start, end, language, mark in reversed(list(blocks(lines))):
            wrong = difference(top, lines, start, end, language, mark)
            if wrong and write and wrong[1]:
                kept[start:end] = wrong[1]
            elif wrong:
                told.append(f"{os.path.relpath(path, top)}:{start}: the block {wrong[0]}")
        if kept != lines:
            open(path, "w").write("\n".join(kept))
    for crate in LIBRARIES:
        for path in sorted(glob.glob(os.path.join(top, "crates", crate, "src", "**", "*.rt"), recursive=True)):
            told += wrong_examples(top, path)
    return told
