#!/usr/bin/env python3
"""The pictures of the pages, drawn from data of the tree, into docs/pictures/.

  .ci/pages/pictures.py --write   draws them
  .ci/pages/pictures.py --check   says which one isn't what the data gives; the status is then 1

layers.svg has the libraries, each above those that it stands on (crates.txt); lookups.svg the instructions of so many lookups, by
each way of compare/speed/peers.tsv; index.svg the parts of an index, by the tables of docs/reference/INDEX.md; strip.svg the way from a
file to rows to places, with the rows of crates/uses/data/HOW.md and what the first command of README.md prints.
"""
import glob
import math
import os
import re
import sys

sys.dont_write_bytecode = True
import speed

TOP = os.path.dirname(os.path.dirname(os.path.dirname(os.path.realpath(__file__))))
FOLDER = "docs/pictures"
# Where users begin; a picture marks these.
ENTRIES = ("gimli_line", "gimli_lookup", "gimli_index", "gimli_write", "gimli_c")
INK, PAPER, PALE, MARKED = "#222222", "#ffffff", "#eef2f7", "#cfe3ff"
# Colours that also the colour-blind tell apart (Okabe and Ito).
COLOURS = ("#0072b2", "#56b4e9", "#d55e00", "#009e73", "#cc79a7", "#e69f00", "#777777", "#000000")


def text_of(name):
    with open(os.path.join(TOP, name), encoding="utf8") as file:
        return file.read()


def text(x, y, words, size=13, anchor="middle", colour=INK, weight="normal"):
    words = words.replace("&", "&amp;").replace("<", "&lt;")
    return f'<text x="{x:g}" y="{y:g}" font-size="{size}" text-anchor="{anchor}" fill="{colour}" font-weight="{weight}">{words}</text>'


def box(x, y, width, height, fill):
    return f'<rect x="{x:g}" y="{y:g}" width="{width:g}" height="{height:g}" rx="4" fill="{fill}" stroke="{INK}"/>'


def line(x, y, to_x, to_y, colour=INK, width=1):
    return f'<line x1="{x:g}" y1="{y:g}" x2="{to_x:g}" y2="{to_y:g}" stroke="{colour}" stroke-width="{width}"/>'


def picture(width, height, title, parts):
    head = f'<svg xmlns="http://www.w3.org/2000/svg" viewBox="0 0 {width} {height}" width="{width}" height="{height}"'
    body = [f"<title>{title}</title>", f'<rect width="{width}" height="{height}" fill="{PAPER}"/>', *parts]
    return f'{head} font-family="sans-serif" role="img">\n' + "\n".join(body) + "\n</svg>\n"


# ---- layers


def libraries():
    """The libraries, each with the libraries that it names in crates.txt."""
    names = {os.path.basename(os.path.dirname(it)) for it in glob.glob(os.path.join(TOP, "crates/*/CALLING.md"))}
    listed = [it.partition(":") for it in text_of("crates.txt").splitlines() if it and not it.startswith("#")]
    below = {head.split()[0]: named.split() for head, _, named in listed}
    return {name: [it for it in below[name] if it in names] for name in sorted(names)}


def all_below(name, below):
    return {it for one in below[name] for it in (one, *all_below(one, below))}


def chains(drawn, depth):
    """The lines of the picture: for each pair of libraries the nodes on its way down. A row between has a node for the line alone."""
    for name, named in drawn.items():
        for it in named:
            yield [name, *(f"{name} {it} {at}" for at in range(depth[name] - 1, depth[it], -1)), it]


def placed(rows, ways, width, top, step):
    """Where each node of the rows stands, the lowest row first: above the middle of those below it, with no two at one place."""
    below = {}
    for way in ways:
        for it, under in zip(way, way[1:]):
            below.setdefault(it, []).append(under)
    place = {}
    for at, names in enumerate(rows):
        middle = {it: sum(place[one][0] for one in below[it]) / len(below[it]) if it in below else 0 for it in names}
        names.sort(key=lambda it: (middle[it], it))
        sizes = [24 if " " in it else width for it in names]
        gap, x = (780 - sum(sizes)) / len(names), 10
        for it, size in zip(names, sizes):
            place[it] = x + (gap + size) / 2, top - step * at
            x += gap + size
    return place


def layers():
    below = libraries()
    # What another one brings along has no line of its own.
    drawn = {name: [it for it in named if not any(it in all_below(other, below) for other in named)] for name, named in below.items()}

    def depth_of(name):
        return 1 + max(map(depth_of, drawn[name]), default=-1)

    depth = {it: depth_of(it) for it in below}
    ways = list(chains(drawn, depth))
    rows = [[it for it in below if depth[it] == at] for at in range(1 + max(depth.values()))]
    for way in ways:
        for i, it in enumerate(way[1:-1], 1):
            rows[depth[way[0]] - i].append(it)
    width, height, step = 150, 36, 90
    top = 40 + step * (len(rows) - 1)
    place, parts = placed(rows, ways, width, top, step), []
    for way in ways:
        for it, under in zip(way, way[1:]):
            (x, y), (to_x, to_y) = place[it], place[under]
            parts.append(line(x, y + height, to_x, to_y))
            if " " in under:
                parts.append(line(to_x, to_y, to_x, to_y + height))
    for it in below:
        x, y = place[it]
        parts.append(box(x - width / 2, y, width, height, MARKED if it in ENTRIES else PALE))
        parts.append(text(x, y + 23, it, weight="bold" if it in ENTRIES else "normal"))
    parts.append(text(10, 22, "The libraries, each above those that it stands on. Users begin with one in bold.", anchor="start"))
    return picture(800, top + height + 14, "The libraries and what each stands on", parts)


# ---- lookups


# What a way of compare/speed/peers.tsv is called in the picture, if not by its name there.
LABELS = {
    "index": "gimli_line_index_find",
    "index_all": "gimli_line_index_find_all",
    "elf": "gimli_line_index_find, making the index",
}


def lookups():
    left, right, top, bottom, low, high = 70, 620, 50, 400, 5, 11

    def x(count):
        return left + (right - left) * math.log10(count) / 6

    def y(number):
        return bottom - (bottom - top) * (math.log10(number) - low) / (high - low)

    title = "Instructions of so many lookups in one run, from opening on: 129,305 rows, both scales logarithmic"
    parts = [text(10, 22, title, anchor="start")]
    for power in range(low, high + 1):
        parts += [line(left, y(10**power), right, y(10**power), "#dddddd"), text(left - 8, y(10**power) + 4, f"10^{power}", 12, "end")]
    for power in range(7):
        parts += [line(x(10**power), top, x(10**power), bottom, "#dddddd"), text(x(10**power), bottom + 18, f"{10**power:,}", 12)]
    parts.append(text((left + right) / 2, bottom + 38, "lookups"))
    ways = speed.ways()
    labels = sorted((y(speed.total(10**6, way)), name, colour) for (name, way), colour in zip(ways.items(), COLOURS))
    for i, way in enumerate(ways.values()):
        places = [(x(count), y(speed.total(count, way))) for count in (round(10 ** (step / 4)) for step in range(25))]
        route = " ".join(f"{one:.1f},{other:.1f}" for one, other in places)
        parts.append(f'<polyline points="{route}" fill="none" stroke="{COLOURS[i]}" stroke-width="2"/>')
    least = 0
    for at, name, colour in labels:
        least = max(at + 4, least + 15)
        parts += [line(right, at, right + 12, least - 4, colour), text(right + 16, least, LABELS.get(name, name), 12, "start", colour)]
    return picture(880, bottom + 50, "Instructions over the number of lookups, for each way", parts)


# ---- the parts of an index


def table(page, heading):
    """The cells of the first table under a heading, without its head."""
    section = re.search(rf"^## {heading}\n(.*?)(?=^## |\Z)", page, re.M | re.S)[1]
    rows = [[cell.strip() for cell in it.strip("|").split("|")] for it in section.splitlines() if it.startswith("|")]
    return rows[2:]


def index():
    page = text_of("docs/reference/INDEX.md")
    parts, width, height = [text(10, 22, "An index, from its first byte to its last; sizes are in bytes", anchor="start")], 108, 56
    for i, (name, size, _) in enumerate(table(page, "Parts")):
        x = 10 + i * (width + 4)
        size = size if size != "as the header says" else "size in the header"
        words = re.sub(r" for each (\w+)", r"|for each \1", size + (" bytes" if size.isdigit() else "")).split("|")
        parts += [box(x, 36, width, height, MARKED if i == 0 else PALE), text(x + width / 2, 60, name, weight="bold")]
        parts += [text(x + width / 2, 80 if len(words) == 1 else 75 + 12 * at, it, 11) for at, it in enumerate(words)]
    parts.append(text(10, 120, "Header:", 12, "start", weight="bold"))
    for i, (offset, size, name, *_) in enumerate(table(page, "Header")):
        column, row = divmod(i, 4)
        parts.append(text(70 + 250 * column, 120 + 18 * row, f"{offset}: {name.split(',')[0]} ({size})", 12, "start"))
    return picture(800, 200, "The parts of an index", parts)


# ---- from a file to rows to places


def arrow(x, y, to_x, words, below):
    """An arrow with words above it, and others below."""
    tip = 7 if to_x > x else -7
    parts = [line(x, y, to_x, y, width=2), line(to_x - tip, y - 5, to_x, y, width=2), line(to_x - tip, y + 5, to_x, y, width=2)]
    parts.append(text((x + to_x) / 2, y - 9, words, 12, weight="bold"))
    return parts + [text((x + to_x) / 2, y + 18, below, 11)]


def strip():
    """The program of README's first command: its rows by crates/uses/data/HOW.md, and what the command prints."""
    rows = re.findall(r"^0x0*(\w+) +(\d+) +(\d+) ", text_of("crates/uses/data/HOW.md"), re.M)[:4]
    printed = re.search(r"rt try -- where_is (\S+) (\w+)\) +# (\S+) (\S+)\n", text_of("README.md"))
    parts = [box(10, 30, 150, 110, PALE), text(85, 55, "an ELF file", weight="bold"), text(85, 80, printed[1], 12)]
    parts += [text(85, 100, "its section .debug_line", 11), text(85, 118, "(DWARF 2 to 5)", 11)]
    parts += [box(290, 30, 190, 110, PALE), text(385, 50, "rows", weight="bold"), text(385, 68, "address, line, column", 11)]
    parts += [text(385, 86 + 15 * i, f"0x{address}   {number}   {column}", 12) for i, (address, number, column) in enumerate(rows)]
    parts += [box(640, 30, 150, 110, MARKED), text(715, 55, "a place", weight="bold"), text(715, 85, printed[3], 12), text(715, 107, printed[4], 12)]
    parts += arrow(165, 66, 285, "gimli_line", "reads") + arrow(285, 110, 165, "gimli_write", "builds, writes")
    parts += arrow(485, 66, 635, "gimli_lookup", "searches rows in memory") + arrow(485, 110, 635, "gimli_index", "searches a saved index")
    return picture(800, 155, "From a file to rows to places, and from rows to a file", parts)


PICTURES = {"strip.svg": strip, "layers.svg": layers, "lookups.svg": lookups, "index.svg": index}


def main(words):
    if words not in (["--write"], ["--check"]):
        raise SystemExit(__doc__)
    wrong = 0
    for name, draw in PICTURES.items():
        path = os.path.join(TOP, FOLDER, name)
        if words == ["--write"]:
            with open(path, "w", encoding="utf8") as file:
                file.write(draw())
        elif not os.path.exists(path) or text_of(f"{FOLDER}/{name}") != draw():
            print(f"{FOLDER}/{name} isn't what its data gives: .ci/pages/pictures.py --write")
            wrong = 1
    return wrong


sys.exit(main(sys.argv[1:]))
