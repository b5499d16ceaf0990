#!/usr/bin/env python3
"""Measures `lines` beside its peers: processor time and peak memory, over programs. Outside the gate.

    compare/speed/lines.py [--one] PROGRAM..

Prints one table: of each program 1, 1,000 and 100,000 addresses of its code, all rows printed, and a check; with --one 1 address
alone. Each command is run three times, and the least processor time counts; a peer that isn't there has empty cells. The
addresses are those of rows, drawn with a fixed seed. Of llvm-symbolizer the newest version that is there is asked.
LINES_PROGRAM=FILE is asked in place of crates/lines.
"""
import array
import os
import random
import shutil
import subprocess
import sys
import tempfile

TOP = os.path.dirname(os.path.dirname(os.path.dirname(os.path.realpath(__file__))))
sys.path.insert(0, f"{TOP}/compare")
from places import newest  # noqa: E402 - of the folder above

IS_ONE = sys.argv[1:2] == ["--one"]
LINES = os.environ.get("LINES_PROGRAM", f"{TOP}/crates/lines/out/lines")


def run(words, given):
    """The processor time in seconds and the peak memory in megabytes of a command, the least of three runs."""
    best = None
    for _ in range(3):
        with open(given) if given else open(os.devnull) as questions:
            child = subprocess.Popen(words, stdin=questions, stdout=subprocess.DEVNULL, stderr=subprocess.DEVNULL)
            _, _, usage = os.wait4(child.pid, 0)
            child.returncode = 0
        found = (usage.ru_utime + usage.ru_stime, usage.ru_maxrss / 1024)
        best = min(best or found, found)
    return best


def print_addresses(program):
    """Prints how many rows there are, and the addresses of up to 50,000 of them."""
    with subprocess.Popen([LINES, "rows", program], stdout=subprocess.PIPE) as listing:
        rows = array.array("Q", (int(it.split(None, 1)[0], 16) for it in listing.stdout if it.startswith(b"0x")))
    print(len(rows))
    for it in rows[:: max(1, len(rows) // 50000)]:
        print(hex(it))


def cell(command, given=None):
    """What a command took; empty where it isn't there."""
    if not shutil.which(command[0]):
        return ""
    seconds, memory = run(command, given)
    return f"{seconds:.2f} s, {memory:.0f} MB"


def measure(program):
    """Prints the lines of a program."""
    # A process of its own reads the rows: the memory of this one counts for those that it begins.
    asked = [sys.executable, __file__, "--addresses", program]
    count, *addresses = subprocess.run(asked, stdout=subprocess.PIPE, text=True).stdout.split()
    name = f"{os.path.basename(program)}, {int(count):,} rows"
    draw = random.Random(1)
    for count in (1,) if IS_ONE else (1, 1000, 100000):
        with tempfile.NamedTemporaryFile("w", delete=False) as file:
            file.write("\n".join(draw.choices(addresses, k=count)) + "\n")
        with open(file.name) as asked:
            first = asked.readline().strip()
        words = [first] if count == 1 else []
        given = None if count == 1 else file.name
        commands = (
            [LINES, "where", program, *words],
            ["addr2line", "-e", program, *words],
            ["eu-addr2line", "-e", program, *words],
            [newest("llvm-symbolizer"), "--no-inlines", "--functions=none", f"--obj={program}", *words],
        )
        work = "1 address" if count == 1 else f"{count:,} addresses"
        tell(name, work, *(cell(it, given) for it in commands), "", "")
        os.unlink(file.name)
    if IS_ONE:
        return
    rows = ["llvm-dwarfdump", "--debug-line", program], ["readelf", "--debug-dump=decodedline", program]
    tell(name, "all rows", cell([LINES, "rows", program]), "", "", "", *map(cell, rows))
    tell(name, "all rows in JSON", cell([LINES, "rows", "--json", program]), "", "", "", "", "")
    verify = cell(["llvm-dwarfdump", "--verify", "--debug-line", program])
    tell(name, "check", cell([LINES, "check", program]), "", "", "", verify, "")


def tell(*cells):
    print("| " + " | ".join(cells) + " |", flush=True)


if sys.argv[1:2] == ["--addresses"]:
    print_addresses(sys.argv[2])
else:
    tell("Program", "Work", "`lines`", "addr2line", "eu-addr2line", "llvm-symbolizer", "llvm-dwarfdump", "readelf")
    tell(*["---"] * 8)
    for it in sys.argv[1 + IS_ONE :]:
        measure(it)
