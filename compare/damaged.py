#!/usr/bin/env python3
"""Asks `lines` of damaged programs: each must end by itself, with status 0 or 1, in time and memory that go by the file's size.

    compare/damaged.py [--first N] COUNT PROGRAM [WORD..]

PROGRAM, with the WORDs before its own, is a `lines` that is built with whatever checks are wanted. Of each damaged program `where`,
`check` and `index` are asked, and in turn one of the other commands. gcc and objcopy make the whole ones here: linked programs of
versions 2 to 5, an object file, both forms of compressed sections, and a file of split DWARF. The damage goes by the number of the
program alone, from --first on, 0 if unsaid: so a number tells it again. It is in the header of ELF and its section table, in one
section of debug information or its compressed stream, or anywhere: one to eight bytes are changed, a number of two, four or eight
bytes is made small or great, bytes are taken out, or the file is cut.
A run may take 10 seconds and a microsecond a byte, and 64 MiB beside what the runs of whole programs take, and 2,048 bytes a byte.
What doesn't hold is printed with its number and its words, and kept as damaged-NUMBER in this folder. The last line is 'N programs,
M runs, K not as wanted'; the status is 1 where a run is not. Outside the gate.
"""
import concurrent.futures
import os
import random
import re
import subprocess
import sys
import tempfile

SOURCE = '#include "twice.h"\nint square(int x)\n{\n    return x * twice(x);\n}\nint main(void) { return square(3); }\n'
HEADER = "static inline __attribute__((always_inline)) int twice(int x) { return x + x; }\n"
OTHERS = (
    "units", "files", "rows", "rows --json", "stat", "at square.c:4", "at square --after-prologue", "source square", "diff new",
)  # fmt: skip
WHOLE = {
    **{f"version-{it}": f"gcc -g -gdwarf-{it} -O1 square.c -o" for it in (2, 3, 4, 5)},
    "relative": "gcc -g -gdwarf-5 -ffile-prefix-map=DIR=. square.c -o",
    "compressed": "gcc -g -gdwarf-4 -gz=zlib square.c -o",
    "compressed-5": "gcc -g -gz=zlib square.c -o",
    "compressed-old": "gcc -g -gz=zlib-gnu square.c -o",
    "object": "gcc -g -ffunction-sections -c square.c -o",
    "split": "gcc -g -gsplit-dwarf -fdebug-types-section -c square.c -o",
}
MEMORY, MEMORY_A_BYTE, SECONDS = 64 << 20, 2048, 10


def built(folder):
    """The whole programs by their names."""
    for name, text in (("square.c", SOURCE), ("twice.h", HEADER)):
        with open(f"{folder}/{name}", "w") as file:
            file.write(text)
    found = {}
    for name, command in WHOLE.items():
        command = [it.replace("DIR", folder) for it in command.split()]
        if subprocess.run([*command, name], cwd=folder, capture_output=True).returncode == 0:
            path = f"{folder}/{name}.dwo" if os.path.exists(f"{folder}/{name}.dwo") else f"{folder}/{name}"
            found[name] = open(path, "rb").read()
    return found


def parts(data):
    """The ranges of a whole program of 64 bits where damage tells: its header, its section table, each section of debug
    information and of symbols, those of lines more often, and the whole."""

    def number(at, size):
        return int.from_bytes(data[at : at + size], "little")

    table, count, names = number(40, 8), number(60, 2), number(62, 2)
    ranges = [(0, 64), (table, table + 64 * count)]
    start = number(table + 64 * names + 24, 8)
    for at in range(table, table + 64 * count, 64):
        name = re.match(rb"[^\0]*", data[start + number(at, 4) :])[0]
        if re.match(rb"\.z?debug_|\.symtab|\.strtab|\.shstrtab|\.rela\.debug_line|\.note", name) and number(at + 32, 8):
            weight = 6 if b"debug_line" in name else 2 if b"debug_info" in name or b"abbrev" in name else 1
            ranges += weight * [(number(at + 24, 8), number(at + 24, 8) + number(at + 32, 8))]
    return [*ranges, (0, len(data))]


def damaged(data, ranges, draw):
    """A program with damage in one of the ranges."""
    data, (low, high) = bytearray(data), draw.choice(ranges)
    kind = draw.randrange(8)
    if kind < 4:
        for _ in range(draw.randint(1, 8)):
            data[draw.randrange(low, high)] = draw.choice((0, 1, 0x7F, 0x80, 0xFF, draw.randrange(256)))
    elif kind < 6:
        size, at = draw.choice((2, 4, 8)), draw.randrange(low, high)
        wanted = draw.choice((draw.randrange(256), (1 << 8 * size) - 1 - draw.randrange(256), 1 << draw.randrange(8 * size)))
        data[at : at + size] = wanted.to_bytes(size, "little")
    elif kind == 6:
        at = draw.randrange(low, high)
        del data[at : at + draw.randint(1, 16)]
    else:
        del data[draw.randrange(low, high) :]
    return bytes(data)


def run(words, folder):
    """The status, the processor time and the greatest memory of a command, which has a minute, and the end of what it said."""
    with tempfile.TemporaryFile() as told:
        how = {"cwd": folder, "stdin": subprocess.DEVNULL, "stdout": subprocess.DEVNULL, "stderr": told}
        child = subprocess.Popen(["timeout", "-s", "KILL", "60", *words], **how)
        _, status, usage = os.wait4(child.pid, 0)
        child.returncode = os.waitstatus_to_exitcode(status)
        told.seek(0)
        text = told.read()[-2000:].decode("utf8", "replace")
    return child.returncode, usage.ru_utime + usage.ru_stime, usage.ru_maxrss << 10, text


def commands(number):
    """What is asked of the program of a number, with FILE in the place of its name."""
    command, *words = OTHERS[number % len(OTHERS)].split()
    asked = ["where", "FILE", "1139", "square+0x4", ".text.square+0x4"]
    return [asked, ["check", "FILE"], ["index", "FILE", "-o", "-"], [command, "FILE", *words]]


class Trial:
    def __init__(self, program, folder):
        self.program, self.folder, self.whole = program, folder, built(folder)
        self.ranges = {name: parts(data) for name, data in self.whole.items()}
        self.least = 0
        for name, data in self.whole.items():
            for number in range(len(OTHERS)):
                self.least = max(self.least, *(self.asked(it, name, data)[2] for it in commands(number)))

    def asked(self, words, name, data):
        """What a command does with a program of these bytes."""
        with tempfile.TemporaryDirectory(dir=self.folder) as folder:
            for it in ("a", "new"):
                with open(f"{folder}/{it}", "wb") as file:
                    file.write(data if it == "a" else self.whole[name])
            return run([*self.program, *("a" if it == "FILE" else it for it in words)], folder)

    def tried(self, number):
        """Runs the commands over the damaged program of a number, and returns what isn't as wanted."""
        draw = random.Random(number)
        name = draw.choice(sorted(self.whole))
        data, wrong = damaged(self.whole[name], self.ranges[name], draw), []
        for words in commands(number):
            status, seconds, memory, text = self.asked(words, name, data)
            is_slow = seconds > SECONDS + len(data) / 1e6
            is_large = memory > self.least + MEMORY + MEMORY_A_BYTE * len(data)
            if status not in (0, 1) or is_slow or is_large or "Sanitizer" in text:
                wrong.append(f"{number}, {name}: {' '.join(words)}: status {status}, {seconds:.1f} s, {memory >> 20} MiB: {text}")
        if wrong:
            with open(f"damaged-{number}", "wb") as file:
                file.write(data)
        return wrong


def main(words):
    first = int(words[1]) if words[0] == "--first" else 0
    count, *program = words[2:] if words[0] == "--first" else words
    program[0] = os.path.realpath(program[0])
    runs = wrong = 0
    with tempfile.TemporaryDirectory() as folder, concurrent.futures.ThreadPoolExecutor(os.cpu_count()) as lanes:
        trial = Trial(program, folder)
        for found in lanes.map(trial.tried, range(first, first + int(count))):
            runs, wrong = runs + len(commands(0)), wrong + len(found)
            for it in found:
                print(it, flush=True)
    print(f"{int(count)} programs, {runs} runs, {wrong} not as wanted")
    sys.exit(wrong > 0)


if __name__ == "__main__":
    main(sys.argv[1:])
