#!/usr/bin/env python3
"""Compares the program lines with addr2line, llvm-symbolizer and llvm-dwarfdump over the programs of a folder.

For each program NAME beside its NAME.line: `lines where` at the address of each row, and one byte after it, against
addr2line (path and line) and llvm-symbolizer (path, line and column); `lines units` against llvm-dwarfdump (offset, version,
format, files, sequences, rows and bytes of each unit). A tool that is not there is passed over, and told.

Paths are compared whole, in all versions. addr2line looks by .debug_info, so it knows no place where no function is: such an
answer (??) counts apart. A program that it refuses in part ("DWARF error") counts apart too: addr2line 2.40 takes the offsets of
.debug_line_str in the 64-bit format for others. It prints ? for the line 0. In version 5
it names other files than LLVM: where llvm-symbolizer is there, what addr2line says otherwise is counted, and is no failure.
"""
import os
import re
import shutil
import subprocess
import sys


def output(command, text=None):
    return subprocess.run(command, input=text, capture_output=True, text=True, check=False).stdout


def row_addresses(lines, program):
    found = set()
    for line in output([lines, "rows", program]).splitlines():
        if line.startswith("0x"):
            address = int(line.split()[0], 16)
            found.update((address, address + 1))
    return sorted(found)


def is_same_path(ours, theirs):
    return os.path.normpath(ours) == os.path.normpath(theirs)


def places(answer, columns):
    """Path, line and, where asked for, column of each line of an answer."""
    found = []
    for line in answer.splitlines():
        line = re.sub(r" \(discriminator \d+\)$", "", line)
        if line:
            path, *numbers = line.rsplit(":", 2 if columns else 1)
            found.append((path, *("0" if it == "?" else it for it in numbers)))
    return found


def compare_where(tool, command, lines, program, addresses, columns, tally):
    text = "".join(f"0x{address:x}\n" for address in addresses)
    ours = places(output([lines, "where", program], text), True)
    asked = subprocess.run(command, input=text, capture_output=True, text=True, check=False)
    if "DWARF error" in asked.stderr:
        tally["refused by it"] += len(addresses)
        return
    theirs = places(asked.stdout, columns)
    if len(ours) != len(addresses) or len(theirs) != len(addresses):
        print(f"{program}: {tool} answers {len(theirs)} of {len(addresses)}, lines {len(ours)}")
        tally["differ"] += 1
        return
    for address, our, their in zip(addresses, ours, theirs):
        if their[0].startswith("??"):
            tally["unknown to it"] += our[0] != "??"
            tally["same"] += our[0] == "??"
        elif len(our) == 3 and is_same_path(our[0], their[0]) and our[1:len(their)] == their[1:]:
            tally["same"] += 1
        else:
            tally["differ"] += 1
            print(f"{program} 0x{address:x}: lines {':'.join(our)}, {tool} {':'.join(their)}")


def dumped_units(program):
    """What llvm-dwarfdump prints of each unit, in the columns of `lines units` but for the address size."""
    units = []
    for line in output(["llvm-dwarfdump", "--debug-line", program]).splitlines():
        if match := re.match(r"debug_line\[(0x[0-9a-f]+)\]", line):
            units.append([int(match[1], 16), 0, "", 0, 0, 0, 0])
        elif match := re.match(r"\s+total_length: (0x[0-9a-f]+)", line):
            units[-1][6] += int(match[1], 16)
        elif match := re.match(r"\s+format: DWARF(32|64)", line):
            units[-1][2] = match[1] + "-bit"
            units[-1][6] += 4 if match[1] == "32" else 12
        elif match := re.match(r"\s+version: (\d+)", line):
            units[-1][1] = int(match[1])
        elif re.match(r"file_names\[", line):
            units[-1][3] += 1
        elif re.match(r"0x[0-9a-f]{16} ", line):
            units[-1][5] += 1
            units[-1][4] += line.endswith("end_sequence")
    return units


def listed_units(lines, program):
    units = []
    for line in output([lines, "units", program]).splitlines()[1:]:
        offset, version, form, _, files, sequences, rows, size = line.split()
        units.append([int(offset, 16), int(version), form, int(files), int(sequences), int(rows), int(size)])
    return units


def main():
    lines, folder = sys.argv[1:]
    programs = sorted(name[:-5] for name in os.listdir(folder) if name.endswith(".line"))
    tallies = {}
    tools = {
        "addr2line": (lambda program: ["addr2line", "-e", program], False),
        "llvm-symbolizer": (
            lambda program: ["llvm-symbolizer", f"--obj={program}", "--no-inlines", "--functions=none"],
            True,
        ),
    }
    for tool, (command, columns) in tools.items():
        if not shutil.which(tool):
            print(f"{tool} is not there")
            continue
        tally = tallies[f"where, {tool}"] = {"same": 0, "differ": 0, "unknown to it": 0, "refused by it": 0}
        for name in programs:
            program = os.path.join(folder, name)
            addresses = row_addresses(lines, program)
            compare_where(tool, command(program), lines, program, addresses, columns, tally)
    if shutil.which("llvm-dwarfdump"):
        tally = tallies["units, llvm-dwarfdump"] = {"same": 0, "differ": 0}
        for name in programs:
            program = os.path.join(folder, name)
            theirs, ours = dumped_units(program), listed_units(lines, program)
            tally["same" if ours == theirs else "differ"] += 1
            if ours != theirs:
                print(f"{program}: lines {ours}, llvm-dwarfdump {theirs}")
    for name, tally in tallies.items():
        print(f"{name}: " + ", ".join(f"{count} {word}" for word, count in tally.items()))
    if "where, llvm-symbolizer" in tallies:
        tallies.pop("where, addr2line", None)
    sys.exit(any(tally["differ"] for tally in tallies.values()))


main()
