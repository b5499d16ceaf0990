"""Compares rows: linetool's against llvm-dwarfdump's and readelf's. Arguments: the program linetool, and a folder in
which each NAME.line is the section .debug_line of the executable NAME."""

import pathlib
import re
import subprocess
import sys

# linetool's flags, by the words that llvm-dwarfdump has for them.
FLAGS = {
    "is_stmt": "s",
    "basic_block": "b",
    "end_sequence": "e",
    "prologue_end": "p",
    "epilogue_begin": "q",
}


def lines_of(*command):
    """The lines that a command prints, which must end well."""
    done = subprocess.run(command, capture_output=True, text=True, check=True)
    return done.stdout.splitlines()


def dumped_units(executable):
    """The units of llvm-dwarfdump: pairs of an offset and rows (address, line, column, file, isa, discriminator, flags)."""
    units = []
    for line in lines_of("llvm-dwarfdump", "--debug-line", executable):
        begun = re.match(r"debug_line\[0x([0-9a-f]+)\]", line)
        if begun:
            units.append((int(begun[1], 16), []))
            continue
        row = re.match(r"0x([0-9a-f]{16}) +(\d+) +(\d+) +(\d+) +(\d+) +(\d+) *(.*)$", line)
        if row:
            flags = sorted(FLAGS[word] for word in row[7].split())
            units[-1][1].append((int(row[1], 16), *(int(n) for n in row.groups()[1:6]), "".join(flags)))
    return units


def printed_rows(program, section, offset):
    """The rows of linetool, in the same form."""
    rows = []
    for line in lines_of(program, "rows", section, "little", "8", str(offset)):
        address, operation, file, number, column, isa, discriminator, flags = line.split()
        assert operation == "0", line
        flags = "".join(sorted(flags.replace("-", "")))
        rows.append((int(address, 16), int(number), int(column), int(file), int(isa), int(discriminator), flags))
    return rows


def decoded_rows(executable):
    """The rows of readelf: (address, line, whether it is a statement), the line None at the end of a sequence."""
    rows = []
    for line in lines_of("readelf", "--wide", "--debug-dump=decodedline", executable):
        row = re.match(r"\S+ +(\d+|-) +(0x[0-9a-f]+|0)(?: +\d+)?( +x)?(?: +END)?\s*$", line)
        if row:
            number = None if row[1] == "-" else int(row[1])
            rows.append((int(row[2], 16), number, row[3] is not None))
    return rows


def compare(name, theirs, ours, tool):
    """Prints each place where two lists differ, and answers how many rows agree."""
    agree = 0
    for place in range(max(len(theirs), len(ours))):
        their = theirs[place] if place < len(theirs) else None
        our = ours[place] if place < len(ours) else None
        if their == our:
            agree += 1
        else:
            print(f"{name}: row {place}: linetool {our}, {tool} {their}")
    return agree


def main(program, folder):
    """Compares all programs of a folder."""
    of_dump = of_readelf = total = 0
    for section in sorted(pathlib.Path(folder).glob("*.line")):
        executable = section.with_suffix("")
        whole = []
        for offset, theirs in dumped_units(executable):
            ours = printed_rows(program, section, offset)
            of_dump += compare(f"{executable.name} unit {offset}", theirs, ours, "llvm-dwarfdump")
            whole += ours
        total += len(whole)
        ends = [(row[0], None if "e" in row[6] else row[1], "s" in row[6] and "e" not in row[6]) for row in whole]
        of_readelf += compare(executable.name, decoded_rows(executable), ends, "readelf")
    print(f"{total} rows: {of_dump} agree with llvm-dwarfdump, {of_readelf} with readelf")
    return 0 if of_dump == of_readelf == total > 0 else 1


if __name__ == "__main__":
    sys.exit(main(sys.argv[1], sys.argv[2]))
