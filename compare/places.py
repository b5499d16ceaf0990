#!/usr/bin/env python3
"""Asks `lines where` and its peers for the place of every address of code of programs; compare/places.sh has the rules.

    places.py [--columns] [--each] LINES PROGRAM..

Of more than a million addresses, or PLACES, that many are chosen at random, always the same. A program's lines are in
PROGRAM.debug, where there is such a file.
"""
import array
import bisect
import collections
import itertools
import os
import random
import re
import subprocess
import sys
import tempfile

# Of an object file its section .text is asked; `lines` gets such addresses as .text+0x10.
OBJECT_SECTION = ".text"


def newest(tool):
    """The name of the newest version of an LLVM tool that is there: its own, or with a number after it."""
    names = (it for at in filter(os.path.isdir, os.get_exec_path()) for it in os.listdir(at))
    numbers = {int(it.rpartition("-")[2]) for it in names if re.fullmatch(rf"{tool}-\d+", it)}
    return f"{tool}-{max(numbers)}" if numbers else tool


PEERS = {
    "addr2line": lambda program, flags: ["addr2line", *flags, "-e", program],
    "eu-addr2line": lambda program, flags: ["eu-addr2line", "-A", *flags, "-e", program],
    "llvm-symbolizer": lambda program, _: [newest("llvm-symbolizer"), f"--obj={program}", "--no-inlines", "--functions=none"],
}
SHORT = {"lines": "l", "addr2line": "a", "eu-addr2line": "e", "llvm-symbolizer": "s"}
PAIRS = list(itertools.combinations(SHORT, 2))
ANSWER = re.compile(r"(.*?):(\d+|\?)(?::(\d+))?(?: \(discriminator \d+\))?$")
NOWHERE = (None, 0, 0)
NO_LINE = -1
NO_RULE = "no rule explains it"
# A row, with the path of its file where directories of version 5 are joined to DW_AT_comp_dir, both paths of file 0 where its unit
# is of version 5 and its sequence has named no file but 1 so far, and whether the sequence before, in its unit, was dropped and
# has addresses that go down.
Row = collections.namedtuple("Row", "path line column joined file_zero follows_dropped")


def ran(command, **how):
    return subprocess.run(command, capture_output=True, text=True, errors="surrogateescape", check=False, **how)


class Code:
    """The sections of code of a file, as readelf prints them."""

    def __init__(self, program):
        header = ran(["readelf", "-hSW", program]).stdout
        self.has_old_ranges, self.has_old_lines = ".zdebug_rnglists" in header, ".zdebug_line" in header
        self.is_object = "REL (Relocatable" in header
        self.parts, self.starts, self.count = [], [], 0
        for name, low, size in re.findall(r"\] (\S+) +(?:PROGBITS|NOBITS) +(\w+) \w+ (\w+) \w+ +\w*X", header):
            if int(size, 16) and (not self.is_object or name == OBJECT_SECTION):
                self.parts.append((int(low, 16), int(low, 16) + int(size, 16)))
                self.starts.append(self.count)
                self.count += int(size, 16)
        self.lowest = min(self.parts, default=(0, 0))[0]

    def chosen(self, most):
        places = range(self.count) if self.count <= most else sorted(random.Random(1).sample(range(self.count), most))
        parts = (bisect.bisect_right(self.starts, place) - 1 for place in places)
        return [self.parts[part][0] + place - self.starts[part] for place, part in zip(places, parts)]


class Ranges:
    """Stretches of addresses, with a value for each."""

    def __init__(self):
        self.lows, self.highs, self.values = array.array("Q"), array.array("Q"), []

    def add(self, low, high, value):
        self.lows.append(low)
        self.highs.append(high)
        self.values.append(value)

    def sort(self):
        order = sorted(range(len(self.lows)), key=self.lows.__getitem__)
        self.lows, self.highs = (array.array("Q", map(it.__getitem__, order)) for it in (self.lows, self.highs))
        self.values = [self.values[it] for it in order]
        self.reach = array.array("Q", itertools.accumulate(self.highs, max))
        return self

    def end_before(self, address):
        it = bisect.bisect_right(self.lows, address) - 1
        return self.reach[it] if it >= 0 else 0

    def at(self, address):
        """The values of all stretches that have an address, the last one first."""
        found, it = [], bisect.bisect_right(self.lows, address) - 1
        while it >= 0 and self.reach[it] > address:
            if self.highs[it] > address:
                found.append(self.values[it])
            it -= 1
        return found


class Table:
    """What llvm-dwarfdump prints of a file: rows, ranges of units, and ranges of .debug_aranges."""

    def __init__(self, program, code):
        self.lowest, self.has_old_ranges, self.has_old_lines = code.lowest, code.has_old_ranges, code.has_old_lines
        self.folders, self.paths, self.known = {}, {}, {}
        self.at_ends = collections.defaultdict(set)
        self.rows, self.unit_ranges, self.listed = Ranges(), Ranges(), Ranges()
        for unit in ran(["llvm-dwarfdump", "--debug-info", "--recurse-depth=0", program]).stdout.split("Unit: ")[1:]:
            place, folder = re.search(r"DW_AT_stmt_list\s+\((\w+)", unit), re.search(r'DW_AT_comp_dir\s+\("(.*)"', unit)
            if place:
                self.folders[int(place[1], 16)] = folder[1] if folder else ""
            for low, high in re.findall(r"\[0x(\w+), 0x(\w+)\)", unit) + re.findall(
                r"DW_AT_low_pc\s+\(0x(\w+)\)\s+DW_AT_high_pc\s+\(0x(\w+)\)", unit
            ):
                self.unit_ranges.add(int(low, 16), int(high, 16), True)
        dumped = ran(["llvm-dwarfdump", "--debug-aranges", program]).stdout
        for low, high in re.findall(r"\[0x(\w+), 0x(\w+)\)", dumped):
            self.listed.add(int(low, 16), int(high, 16), True)
        self.read_rows(program)
        for it in (self.rows, self.unit_ranges, self.listed):
            it.sort()

    def read_rows(self, program):
        dump = subprocess.Popen(
            ["llvm-dwarfdump", "--debug-line", program],
            stdout=subprocess.PIPE, stderr=subprocess.DEVNULL, text=True, errors="surrogateescape",
        )  # fmt: skip
        kept, unit, number = [], None, 0
        for line in dump.stdout:
            if line.startswith("0x"):
                kept.append(line.split(None, 5))
                if line.endswith("end_sequence\n"):
                    self.keep(kept, unit)
                    kept = []
            elif match := re.match(r"debug_line\[(0x\w+)\]", line):
                unit, kept = {"at": int(match[1], 16), "version": 0, "dirs": {}, "files": {}, "dropped": False}, []
            elif match := re.match(r"\s+version: (\d+)", line):
                unit["version"] = int(match[1])
            elif match := re.match(r'include_directories\[ *(\d+)\] = "(.*)"', line):
                unit["dirs"][int(match[1])] = match[2]
            elif match := re.match(r"file_names\[ *(\d+)\]", line):
                number = int(match[1])
            elif match := re.match(r'\s+name: "(.*)"', line):
                unit["files"][number] = [match[1], 0]
            elif match := re.match(r"\s+dir_index: (\d+)", line):
                unit["files"][number][1] = int(match[1])
        dump.wait()

    def keep(self, rows, unit):
        """Adds the stretches of a sequence. What lies below the lowest code of the file was dropped."""
        places = [int(row[0], 16) for row in rows]
        follows_dropped, is_first = unit["dropped"], unit["version"] == 5
        unit["dropped"] = min(places) < self.lowest and places != sorted(places)
        for row, low, high in zip(rows, places, places[1:]):
            is_first = is_first and row[3] == "1"
            if self.lowest <= low:
                key = (unit["at"], *row[1:4], is_first, follows_dropped)
                if key not in self.known:
                    zero = self.path(unit, 0) if is_first else ()
                    path, joined = self.path(unit, int(row[3]))
                    self.known[key] = Row(path, int(row[1]), int(row[2]), joined, zero, follows_dropped)
                if low < high:
                    self.rows.add(low, high, self.known[key])
                elif low == places[-1]:
                    self.at_ends[low].add(self.known[key][:2])

    def path(self, unit, number):
        """The path of a file (DWARF 5, section 6.2.4), and by the rule of tools that join all to DW_AT_comp_dir. Directory 0 of version 5
        is that of the compilation; up to version 4, or where it is empty, DW_AT_comp_dir is."""
        key = (unit["at"], number)
        if key not in self.paths:
            name, directory = unit["files"].get(number, ("", 0))
            folder, own = self.folders.get(unit["at"], ""), unit["dirs"].get(directory, "")
            parts = (folder, own)
            if unit["version"] == 5:
                parts = (unit["dirs"].get(0) or folder, own if directory else "")
            self.paths[key] = tuple(os.path.normpath(os.path.join(*it, name)) for it in (parts, (folder, own)))
        return self.paths[key]

    def says(self, answer, rows):
        return answer == NOWHERE and not rows or any(answer[:2] == row[:2] for row in rows)

    def fault(self, peer, address, answer, rows):
        """The rule that tells why a peer says something else than `lines`, which says what a row says."""
        if self.says(answer, rows):
            return "another of the rows that cover the address" if len(rows) > 1 else None
        lines = {row.line for row in rows}
        if any(answer[:2] == (row.joined, row.line) for row in rows):
            return "directory of version 5 joined to DW_AT_comp_dir"
        if peer == "addr2line" and answer[1] == NO_LINE and not rows:
            return "a file without a line where no row is"
        if peer == "addr2line" and answer[1] == NO_LINE and 0 in lines:
            return "`?` for a row of line 0"
        if peer == "addr2line" and (answer == NOWHERE or answer[1] == NO_LINE) and self.has_old_ranges:
            return "no line where the ranges stand in .zdebug_rnglists"
        if peer == "addr2line" and any(answer[0] in row.file_zero and answer[1] == row.line for row in rows):
            return "file 0 for file 1 of version 5"
        if peer == "eu-addr2line" and answer == NOWHERE and not self.listed.at(address):
            return "no place outside .debug_aranges"
        if peer == "eu-addr2line" and not rows and answer[:2] in self.at_ends[self.rows.end_before(address)]:
            return "a row at the end of its sequence covers the gap after it"
        if peer == "llvm-symbolizer" and answer == NOWHERE and self.has_old_lines:
            return "no place by .zdebug_line"
        if peer == "llvm-symbolizer" and answer == NOWHERE and not self.unit_ranges.at(address):
            return "no place outside the units' ranges"
        return None

    def own_fault(self, answer, rows):
        """The known cause for which the answer of `lines` is not the table's."""
        if answer == NOWHERE and any(row.follows_dropped for row in rows):
            return "code merged with dropped code is lost"
        if answer[0] and any(answer[1] == row.line and row.path.endswith("/" + answer[0].lstrip("./")) for row in rows):
            return "a relative path stays relative"
        return None


def answers(text, count):
    """The path (None where it isn't known), the line and the column of each answer; or None."""
    known, found = {}, []
    for line in filter(None, text.splitlines()):
        if line not in known:
            match = ANSWER.match(line)
            if not match or match[1].startswith("??"):
                known[line] = NOWHERE if match else (line, NO_LINE, 0)
            else:
                number = NO_LINE if match[2] == "?" else int(match[2])
                known[line] = (os.path.normpath(match[1]), number, int(match[3] or 0))
        found.append(known[line])
    return found if len(found) == count else None


def asked(command, words, addresses):
    with tempfile.TemporaryFile() as given:
        given.write("".join(words % it + "\n" for it in addresses).encode())
        given.seek(0)
        told = ran(command, stdin=given)
    found = answers(told.stdout, len(addresses))
    return found, (told.stderr.splitlines() or [f"status {told.returncode}"])[0].replace(command[-1], "FILE")


def shown(answer):
    path, line, column = answer
    return "??" if path is None else f"{path}:{'?' if line == NO_LINE else line}" + f":{column}" * (column > 0)


class Comparison:
    def __init__(self, lines, options):
        self.lines, self.options = lines, options
        self.faults, self.causes, self.total = (collections.Counter() for _ in range(3))

    def agree(self, one, other):
        is_same = one[:2] == other[:2]
        return is_same and not ("--columns" in self.options and one[2] and other[2] and one[2] != other[2])

    def program(self, program):
        code = Code(program)
        addresses = code.chosen(int(os.environ.get("PLACES", "1000000")))
        found, silent = {}, {}
        for tool in SHORT:
            if tool == "lines":
                command, words = [self.lines, "where", program], f"{OBJECT_SECTION}+0x%x" if code.is_object else "0x%x"
            else:
                command, words = PEERS[tool](program, ["-j", OBJECT_SECTION] * code.is_object), "0x%x"
            found[tool], why = asked(command, words, addresses)
            if found[tool] is None:
                silent[tool] = why
        beside = program + ".debug"
        table = Table(beside if os.path.exists(beside) else program, code)
        pairs, differ, groups = collections.Counter(), 0, {}
        given = [found[tool] or itertools.repeat(None, len(addresses)) for tool in SHORT]
        for address, *told in zip(addresses, *given):
            if None not in told and len({it[:2] for it in told}) == 1 and "--columns" not in self.options:
                pairs["all"] += 1
                continue
            differ += self.compare(address, dict(zip(SHORT, told)), table, pairs, groups, silent)
        self.row(program, len(addresses), [pairs["all"] + pairs[pair] for pair in PAIRS], differ)
        for tool, why in silent.items():
            print(f"    {tool}: no answer: {why}")
        self.print_groups(groups)

    def compare(self, address, told, table, pairs, groups, silent):
        """Counts the pairs that agree and the differences by their causes; whether two peers agree on another answer."""
        for pair in PAIRS:
            one, other = (told[it] for it in pair)
            pairs[pair] += bool(one and other and self.agree(one, other))
        ours, peers = told["lines"], {peer: told[peer] for peer in PEERS if told[peer]}
        votes = collections.Counter(it[:2] for it in peers.values()).most_common(1)
        is_major = bool(votes) and votes[0][1] > 1 and (ours is None or ours[:2] != votes[0][0])
        if ours is None:
            self.causes["no answer: " + silent["lines"]] += 1
            return is_major
        rows, causes = table.rows.at(address), set()
        for peer in (it for it in peers if not self.agree(ours, peers[it])):
            if not table.says(ours, rows):
                causes.add(table.own_fault(ours, rows) or NO_RULE)
            elif fault := table.fault(peer, address, peers[peer], rows):
                self.faults[f"{peer}: {fault}"] += 1
            else:
                causes.add(NO_RULE)
        self.causes.update(causes)
        for cause in causes:
            groups.setdefault(cause, []).append((address, told, rows))
        return is_major

    def print_groups(self, groups):
        """Each difference; addresses that follow one another with the same answers are one."""
        for cause, found in groups.items():
            merged = []
            for address, told, rows in found:
                if merged and merged[-1][1] == address and merged[-1][2] == told:
                    merged[-1][1] = address + 1
                else:
                    merged.append([address, address + 1, told, rows])
            print(f"    {cause}: {len(found)} addresses, {len(merged)} stretches")
            for low, high, told, rows in merged if "--each" in self.options else merged[:3]:
                said = ", ".join(f"{tool} {shown(answer)}" for tool, answer in told.items() if answer)
                rows = " ".join(shown(row[:3]) for row in rows) or "none"
                print(f"        0x{low:x} ({high - low}): {said}; rows {rows}")

    def row(self, program, count, agreed, differ):
        self.total.update(dict(zip(("count", *PAIRS, "differ"), (count, *agreed, differ))))
        print(f"{os.path.basename(program):36}" + "".join(f"{it:9}" for it in (count, *agreed, differ)), flush=True)


def main():
    options = [it for it in sys.argv[1:] if it.startswith("--")]
    lines, *programs = [it for it in sys.argv[1:] if not it.startswith("--")]
    print("On how many addresses two agree: l is lines, a addr2line, e eu-addr2line, s llvm-symbolizer.")
    print("majority: on how many two peers agree, and lines differs")
    titles = ["asked", *(f"{SHORT[it]}={SHORT[to]}" for it, to in PAIRS), "majority"]
    print(f"{'program':36}" + "".join(f"{it:>9}" for it in titles), flush=True)
    comparison = Comparison(lines, options)
    for program in programs:
        comparison.program(program)
    total = comparison.total
    print(f"{'total':36}" + "".join(f"{total[it]:9}" for it in ("count", *PAIRS, "differ")))
    for title, counts in (
        ("known faults of peers, where lines says what the rows say", comparison.faults),
        ("addresses at which lines is wrong, or no rule explains a peer", comparison.causes),
    ):
        print(f"{title}: {sum(counts.values())}")
        for name, count in counts.most_common():
            print(f"{count:10}  {name}")
    sys.exit(bool(comparison.causes))


if __name__ == "__main__":
    main()
