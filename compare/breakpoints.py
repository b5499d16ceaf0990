#!/usr/bin/env python3
"""Where code of each line of a program begins, worked out here from the rows that llvm-dwarfdump prints, by the rule of docs/reference/INDEX.md.

    breakpoints.py asked PROGRAM                     a line 'LINE PATH' for each line of each file that has rows, and the one after the last
    breakpoints.py check PROGRAM ASKED ANSWERS       compares the answers to these, each the line that has code and its addresses, or 'none'
    breakpoints.py gdb PROGRAM LINES ANSWERED FILE:COUNT..
                                                     each address at which gdb sets a breakpoint for the lines 1 to COUNT of a file is among
                                                     the answers that the command ANSWERED gives for this line, or for the one that gdb
                                                     moved to; or among those of LINES, the program `lines`, past the prologue

The last line says how many lines agree, how many addresses were lost and how many invented; the status is 1 where one was.
"""
import bisect
import re
import subprocess
import sys
from collections import defaultdict


def printed(*words, **more):
    return subprocess.run(words, check=True, capture_output=True, text=True, errors="surrogateescape", **more).stdout


def components(path):
    """The components of a path; the root is an empty one."""
    found = [""] if path[:1] in ("/", "\\") else []
    for one in re.split(r"[/\\]", path):
        if one in ("", "."):
            continue
        if one != ".." or not found or found[-1] == "..":
            found.append(one)
        elif found[-1] != "":
            found.pop()
    return found


def joined(directory, name):
    return name if name.startswith("/") or not directory else f"{directory.rstrip('/')}/{name}"


def code_of(program):
    """The addresses of code: a linker leaves rows of functions that it dropped outside of them."""
    loaded = re.findall(r"^ +LOAD +\S+ (0x\S+) \S+ \S+ (0x\S+) (.{3})", printed("readelf", "-lW", program), re.M)
    return [(int(at, 16), int(at, 16) + int(size, 16)) for at, size, flags in loaded if "E" in flags]


def directories_of(program):
    """The directory of each compilation, by the offset of its line program: up to version 4 a header doesn't have it."""
    found, fields = {}, {}
    for line in printed("llvm-dwarfdump", "--debug-info", "--recurse-depth=0", program).splitlines() + ["0x0: DW_TAG"]:
        if "DW_TAG" in line:
            if "stmt_list" in fields and "comp_dir" in fields:
                found.setdefault(int(fields["stmt_list"], 16), fields["comp_dir"])
            fields = {}
        told = re.match(r'^\s+DW_AT_(stmt_list|comp_dir)\s+\("?(.*?)"?\)$', line)
        if told:
            fields[told[1]] = told[2]
    return found


class Unit:
    def __init__(self, offset, directory):
        self.version, self.directory, self.directories, self.names = 0, directory, {}, {}

    def path_of(self, number):
        name, directory = self.names.get(number, (None, 0))
        if name is None:
            return None
        if self.version >= 5:
            first = self.directories.get(0, "") or self.directory
            own = self.directories.get(directory)
            return None if own is None else joined(joined(first, own) if directory else first, name)
        if directory == 0:
            return joined(self.directory, name)
        own = self.directories.get(directory)
        return None if own is None else joined(joined(self.directory, own), name)


def sequences_of(program):
    """The rows of each sequence of code: address, line, file's path, whether it is a statement."""
    directories, code = directories_of(program), code_of(program)
    unit, rows, name, paths = None, [], None, {}
    ran = subprocess.Popen(["llvm-dwarfdump", "--debug-line", program], stdout=subprocess.PIPE, text=True, errors="surrogateescape")
    for line in ran.stdout:
        if line.startswith("0x"):
            words = line.split()
            number = int(words[3])
            if number not in paths:
                paths[number] = unit.path_of(number)
            end = "end_sequence" in words
            rows.append((int(words[0], 16), int(words[1]), paths[number], "is_stmt" in words, end))
            if end:
                if any(first <= rows[0][0] < last for first, last in code):
                    yield rows
                rows = []
            continue
        begins = re.match(r"debug_line\[(0x[0-9a-f]+)\]", line)
        if begins:
            unit, rows, paths = Unit(int(begins[1], 16), directories.get(int(begins[1], 16), "")), [], {}
        elif "version: " in line and unit:
            unit.version = unit.version or int(line.split()[-1])
        elif line.startswith("include_directories["):
            told = re.match(r'include_directories\[ *(\d+)\] = "(.*)"$', line)
            unit.directories[int(told[1])] = told[2]
        elif line.startswith("file_names["):
            number = int(re.match(r"file_names\[ *(\d+)\]", line)[1])
        elif line.lstrip().startswith("name: "):
            name = re.match(r'\s+name: "(.*)"$', line)[1]
        elif line.lstrip().startswith("dir_index: "):
            unit.names[number] = (name, int(line.split()[-1]))
    if ran.wait() != 0:
        sys.exit(f"breakpoints: llvm-dwarfdump doesn't read {program}")


def statements_of(program):
    """The addresses of each line of each path: of each run of rows of that line of one path, that of the first statement."""
    found = defaultdict(lambda: defaultdict(set))
    for rows in sequences_of(program):
        before, given = None, False
        for address, line, path, is_stmt, end in rows:
            if (path, line) != before:
                before, given = (path, line), False
            if is_stmt and not end and not given and line and path is not None:
                found[path][line].add(address)
                given = True
    return found


class Rule:
    """What the rule says of a line of a path, over all files that the path names."""

    def __init__(self, program):
        self.lines, self.kept = statements_of(program), {}
        self.paths = {path: components(path) for path in self.lines}

    def of_path(self, path):
        if path not in self.kept:
            end, all_lines = components(path), defaultdict(set)
            for own, parts in self.paths.items():
                if end and parts[-len(end):] == end:
                    for line, addresses in self.lines[own].items():
                        all_lines[line] |= addresses
            self.kept[path] = sorted(all_lines), all_lines
        return self.kept[path]

    def answer(self, path, line):
        numbers, lines = self.of_path(path)
        at = bisect.bisect_left(numbers, max(line, 1))
        return (None, []) if at == len(numbers) else (numbers[at], sorted(lines[numbers[at]]))


def ask(program):
    lines = statements_of(program)
    for path in sorted(lines):
        for line in range(max(lines[path]) + 2):
            print(line, path)
        # By the last component alone, a path may name several files.
        name = path.rsplit("/", 1)[-1]
        for line in sorted(lines[path]):
            print(line, name)


def check(program, asked, answers):
    rule, agree, lost, invented, count = Rule(program), 0, 0, 0, 0
    with open(asked, errors="surrogateescape") as first, open(answers, errors="surrogateescape") as second:
        for question, answer in zip(first, second, strict=True):
            line, path = question.rstrip("\n").split(" ", 1)
            wanted_line, wanted = rule.answer(path, int(line))
            words = answer.split()
            found_line, found = (None, []) if words == ["none"] else (int(words[0]), [int(it, 16) for it in words[1:]])
            count += 1
            if (found_line, found) == (wanted_line, wanted):
                agree += 1
                continue
            lost += len(set(wanted) - set(found))
            invented += len(set(found) - set(wanted))
            print(f"{path}:{line}: wanted {wanted_line} {[hex(it) for it in wanted]}, found {found_line} {[hex(it) for it in found]}")
    print(f"{program}: {agree} of {count} lines agree, {lost} addresses lost, {invented} invented")
    sys.exit(int(agree != count))


def answers_of(answered, asked):
    """The addresses that a command gives for lines of files."""
    given = "".join(f"{line} {name}\n" for name, line in asked)
    told = subprocess.run(answered.split(), input=given, capture_output=True, text=True, check=True).stdout
    return {it: {int(word, 16) for word in line.split()[1:]} for it, line in zip(asked, told.splitlines(), strict=True)}


def past_prologue(program, lines, name, line):
    """The addresses that `lines` prints for a line, past prologues where these begin functions."""
    told = subprocess.run([lines, "at", program, f"{name}:{line}", "--after-prologue"], capture_output=True, text=True).stdout
    return {int(it.split()[0], 16) for it in told.splitlines()}


def hold_gdb(program, lines, answered, files):
    """The breakpoints of gdb are among the answers. gdb leaves out a row that another file's row of its address follows, and so moves on
    to a later line: what it sets there is held to the answers for the line that it names."""
    asked = [(name, at) for name, count in (it.rsplit(":", 1) for it in files) for at in range(1, int(count) + 1)]
    words = ["gdb", "-nx", "-batch", "-ex", "set breakpoint pending off", "-ex", "set width 0"]
    for name, at in asked:
        words += ["-ex", f"echo asked {name}:{at}\\n", "-ex", f"break {name}:{at}", "-ex", "info breakpoints", "-ex", "delete"]
    told = subprocess.run([*words, program], capture_output=True, text=True).stdout
    parts = re.split(r"^asked .*\n", told, flags=re.M)[1:]
    places = [re.findall(r"\b(0x[0-9a-f]{16})\b.* at ([^ ]+):(\d+)$", part, re.M) for part in parts]
    moved = sorted({(name, int(line)) for part in places for _, name, line in part})
    known = answers_of(answered, asked + [it for it in moved if it not in asked])
    own_line = other_line = after = missed = 0
    for one, part in zip(asked, places, strict=True):
        for address, name, line in part:
            address = int(address, 16)
            if address in known[one]:
                own_line += 1
            elif address in known[name, int(line)]:
                other_line += 1
            else:
                is_past = address in past_prologue(program, lines, *one) | past_prologue(program, lines, name, line)
                after, missed = after + is_past, missed + (not is_past)
                if not is_past:
                    print(f"{program}: gdb breaks at {address:#x} of {name}:{line} for {one[0]}:{one[1]}: {[hex(it) for it in sorted(known[one])]}")
    print(f"{program}: gdb's breakpoints for {len(asked)} lines: {own_line} are answers for the line, {other_line} for the line that gdb")
    print(f"{program}: moved to, {after} are past a prologue, and {missed} are none of these")
    sys.exit(int(missed != 0 or own_line == 0))


command, *given = sys.argv[1:]
if command == "asked":
    ask(*given)
elif command == "check":
    check(*given)
else:
    hold_gdb(given[0], given[1], given[2], given[3:])
