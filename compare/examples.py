#!/usr/bin/env python3
"""Runs the examples of docs/reference/LINES.md and JSON.md, and the blocks of README.md, and compares what they print to the byte.

    compare/examples.py

The programs are those that gcc 12 makes, in the folder /tmp/square that the page names; so it must not be there before. Every
block of the page that begins with `$ ` is run, one command after another, and what a command prints on standard output and then on
standard error has to be what stands below it. LINES_PROGRAM=FILE is asked in place of crates/lines, and USES_PROGRAM=FILE in place
of crates/uses. Of README.md the commands run as they stand, with these programs in place of `rt try`, and without `.ci/test`, which
runs this script; its block of C is compiled, and run where crates/gimli_c is built. The last line is 'examples: N commands as they
are written, M not'; the status is 1 where one isn't.
"""
import os
import re
import shutil
import subprocess
import sys
import tempfile

TOP = os.path.dirname(os.path.dirname(os.path.realpath(__file__)))
LINES = os.environ.get("LINES_PROGRAM", f"{TOP}/crates/lines/out/lines")
USES = os.environ.get("USES_PROGRAM", f"{TOP}/crates/uses/out/uses")
FOLDER = "/tmp/square"
BLOCK = re.compile(r"^```text\n(\$ .*?)^```$", re.M | re.S)
# The block of README.md that a person types, the one of C, and the place that the page says of the second command.
TYPED = re.compile(r"^```sh\n(.*?)^```$", re.M | re.S)
IN_C = re.compile(r"^```c\n(.*?)^```$", re.M | re.S)
PLACE = re.compile(r"prints `CLONE(/.*?)`")
# What the block of C stands in.
AROUND = """#include <stdio.h>
#include <stdlib.h>
#include "file.h"
#include "gimli_line.h"
int main(int count, char **words) {
    if (count != 3) return 2;
    bytes program = read_file(words[1]);
    const void *file = program.at;
    size_t length = program.length, size;
    uint64_t address = strtoull(words[2], NULL, 16);
    uint8_t *index;
    gimli_line_place place;
%s}
"""


def text_of(page):
    with open(f"{TOP}/{page}", encoding="utf8") as file:
        return file.read()


def examples():
    """The commands of the pages, each with what it prints."""
    for block in BLOCK.findall(text_of("docs/reference/LINES.md") + text_of("docs/reference/JSON.md")):
        for part in re.split(r"^\$ ", block, flags=re.M)[1:]:
            command, _, output = part.partition("\n")
            yield command, output


def printed(command, folder, environment):
    ran = subprocess.run(["bash", "-c", command], cwd=folder, env=environment, stdout=subprocess.PIPE, stderr=subprocess.STDOUT)
    return ran.stdout.decode("utf8", "replace")


def is_as_written(command, output, folder, environment):
    found = printed(command, folder, environment)
    if found == output:
        return True
    print(f"{command}\n  wanted {output!r}\n  found  {found!r}")
    return False


def run_page(environment):
    """Whether each command of these pages printed what the page says. Its first one shows the source, which is made so."""
    os.mkdir(FOLDER)
    try:
        commands = list(examples())
        with open(f"{FOLDER}/square.c", "w", encoding="utf8") as file:
            file.write(commands[0][1])
        return [is_as_written(command, output, FOLDER, environment) for command, output in commands]
    finally:
        shutil.rmtree(FOLDER)


def run_typed(page, environment):
    """Whether the commands of README.md print what the page says."""
    block, place = TYPED.search(page)[1], TOP + PLACE.search(page)[1]
    programs = {"lines": LINES, "uses": USES}
    found = []
    for line in block.splitlines():
        command, _, output = (it.strip() for it in line.partition(" # "))
        if command == ".ci/test":
            found.append(os.access(f"{TOP}/{command}", os.X_OK))
            continue
        command = re.sub(r"\(cd crates/(\w+) && rt try -- ", lambda it: f"(cd crates/{it[1]} && {programs[it[1]]} ", command)
        if not os.path.exists(LINES if "where /" in command else USES):
            print(f"examples: passed over: {command}: the program isn't built")
            continue
        found.append(is_as_written(command, f"{output or place}\n", TOP, environment))
    return found


def run_c(page, folder, environment):
    """Whether the block of C compiles, and prints the place of the program that the commands have made."""
    with open(f"{folder}/block.c", "w", encoding="utf8") as file:
        file.write(AROUND % IN_C.search(page)[1])
    crate = f"{TOP}/crates/gimli_c"
    flags = f"-std=c11 -Wall -Wextra -Werror -I {crate}/include -I {crate}/examples/c {folder}/block.c"
    library = f"{crate}/build/libgimli_line.a"
    if not os.path.exists(library):
        return [is_as_written(f"gcc {flags} -fsyntax-only", "", TOP, environment)]
    command = f"gcc {flags} {library} -o {folder}/block && {folder}/block /tmp/sums $(nm /tmp/sums | sed -n 's/ T main$//p')"
    return [is_as_written(command, f"{TOP}{PLACE.search(page)[1].rpartition(':')[0]}\n", TOP, environment)]


def run_readme(folder, environment):
    """Whether the blocks of README.md do what the page says."""
    page = text_of("README.md")
    try:
        return run_typed(page, environment) + run_c(page, folder, environment)
    finally:
        if os.path.isfile("/tmp/sums"):
            os.remove("/tmp/sums")


def main():
    version = subprocess.run(["gcc", "-dumpversion"], capture_output=True, text=True).stdout.strip()
    if version.split(".")[0] != "12" or os.path.exists(FOLDER) or os.path.exists("/tmp/sums"):
        print(f"examples: passed over: {FOLDER} or /tmp/sums is there, or gcc isn't 12")
        return 0
    with tempfile.TemporaryDirectory() as folder:
        os.symlink(os.path.realpath(LINES), f"{folder}/lines")
        environment = {**os.environ, "PATH": f"{folder}:{os.environ['PATH']}", "LC_ALL": "C.UTF-8"}
        found = run_page(environment) + run_readme(folder, environment)
    print(f"examples: {found.count(True)} commands as they are written, {found.count(False)} not")
    return 1 if False in found else 0


sys.exit(main())
