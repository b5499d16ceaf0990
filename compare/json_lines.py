#!/usr/bin/env python3
"""Holds the JSON of `lines` to the tables of docs/reference/JSON.md, over programs. Outside the gate.

    compare/json_lines.py [PROGRAM..]

A program whose unit has a path that is no UTF-8 is made here by gcc, and asked too. Each line of each command with --json has
to be one object, whose fields stand in the order of their form below, each of the type that it says; the tables of the page have
to have the same fields. The bytes of `path_bytes` have to be those of `path`. LINES_PROGRAM=FILE is asked in place of
crates/lines. The last line is 'json: N lines as they have to be, M not'; the status is 1 where one isn't.
"""
import json
import os
import re
import subprocess
import sys
import tempfile

TOP = os.path.dirname(os.path.dirname(os.path.realpath(__file__)))
LINES = os.environ.get("LINES_PROGRAM", f"{TOP}/crates/lines/out/lines")
HEX = re.compile("0x[0-9a-f]+")
FLAGS = ["is_stmt", "basic_block", "end_sequence", "prologue_end", "epilogue_begin"]
counts = {"good": 0, "bad": 0}


def is_number(value):
    return type(value) is int and value >= 0


def is_address(value):
    return isinstance(value, str) and bool(HEX.fullmatch(value))


def is_range(value):
    return isinstance(value, list) and len(value) == 2 and all(map(is_address, value))


def is_text(value):
    return isinstance(value, str)


def is_flags(value):
    return isinstance(value, list) and value == [it for it in FLAGS if it in value]


def are_rows(value):
    return isinstance(value, list) and all(is_row(it) for it in value)


def is_row(value):
    of_object = isinstance(value.get("section"), str) and list(value) == ["address", "section", "is_stmt"]
    return (of_object or list(value) == ["address", "is_stmt"]) and is_address(value["address"]) and type(value["is_stmt"]) is bool


def or_null(test):
    return lambda value: value is None or test(value)


def one_of(*words):
    return lambda value: value in words


PLACE = [("line", is_number), ("column", is_number)]
PATH = ("path", or_null(is_text))
BYTES = ("path_bytes", lambda value: bool(re.fullmatch("([0-9a-f]{2})+", value)))
TEXT_BYTES = ("text_bytes", BYTES[1])
FUNCTION = ("function", or_null(is_text))
UNIT = ("unit", is_address)
END = [("range", is_range), ("is_stmt", lambda value: type(value) is bool)]
FOUND = [*PLACE, ("range", is_range), ("discriminator", is_number), ("flags", is_flags)]
COUNT = [("severity", one_of("fault", "lost", "odd", "usual")), ("kind", is_text), ("count", is_number)]
DETAILS = [("time", is_number), ("size", is_number), ("md5", or_null(is_text)), ("source_bytes", or_null(is_number))]
# The forms that a line of a command may have.
FORMS = {
    "where": [[("address", or_null(is_address)), PATH], [("address", is_address), PATH, *FOUND]],
    "where -f": [
        [("address", or_null(is_address)), PATH, FUNCTION],
        [("address", is_address), PATH, FUNCTION, *FOUND],
    ],
    "where by an index": [[("address", or_null(is_address)), PATH], [("address", is_address), PATH, *PLACE]],
    "at": [[("address", is_address), *section, PATH, *PLACE, *END] for section in ([], [("section", is_text)])],
    "source": [
        [PATH, ("line", is_number), ("text", or_null(is_text)), ("rows", are_rows)],
        [PATH, ("line", is_number), ("text", is_text), TEXT_BYTES, ("rows", are_rows)],
    ],
    "units": [
        [UNIT, ("version", one_of(2, 3, 4, 5)), ("format", one_of(32, 64)), ("address_size", is_number)]
        + [(it, is_number) for it in ("files", "sequences", "rows", "bytes")]
    ],
    "files": [[UNIT, ("directory", is_number), PATH], [UNIT, ("file", is_number), PATH, *DETAILS]],
    "rows": [
        [UNIT, ("address", is_address), ("op_index", is_number), PATH, ("file", is_number), *PLACE]
        + [("discriminator", is_number), ("isa", is_number), ("flags", is_flags)]
    ],
    "check": [
        [UNIT, COUNT[0], ("kind", is_text), ("byte", or_null(is_address)), ("message", is_text)],
        COUNT,
        [("units", is_number), ("findings", is_number)],
    ],
    "stat": [
        [("what", is_text), *((it, is_number) for it in ("times", "bytes", "operands"))],
        [UNIT, ("bytes", is_number)],
        [PATH, ("rows", is_number)],
        [(it, is_number) for it in ("units", "rows", "sequences", "not_statements", "bytes")],
    ],
    "diff": [
        [PATH, ("line", is_number), ("old_bytes", or_null(is_number)), ("new_bytes", or_null(is_number))],
        [(it, is_number) for it in ("old_lines", "new_lines", "differences")],
    ],
}


def has_form(value, form):
    """Whether an object has the fields of a form, and no others."""
    fields = list(form)
    if "path_bytes" in value and PATH in fields:
        fields.insert([it[0] for it in fields].index("path") + 1, BYTES)
    return [it[0] for it in fields] == list(value) and all(test(value[name]) for name, test in fields)


def are_bytes_of(value):
    """Whether the bytes of a path are those of its text: U+FFFD for each that isn't ASCII."""
    if "path_bytes" not in value:
        return True
    found = bytes.fromhex(value["path_bytes"])
    return value["path"] == "".join(chr(it) if it < 128 else "\ufffd" for it in found)


def check(program, name, words, form=None, given=b""):
    form = form or name
    ran = subprocess.run([LINES, *name.split(), "--json", *words], input=given, capture_output=True)
    for line in ran.stdout.splitlines():
        try:
            value = json.loads(line.decode("utf-8"))
            good = any(has_form(value, it) for it in FORMS[form]) and are_bytes_of(value)
        except ValueError:
            good = False
        counts["good" if good else "bad"] += 1
        if not good and counts["bad"] < 20:
            print(f"{program}: {name}: {line!r}")
    if not ran.stdout and name not in ("at", "diff"):
        counts["bad"] += 1
        print(f"{program}: {name}: nothing was printed: {ran.stderr!r}")
    return ran.stdout


def check_program(program):
    rows = check(program, "rows", [program]).splitlines()
    found = [json.loads(it) for it in rows[:2000]]
    addresses = sorted({it["address"] for it in found})[:200]
    for name in ("where", "where -f"):
        check(program, name, [program, *addresses, "0"])
    with tempfile.TemporaryDirectory() as maps:
        os.mkdir(f"{maps}/ab")
        subprocess.run([LINES, "index", program, "-o", f"{maps}/ab/cd.lines"], check=True)
        form = "where by an index"
        check(program, "where", ["--index", f"{maps}/ab/cd.lines", program, *addresses, "0"], form)
        lines = "".join(f"{program} {it}\n" for it in [*addresses, "0"])
        check(program, "where --files", [], form, f"{lines}\n{program}".encode())
        lines = lines.replace(f"{program} ", "abcd ")
        check(program, "where", ["--indexes", maps], form, lines.encode())
    for it in [it for it in found if it["path"] and it["line"]][:: max(1, len(found) // 20)]:
        path = bytes.fromhex(it["path_bytes"]) if "path_bytes" in it else it["path"].encode()
        for name in ("at", "source"):
            check(program, name, [program, path + b":%d" % it["line"]])
    for name in ("units", "files", "stat"):
        check(program, name, [program])
    check(program, "check", ["--all", program])
    check(program, "diff", [program, program])


def check_object(program):
    """An object file: the commands that name its sections."""
    for name, place in (("at", "main"), ("at", "a.c:3"), ("source", "main")):
        check(program, name, [program, place])


def other_tables():
    """The tables of docs/reference/JSON.md that don't have the fields of the forms of their command, or aren't there."""
    with open(f"{TOP}/docs/reference/JSON.md", encoding="utf8") as file:
        found = re.findall(r"^\| Field of `(\w+)` .*\n\|[-|]+\n((?:\|.*\n)+)", file.read(), re.M)
    tables = {name: set(re.findall(r"`(\w+)`", " ".join(row.split("|")[1] for row in rows.splitlines()))) for name, rows in found}
    for name, forms in FORMS.items():
        forms = FORMS["where"] + FORMS["where -f"] if name == "where" else forms[:1] if name in ("check", "stat", "diff") else forms
        fields = {field for form in forms for field, _ in form} - {"text_bytes"}
        if " " not in name and tables.get(name) != fields:
            yield f"docs/reference/JSON.md: the fields of `{name}` are {' '.join(sorted(fields))}"


def made(folder):
    """A program with a path that is no UTF-8, where gcc is there."""
    source = os.path.join(os.fsencode(folder), b"a\xff\x1b.c")
    with open(source, "wb") as file:
        file.write(b"int main(void)\n{\n    return 0;\n}\n")
    program = os.path.join(folder, "a.out")
    try:
        subprocess.run(["gcc", "-g", "-o", program, source], check=True)
    except (OSError, subprocess.CalledProcessError):
        return []
    return [program]


def made_object(folder):
    """An object file, where gcc is there."""
    with open(os.path.join(folder, "a.c"), "w", encoding="utf8") as file:
        file.write("int main(void)\n{\n    return 0;\n}\n")
    ran = subprocess.run(["gcc", "-g", "-c", "-o", f"{folder}/a.o", f"{folder}/a.c"], check=False)
    return [f"{folder}/a.o"] if ran.returncode == 0 else []


def main(programs):
    wrong = list(other_tables())
    print("\n".join(wrong), end="\n" if wrong else "")
    counts["bad"] += len(wrong)
    with tempfile.TemporaryDirectory() as folder:
        for program in [*made(folder), *programs]:
            check_program(program)
        for program in made_object(folder):
            check_object(program)
    print(f"json: {counts['good']} lines as they have to be, {counts['bad']} not")
    sys.exit(1 if counts["bad"] or not counts["good"] else 0)


main(sys.argv[1:])
