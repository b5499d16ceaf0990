"""Compares the rows, faults and refusals of linetool with gimli's. Arguments: linetool, gimli_rows, a folder with sections
NAME.line, how many changed units to compare, and a seed."""

import pathlib
import random
import subprocess
import sys


def seen_by_linetool(program, file, order, size, offset):
    """The rows, and how they end: '' at the end of the program, 'fault' in it, 'refused' where the header is."""
    done = subprocess.run([program, "rows", file, order, str(size), str(offset)], capture_output=True, text=True)
    ends = {"": "", "refused: rows\n": "fault", "refused: header\n": "refused"}
    return done.stdout.splitlines(), ends.get(done.stderr, done.stderr)


def seen_by_gimli(program, file, order, size, offset):
    done = subprocess.run([program, file, order, str(size), str(offset)], capture_output=True, text=True)
    if done.returncode != 0:
        return [], "panic"
    lines = done.stdout.splitlines()
    end = lines.pop() if lines and lines[-1] in ("fault", "refused") else ""
    return lines, end


def units_of(section):
    """The bytes of each unit of a little-endian section."""
    units, at = [], 0
    while at < len(section):
        length, head = int.from_bytes(section[at : at + 4], "little"), 4
        if length == 0xFFFFFFFF:
            length, head = int.from_bytes(section[at + 4 : at + 12], "little"), 12
        units.append(section[at : at + head + length])
        at += head + length
    return units


def changed(unit, chance):
    """The unit with a few bytes changed, put in or taken out; in half of the cases the length still counts what follows."""
    bytes_now = bytearray(unit)
    for _ in range(chance.randint(1, 4)):
        at = chance.randrange(len(bytes_now))
        kind = chance.randrange(4)
        if kind == 0:
            bytes_now[at] = chance.randrange(256)
        elif kind == 1:
            bytes_now[at] = chance.choice((0, 1, 2, 0x7F, 0x80, 0xFE, 0xFF))
        elif kind == 2:
            bytes_now[at:at] = bytes(chance.choice((0, 1, 2, 3, 9, 0x7F, 0x80, 0xFF)) for _ in range(chance.randint(1, 12)))
        else:
            del bytes_now[at : at + chance.randint(1, 6)]
    if chance.random() < 0.5 and bytes_now[:4] != b"\xff\xff\xff\xff" and len(bytes_now) > 4:
        bytes_now[:4] = (len(bytes_now) - 4).to_bytes(4, "little")
    return bytes(bytes_now)


def main():
    linetool, gimli, folder, cases, seed = *sys.argv[1:4], int(sys.argv[4]), int(sys.argv[5])
    chance = random.Random(seed)
    differing, rows, ends = 0, 0, {}
    units = [it for file in sorted(pathlib.Path(folder).glob("*.line")) for it in units_of(file.read_bytes())]
    file = pathlib.Path(folder) / "unit"
    for number in range(len(units) + cases):
        unit = units[number] if number < len(units) else changed(chance.choice(units), chance)
        size = 8 if number < len(units) else chance.choice((8, 8, 8, 4, 2, 1))
        order = "little" if number < len(units) else chance.choice(("little", "little", "little", "big"))
        file.write_bytes(unit)
        ours = seen_by_linetool(linetool, file, order, size, 0)
        theirs = seen_by_gimli(gimli, file, order, size, 0)
        if ours == theirs:
            rows += len(ours[0])
            ends[ours[1]] = ends.get(ours[1], 0) + 1
            continue
        differing += 1
        print(f"differs: {order} {size} {unit.hex()}")
        print(f"  linetool: {len(ours[0])} rows, {ours[1] or 'end'}; gimli: {len(theirs[0])} rows, {theirs[1] or 'end'}")
    told = ", ".join(f"{ends.get(end, 0)} {word}" for end, word in (("", "whole"), ("fault", "with a fault"), ("refused", "refused")))
    print(f"{len(units)} units as they are and {cases} changed ones: {rows} rows the same ({told}), {differing} differ")
    sys.exit(1 if differing else 0)


main()
