#!/usr/bin/env python3
"""Runs the built programs on damaged files, beside the rule: damaged.py [--seed N] [--days N] [--damages N].

Each of the three formats is cut off at each length, and damaged in one byte and in many. Of each run the lines, the exit status, what
stands on standard error, and the files that are written are compared with tests/rule.py and tests/rule_bytes.py, which share nothing
with the crates; after a refusal no file is there, and one that was there is as it was. A program that crashes, or that takes more than
ten seconds, is another answer. Ends with the status 1 where one differs.
"""
import argparse
import os
import random
import subprocess
import sys
import tempfile
from collections import Counter
from pathlib import Path

from rule import Day, change_lines, sheet_lines
from rule_bytes import Refused, checked, list_of

TOP = Path(__file__).resolve().parent.parent
EDGES = (0, 1, 2, 3, 4, 118, 119, 120, 121, 127, 128, 160, 254, 255)


def of_plan(day):
    day = Day(day)
    return day.report_lines(), {"plan": day.plan_bytes()}


def of_day(day, row):
    day = Day(day)
    lines = change_lines(day, row)
    return lines, {"plan": day.plan_bytes(), "list": day.list_bytes()}


def of_checker(day, plan):
    checked(list_of(day), plan)
    return ["accepted"], {}


def of_sheet(day, plan):
    groups, stations, rooms, meetings = list_of(day)
    many, rounds = checked((groups, stations, rooms, meetings), plan)
    return sheet_lines(groups, stations, meetings, rounds, many), {}


RULES = {"plan": of_plan, "day": of_day, "checker": of_checker, "sheet": of_sheet}
WRITTEN = {"plan": ("plan",), "day": ("plan", "list"), "checker": (), "sheet": ()}


def wanted(program, given):
    """The lines that the rule has, its status, and the files that it writes."""
    try:
        lines, files = RULES[program](*given)
        lines, status = list(lines), 0
    except Refused as refused:
        lines, status, files = [str(refused)], 1, {}
    return "".join(line + "\n" for line in lines).encode(), status, files


class Runs:
    def __init__(self, folder):
        self.folder = Path(folder)
        self.seen = Counter()
        self.wrong = 0

    def given(self, files):
        paths = [self.folder / f"given{i}" for i in range(len(files))]
        for path, data in zip(paths, files):
            path.write_bytes(data)
        return paths

    def found(self):
        """What lies in the folder beside the files that are given."""
        return [path for path in self.folder.iterdir() if not path.name.startswith("given")]

    def run(self, program, *files):
        """Runs a program on the files, and compares. Every other time the files that it writes are there before."""
        outs = {name: self.folder / name for name in WRITTEN[program]}
        old = sum(self.seen.values()) % 2 == 1
        for path in self.found():
            path.unlink()
        if old:
            for path in outs.values():
                path.write_bytes(b"as it was")
        command = [TOP / "crates" / program / "out" / program, *self.given(files), *outs.values()]
        try:
            done = subprocess.run(command, capture_output=True, timeout=10)
            got = done.stdout, done.returncode, done.stderr
        except subprocess.TimeoutExpired:
            got = b"", "no end", b""
        lines, status, written = wanted(program, files)
        there = {path.name: path.read_bytes() for path in self.found()}
        before = {name: b"as it was" for name in outs} if old else {}
        kind = lines.split()[1].decode() if status else "answered"
        self.seen[f"{program} {'refused ' if status else ''}{kind}"] += 1
        if got != (lines, status, b"") or there != {**before, **written}:
            self.tell(program, files, got, lines)

    def tell(self, program, files, got, lines):
        self.wrong += 1
        print(f"DIFFERENT: {program} {' '.join(data.hex() for data in files)}\n  got {got}\n  wanted {lines}", file=sys.stderr)


def random_day(chance):
    groups, stations = chance.randint(1, 5), chance.randint(1, 5)
    many = chance.randint(0, 14)
    meetings = [(chance.randrange(groups), chance.randrange(stations)) for _ in range(many)]
    return bytes([groups, stations, chance.randint(1, 6), many, 0]) + bytes(party for meeting in meetings for party in meeting)


def random_row(chance, day):
    row = b""
    for _ in range(chance.randint(1, 6)):
        kind = chance.randrange(4)
        named = (chance.randrange(day[0]), chance.randrange(day[1])) if kind == 0 else (chance.randrange(day[3] + 1), 0)
        row += bytes([kind, *(named if kind < 2 else ())])
    return row


def put_byte(chance, data):
    data[chance.randrange(len(data))] = chance.choice(EDGES + (chance.randrange(256),))


def near_byte(chance, data):
    i = chance.randrange(len(data))
    data[i] = (data[i] + chance.choice((-1, 1))) % 256


def turn_bit(chance, data):
    data[chance.randrange(len(data))] ^= 1 << chance.randrange(8)


def drop_bytes(chance, data):
    i = chance.randrange(len(data))
    del data[i:i + chance.randint(1, 4)]


def add_bytes(chance, data):
    i = chance.randint(0, len(data))
    data[i:i] = bytes(chance.choice(EDGES) for _ in range(chance.randint(1, 4)))


def put_bytes(chance, data):
    for _ in range(chance.randint(2, 8)):
        put_byte(chance, data)


def copy_over(chance, data):
    i, j = chance.randrange(len(data)), chance.randrange(len(data))
    data[i:i + 2] = data[j:j + 2]


DAMAGES = (put_byte, near_byte, turn_bit, drop_bytes, add_bytes, put_bytes, copy_over)


def damaged(chance, data):
    """The data with one damage. Data of no bytes stay as they are, or get some."""
    data = bytearray(data)
    damage = chance.choice(DAMAGES) if data else add_bytes
    damage(chance, data)
    return bytes(data)


def try_all(runs, day, row, plan, of_day=None, of_row=None, of_plan=None):
    """Each damaged file with the others whole, in each program that reads it."""
    for other in of_day or ():
        runs.run("plan", other)
        runs.run("day", other, row)
        runs.run("checker", other, plan)
        runs.run("sheet", other, plan)
    for other in of_row or ():
        runs.run("day", day, other)
    for other in of_plan or ():
        runs.run("checker", day, other)
        runs.run("sheet", day, other)


def cut(data):
    return [data[:length] for length in range(len(data) + 1)]


def small_days(runs, chance, days, damages):
    for _ in range(days):
        day = random_day(chance)
        row, plan = random_row(chance, day), Day(day).plan_bytes()
        try_all(runs, day, row, plan, cut(day), cut(row), cut(plan))
        many = [[damaged(chance, data) for _ in range(damages)] for data in (day, row, plan)]
        try_all(runs, day, row, plan, *many)
        twice = [damaged(chance, damaged(chance, plan)) for _ in range(damages)]
        try_all(runs, damaged(chance, day), row, plan, of_plan=twice)


def school(runs, chance, damages):
    day, row, plan = ((TOP / "examples" / f"school.{kind}").read_bytes() for kind in ("day", "changes", "plan"))
    try_all(runs, day, row, plan, of_plan=cut(plan))
    try_all(runs, day, row, plan, [day[:length] for length in range(len(day))], [row[:length] for length in range(0, len(row), 9)])
    try_all(runs, day, row, plan, of_plan=[damaged(chance, plan) for _ in range(10 * damages)])
    try_all(runs, day, row, plan, [damaged(chance, day) for _ in range(damages)], [damaged(chance, row) for _ in range(damages)])


def main():
    wanted = argparse.ArgumentParser()
    wanted.add_argument("--seed", type=int, default=1)
    wanted.add_argument("--days", type=int, default=100)
    wanted.add_argument("--damages", type=int, default=40)
    wanted = wanted.parse_args()
    chance = random.Random(wanted.seed)
    with tempfile.TemporaryDirectory(dir="/dev/shm" if os.path.isdir("/dev/shm") else None) as folder:
        runs = Runs(folder)
        small_days(runs, chance, wanted.days, wanted.damages)
        school(runs, chance, wanted.damages)
    for kind, many in sorted(runs.seen.items()):
        print(f"{kind}: {many}")
    print(f"{sum(runs.seen.values())} runs, {runs.wrong} different")
    sys.exit(1 if runs.wrong else 0)


if __name__ == "__main__":
    main()
