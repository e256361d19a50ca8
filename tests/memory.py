#!/usr/bin/env python3
"""Runs the built programs where memory is wanting, beside the answers that they give where it is not: memory.py.

Each request for memory fails in turn, alone and with all after it (tests/failing.c, which cc makes), and the address space is limited
to more and more. A run may then give the whole answer, with its files; or the refusal for want of memory, and then no file is there, or
the old one as it was; or a sentence on standard error for the first file that could not be written for it, which is as it was. Ends
with the status 1 where a run does something else.
"""
import os
import resource
import subprocess
import sys
import tempfile
from collections import Counter
from pathlib import Path

from damaged import TOP, WRITTEN, wanted

REFUSED = b"refused 11 at 0\n"
# The small day has a chain, a part that is exchanged, and changes that put meetings in anew.
SMALL = bytes.fromhex("0304020600010202000003010100010001"), bytes.fromhex("0002030201010003000003")


def outcome(program, whole, before, got, found):
    """What a run came to, none if it is nothing that it may come to. `whole` is the answer, with the files as they are written."""
    status, out, err = got
    lines, files = whole
    if (status, out, err, found) == (0, lines, b"", files):
        return "answered"
    if (status, out, err, found) == (1, REFUSED, b"", before):
        return "refused"
    # The files are written one after the other: those before the one that could not be are there.
    for name in WRITTEN[program]:
        wanted_error = f"{program}: cannot write {name}: out of memory. Name a file in a folder that can be written to.\n"
        if (status, out, err, found) == (1, b"", wanted_error.encode(), before):
            return f"{name} not written"
        before = before | {name: files[name]}
    return None


class Trial:
    """A program with its files, and what it answers where memory suffices."""

    def __init__(self, folder, program, given, whole):
        self.folder, self.program, self.whole = Path(folder), program, whole
        self.paths = [self.folder / f"given{i}" for i in range(len(given))]
        for path, data in zip(self.paths, given):
            path.write_bytes(data)
        self.seen, self.wrong = Counter(), 0

    def come_to(self, old, limit=None, **environment):
        """A run, where these files were before: its status, what it printed, and the files after it."""
        outs = WRITTEN[self.program]
        for out in outs:
            (self.folder / out).unlink(missing_ok=True)
        for out, data in old.items():
            (self.folder / out).write_bytes(data)
        command = [TOP / "crates" / self.program / "out" / self.program, *self.paths, *outs]
        set_limit = limit and (lambda: resource.setrlimit(resource.RLIMIT_AS, (limit, limit)))
        done = subprocess.run(command, capture_output=True, timeout=20, cwd=self.folder, env=os.environ | environment, preexec_fn=set_limit)
        found = {path.name: path.read_bytes() for path in self.folder.iterdir() if not path.name.startswith(("given", "told"))}
        return (done.returncode, done.stdout, done.stderr), found

    def run(self, name, old, limit=None, **environment):
        before = {out: b"as it was" for out in WRITTEN[self.program]} if old else {}
        got, found = self.come_to(before, limit, **environment)
        came = outcome(self.program, self.whole, before, got, found)
        if limit and came is None and (got[0] == 127 or got[0] < 0) and found == before and got[1] == b"":
            came = "not loaded"
        self.seen[came] += 1
        if came is None:
            self.wrong += 1
            print(f"DIFFERENT: {self.program}, {name}: status {got[0]}, {got[1][:200]}, {got[2][:200]}, {sorted(found)}", file=sys.stderr)
        return came

    def requests(self, library):
        """How many requests for memory a whole run makes."""
        told = self.folder / "told"
        self.run("counted", False, LD_PRELOAD=library, FAIL_TOLD=str(told))
        return int(told.read_text())

    def fail_each(self, library):
        many = self.requests(library)
        for at in range(1, many + 2):
            for old in (False, True):
                self.run(f"request {at} fails", old, LD_PRELOAD=library, FAIL_AT=str(at))
                self.run(f"requests from {at} on fail", old, LD_PRELOAD=library, FAIL_AT=str(at), FAIL_ALL="1")
        return many

    def limit_space(self):
        """Limits the address space from the least that lets the program start to what suffices, and answers that in kilobytes."""
        for many in range(1000, 40000, 40):
            if self.run(f"{many} KB", many % 80 == 0, limit=many * 1024) == "answered":
                return many
        return None


def school():
    return [(TOP / "examples" / f"school.{kind}").read_bytes() for kind in ("day", "changes", "plan")]


def full_day():
    """4,000 meetings of 120 groups with 120 stations in one room, a row of changes, and no plan."""
    meetings = [(i % 120, (i + i // 120) % 120) for i in range(4000)]
    day = bytes([120, 120, 1]) + (4000).to_bytes(2, "little") + bytes(party for meeting in meetings for party in meeting)
    return day, bytes([3, 1, 7, 0, 2])


def told_by(folder, program, given):
    """What a program answers with all memory: for the full day, which the rule of the tests is too slow for."""
    trial = Trial(folder, program, given, None)
    (status, lines, err), files = trial.come_to({})
    assert (status, err) == (0, b""), (program, status, err)
    return lines, files


def days(folder):
    """The days, and what each program answers."""
    small = (*SMALL, wanted("plan", SMALL[:1])[2]["plan"])
    full = (*full_day(), told_by(folder, "plan", full_day()[:1])[1]["plan"])
    for name, (day, row, plan), by_rule in (("a small day", small, True), ("the school day", school(), True), ("a full day", full, False)):
        for program, given in (("plan", [day]), ("day", [day, row]), ("checker", [day, plan]), ("sheet", [day, plan])):
            yield name, program, given, wanted(program, given)[::2] if by_rule else told_by(folder, program, given)


def fail_calls(folder, built):
    """The two calls that lend slices, on the small day and on the school day. Answers on how many days they do something else."""
    subprocess.run(["rt", "lib"], cwd=TOP / "crates" / "calls", capture_output=True, check=True)
    kit = Path(subprocess.run(["rt", "doc"], capture_output=True, text=True, check=True).stdout.strip()).parent
    libraries = [TOP / "crates" / "calls" / "out" / "libcalls.a", kit / "c" / "liblibc_c.a", "-ldl"]
    calls = Path(built) / "calls"
    subprocess.run(["cc", "-O1", "-o", calls, TOP / "tests" / "calls.c", TOP / "tests" / "failing.c", *libraries], check=True)
    wrong = 0
    for name, given in (("a small day", SMALL), ("the school day", school()[:2])):
        for i, data in enumerate(given):
            (Path(folder) / f"given{i}").write_bytes(data)
        print(f"{name}:", flush=True)
        wrong += subprocess.run([calls, Path(folder) / "given0", Path(folder) / "given1"]).returncode
    return wrong


def main():
    with tempfile.TemporaryDirectory() as folder, tempfile.TemporaryDirectory() as built:
        library = str(Path(built) / "failing.so")
        subprocess.run(["cc", "-shared", "-fPIC", "-O1", "-o", library, TOP / "tests" / "failing.c", "-ldl"], check=True)
        wrong = fail_calls(folder, built)
        for name, program, given, whole in days(folder):
            trial = Trial(folder, program, given, whole)
            many, least = trial.fail_each(library), trial.limit_space()
            print(f"{program}, {name}: {many} requests, answered from {least} KB on; {dict(trial.seen)}", flush=True)
            wrong += trial.wrong
            for path in Path(folder).iterdir():
                path.unlink()
    sys.exit(1 if wrong else 0)


if __name__ == "__main__":
    main()
