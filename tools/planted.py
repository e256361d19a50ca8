#!/usr/bin/env python3
"""Plants wrong code, one place at a time, and prints what refuses each: planted.py [--copy FOLDER] [--together] [CRATE..].

planted/CRATE/NAME.edit says a change of the crate's code, in the form of the must-fail edits: a file, the text there and the wrong text.
Each is applied to a copy of the repository, and the crate is checked. Where the check passes, the tests of the crates that are named
in a line 'tests: CRATE..' of the edit are run with the wrong code, unproved. Prints a row of a Markdown table for each, and answers the
status 1 where one was refused by nothing, or could not be tried. With --copy the copy stays in that folder, and what was built there is
used again. With --together those in different functions are tried in one check, in a tenth of the time: what is proved of a function
rests on its own code, and on the contracts of what it calls and not on their code, so one that is refused there is refused alone.
"""
import argparse
import re
import shutil
import subprocess
import sys
import tempfile
from pathlib import Path

TOP = Path(__file__).resolve().parent.parent
LEFT_OUT = shutil.ignore_patterns("out", "target", ".git", "__pycache__")
# Of each edit rt tells in one line what came of it, and of a refused one where, and the goal that is not proved.
TOLD = re.compile(r"^rt: must-fail ([a-z_]+)/([A-Za-z0-9_]+)\.edit: ([A-Z ]+|refused, as it must be)( \(only [^)]*\))?:? ?(.*)$")
# A check tells each goal that is not proved with its place, and each answer of a proof file that is refused.
SAID = re.compile(r"^(note: )?(?:\./)?((?:src|proofs)/[^: ]+):(\d+):\d+: (.*)$")
FUNCTION = re.compile(r"\s*(?:pub(?:\(crate\))? )?fn (\w+)")
PLACE = re.compile(r"^(?:note: )?(?:\./)?((?:src|proofs|specs)/[^:]+)[:0-9]*: (.*)$")
# The goal stands in brackets, in a proof file before the message; rt cuts a long line off.
GOAL = re.compile(r"\(`([a-z_][\w.-]*)(?:`\)|`?$)|error: `([\w.-]+)`")


def edit_of(path):
    """The parts of an edit: its file, the pairs of old and new text, and the crates whose tests are to refuse it."""
    file, pairs, tests = None, [], []
    for line in path.read_text().splitlines():
        word, _, text = line.partition(": ")
        if word == "file":
            file = text
        elif word == "old":
            pairs.append([text, ""])
        elif word == "new":
            pairs[-1][1] = text
        elif word == "tests":
            tests = text.split()
    return file, pairs, tests


def applied(copy, crate, path):
    """Changes the code of the copy, and answers the file and its text before."""
    file, pairs, _ = edit_of(path)
    code = copy / "crates" / crate / file
    before = code.read_text()
    text = before
    for old, new in pairs:
        if text.count(old) != 1:
            sys.exit(f"{path}: the old text is in {file} {text.count(old)} times")
        text = text.replace(old, new)
    code.write_text(text)
    return code, before


def refusing_tests(copy, crate, path):
    """The tests that fail with the wrong code, of the crates that the edit names."""
    code, before = applied(copy, crate, path)
    failed = []
    for name in edit_of(path)[2]:
        done = subprocess.run(["rt", "try", "--test", "--seconds", "400"], cwd=copy / "crates" / name, capture_output=True, text=True)
        failed += [f"{name} `{test}`" for test in re.findall(r"^test (\S+) \.\.\. FAILED", done.stdout + done.stderr, re.M)]
    code.write_text(before)
    return failed


def function_at(text, number):
    """The function that a line of the code belongs to: one above it is written before it."""
    lines = text.splitlines()
    after = lines[number - 1].lstrip().startswith(("#[", "//")) or FUNCTION.match(lines[number - 1])
    for line in lines[number - 1 :] if after else reversed(lines[:number]):
        if named := FUNCTION.match(line):
            return named[1]
    return None


def function_of(copy, crate, path):
    """The module and the function that an edit is in, by its first text; no function for one that more than one may be of."""
    file, pairs, _ = edit_of(path)
    text = (copy / "crates" / crate / file).read_text()
    number = text[: text.index(pairs[0][0])].count("\n") + 1
    is_shared = text.splitlines()[number - 1].lstrip().startswith("const ")
    return Path(file).stem, None if is_shared else function_at(text, number)


def told_of_functions(folder, output):
    """What a check tells of each function, by its module: first of the code, and then of proof files."""
    of_code, of_proofs = {}, {}
    for line in output.splitlines():
        if not (said := SAID.match(line)):
            continue
        note, file, number, why = said.groups()
        parts = file.split("/")
        if parts[0] == "src":
            key = Path(file).stem, function_at((folder / file).read_text(), int(number))
            of_code.setdefault(key, []).append(f"{file}: {why}")
        elif not note and len(parts) > 3:
            of_proofs.setdefault((parts[1], parts[-2]), []).append(f"{file}: {why}")
    return {key: of_code.get(key, []) + of_proofs.get(key, []) for key in of_code.keys() | of_proofs.keys()}


def checked_together(copy, crate, paths):
    """What one check says of each edit, of which no two are in one function. Where the code is refused before anything is proved, those
    that are to blame are set aside, and the others tried once more."""
    folder = copy / "crates" / crate
    before = [applied(copy, crate, path) for path in paths]
    done = subprocess.run(["rt", "check"], cwd=folder, capture_output=True, text=True)
    told = told_of_functions(folder, done.stdout + done.stderr)
    for code, text in reversed(before):
        code.write_text(text)
    whys = {path: told.get(function_of(copy, crate, path), []) for path in paths}
    if done.returncode and not re.search("^logic=not-proved", done.stdout, re.M):
        others = [path for path in paths if not whys[path]]
        bad = {path.stem: ("BAD EDIT", whys[path][0]) for path in paths if whys[path]}
        return bad | (checked_together(copy, crate, others) if bad and others else {})
    return {path.stem: ("refused", why[0]) if why else ("NOT REFUSED", "") for path, why in whys.items()}


def checked_by_function(copy, crate, paths):
    """What checks say of each edit, with as many edits in each check as are in different functions. One that is in none is tried alone."""
    alone = [path for path in paths if function_of(copy, crate, path)[1] is None]
    rest, said = [path for path in paths if path not in alone], checked(copy, crate, alone) if alone else {}
    while rest:
        first = {}
        for path in rest:
            first.setdefault(function_of(copy, crate, path), path)
        said |= checked_together(copy, crate, list(first.values()))
        rest = [path for path in rest if path not in first.values()]
    return said


def checked(copy, crate, paths):
    """What the check of the crate says of each edit, by its name."""
    kept = copy / "crates" / crate / "must-fail"
    shutil.rmtree(kept, ignore_errors=True)
    kept.mkdir()
    for path in paths:
        shutil.copy(path, kept)
    done = subprocess.run(["rt", "must-fail", crate], cwd=copy, capture_output=True, text=True)
    return {m[2]: (m[3] + (m[4] or ""), m[5]) for m in map(TOLD.match, done.stdout.splitlines() + done.stderr.splitlines()) if m}


def shown(text):
    """Code in a cell of a table."""
    return "`" + text.strip().replace("|", "\\|") + "`"


def row(copy, crate, path, said):
    """The row of an edit, and whether something refused it."""
    file, pairs, _ = edit_of(path)
    verdict, why = said.get(path.stem, ("NOT TRIED", ""))
    by = None
    if verdict.startswith("refused"):
        place = PLACE.match(why)
        goal = GOAL.search(place[2] if place else why)
        by = f"{place[1] if place else why}" + (f", `{goal[1] or goal[2]}`" if goal else f": {place[2]}" if place else "")
        # what rt says of a refusal that shows little
        by += verdict.removeprefix("refused, as it must be").removeprefix("refused")
    elif verdict == "NOT REFUSED":
        tests = refusing_tests(copy, crate, path)
        by = "only tests: " + ", ".join(tests) if tests else None
    change = "<br>".join(f"{shown(old)} → {shown(new)}" for old, new in pairs)
    return f"| {path.stem.replace('_', ' ')} | {file}: {change} | {by or '**' + verdict.strip().lower() + '** ' + why} |", by is not None


def print_table(copy, crate, together):
    """Tries the edits of a crate, and answers whether each was refused."""
    paths = sorted((TOP / "planted" / crate).glob("*.edit"))
    said = (checked_by_function if together else checked)(copy, crate, paths)
    print(f"## `{crate}`\n\n| Planted | Code | Refused by |\n|---|---|---|")
    all_refused = True
    for path in paths:
        text, refused = row(copy, crate, path, said)
        all_refused = all_refused and refused
        print(text, flush=True)
    print(flush=True)
    return all_refused


def main():
    wanted = argparse.ArgumentParser()
    wanted.add_argument("--copy", type=Path)
    wanted.add_argument("--together", action="store_true")
    wanted.add_argument("crates", nargs="*")
    wanted = wanted.parse_args()
    crates = wanted.crates or sorted(folder.name for folder in (TOP / "planted").iterdir())
    with tempfile.TemporaryDirectory() as folder:
        copy = wanted.copy or Path(folder) / "copy"
        shutil.copytree(TOP, copy, ignore=LEFT_OUT, dirs_exist_ok=True)
        tables = [print_table(copy, crate, wanted.together) for crate in crates]
    sys.exit(0 if all(tables) else 1)


main()
