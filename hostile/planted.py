#!/usr/bin/env python3
"""Tries the wrong bodies of planted.txt, each of which the contracts must refuse: planted.py [CRATE..]

It copies the checkout's files to a folder of its own, puts the edits of planted.txt in the place of those of
crates/*/must-fail, and runs `rt must-fail` there, for these crates or for all. An edit that isn't refused is told. The
exit status is 1 where there is one; planted.txt gets today's day at each that is refused.
"""

import datetime
import os
import re
import shutil
import subprocess
import sys
import tempfile

HERE = os.path.dirname(os.path.abspath(__file__))
ROOT = os.path.dirname(HERE)
LIST = f"{HERE}/planted.txt"


def read_list():
    """The lines of the list, each with its fields, or with None where it is a comment."""
    with open(LIST, encoding="utf-8") as file:
        lines = file.read().splitlines()
    return [(line, None if line.startswith("#") or not line else line.split("\t")) for line in lines]


def edit_text(fields):
    """The text of an edit's file, by its fields behind the name."""
    parts = [fields[at : at + 3] for at in range(0, len(fields), 3)]
    return "".join(f"file: {file}\nold: {old}\nnew: {new}\n" for file, old, new in parts)


def copied(folder, wanted):
    """Copies the files that git knows to the folder, with the edits of the list in the place of the checkout's own."""
    names = subprocess.run(["git", "ls-files", "-z"], cwd=ROOT, stdout=subprocess.PIPE, check=True).stdout
    for name in names.decode().split("\0"):
        if name and "/must-fail/" not in name and os.path.isfile(f"{ROOT}/{name}"):
            os.makedirs(os.path.dirname(f"{folder}/{name}"), exist_ok=True)
            shutil.copy2(f"{ROOT}/{name}", f"{folder}/{name}")
    for _, fields in read_list():
        if fields and (not wanted or fields[1] in wanted):
            os.makedirs(f"{folder}/crates/{fields[1]}/must-fail", exist_ok=True)
            with open(f"{folder}/crates/{fields[1]}/must-fail/{fields[2]}.edit", "w", encoding="utf-8") as file:
                file.write(edit_text(fields[3:]))


def tried(folder, wanted):
    """What came of each edit, by crate and name: whether it was refused. What rt says is printed as it comes."""
    crates = sorted({fields[1] for _, fields in read_list() if fields and (not wanted or fields[1] in wanted)})
    run = subprocess.Popen(["rt", "must-fail", *crates], cwd=folder, stdout=subprocess.PIPE, text=True)
    found = {}
    for line in run.stdout:
        print(line, end="", flush=True)
        told = re.match(r"(?:rt: )?must-fail (\w+)/(\w+)\.edit: (.*)", line)
        if told:
            found[told[1], told[2]] = told[3].startswith("refused")
    run.wait()
    return found


def main(wanted):
    with tempfile.TemporaryDirectory(prefix="planted-") as folder:
        copied(folder, wanted)
        found = tried(folder, wanted)
    lines, all_edits, refused, today = read_list(), 0, 0, datetime.date.today().isoformat()
    for at, (_, fields) in enumerate(lines):
        if fields and (not wanted or fields[1] in wanted):
            all_edits += 1
            if found.get((fields[1], fields[2])):
                refused += 1
                lines[at] = ("\t".join([today, *fields[1:]]), fields)
            else:
                print(f"not refused: {fields[1]}/{fields[2]}")
    with open(LIST, "w", encoding="utf-8") as file:
        file.write("".join(f"{line}\n" for line, _ in lines))
    print(f"planted {all_edits} refused {refused}")
    return 0 if refused == all_edits else 1


if __name__ == "__main__":
    sys.exit(main(sys.argv[1:]))
