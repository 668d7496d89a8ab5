#!/usr/bin/env python3
"""Works lines that were rehearsed on threads, beside busy processes: races.py BOX_MAIN SIGNALBOX [LINES [RUNS]]

BOX_MAIN and SIGNALBOX are the proved programs. Rehearsed are the worked runs of crates/worked_cases/data/runs, and made
lines, by the book but for calls that change places, until LINES (200) of them have no race. Those are worked whose
scripts a rehearsal works to their ends: RUNS times each (100) by `run`, beside as many busy processes as there are
processors.

- Where the rehearsal names no race, each box has in every run the calls and replies that it had in the rehearsal. The
  first other run is a fault.
- Where it names races, the first other run is enough; how many lines had one is told at the end, and none would be a
  fault.
"""

import os
import subprocess
import sys
import tempfile

HERE = os.path.dirname(os.path.abspath(__file__))
sys.path[:0] = [HERE, os.path.join(HERE, "..", "bench")]
from load import load
from soak import Made

WORKED = os.path.join(HERE, "..", "crates", "worked_cases", "data", "runs")
NO_RACE = "may differ on threads: nothing"


class Other(Exception):
    """A run that isn't as the rehearsal."""


def printed(words, statuses=(0,)):
    ran = subprocess.run(words, stdout=subprocess.PIPE, stderr=subprocess.PIPE, text=True)
    if ran.returncode not in statuses:
        sys.exit(f"{' '.join(words)}: status {ran.returncode}: {ran.stderr}")
    return ran.stdout


def parts(journal):
    """The calls and replies of each box, in its order."""
    found = {}
    for line in journal.split("\n")[1 : journal.split("\n").index("end")]:
        _, box, told = line.split(" ", 2)
        found.setdefault(box, []).append(told)
    return found


class Rehearsed:
    """A line whose scripts a rehearsal worked."""

    def __init__(self, box_main, signalbox, name, paths):
        self.run, self.name = [box_main, "run", *paths], name
        report = printed([signalbox, "rehearse", *paths], (0, 1))
        self.is_whole = report.startswith("made all ")
        self.has_races = NO_RACE not in report.split("\n")
        self.parts = parts(printed([signalbox, "rehearse", "--journal", *paths], (0, 1)))

    def runs(self, times):
        """How many runs it took until one differed from the rehearsal, or None."""
        for run in range(1, times + 1):
            if parts(printed(self.run)) != self.parts:
                return run
        return None


def worked_runs():
    """The worked runs with a plan and scripts, by their names and the paths of these texts."""
    for name in sorted(os.listdir(WORKED)):
        with open(f"{WORKED}/{name}/words", encoding="ascii") as file:
            words = file.read().split()
        paths = [f"{WORKED}/{name}/{word}" for word in words[1:]]
        if words and words[0] == "run" and len(paths) > 1 and all(os.path.exists(path) for path in paths):
            if not open(f"{WORKED}/{name}/expected", encoding="ascii").read().startswith("refused"):
                yield name, paths


class ByTheBook(Made):
    """Up to three trains, whose calls are made by the book, but for some that change places."""

    def work_train(self, train, wild):
        if train <= 3:
            super().work_train(train, 0.0)

    def timed(self, calls):
        calls, slips = list(calls), self.chance.choice([0.0, 0.0, 0.01, 0.03])
        for place in range(1, len(calls)):
            if self.chance.random() < slips:
                calls[place - 1 : place + 1] = calls[place], calls[place - 1]
        return super().timed(calls)


def made_lines(folder):
    """Such lines, with a million looks, without an end."""
    seed = 0
    while True:
        made = ByTheBook(seed)
        made.plan = ["looks 1000000" if line.startswith("looks ") else line for line in made.plan]
        yield f"line {seed}", made.write(folder)
        seed += 1


class Tally:
    """How the lines came out."""

    def __init__(self, runs):
        self.runs, self.quiet, self.racy, self.differed = runs, 0, 0, 0

    def work(self, line):
        other = line.runs(self.runs)
        if line.has_races:
            self.racy, self.differed = self.racy + 1, self.differed + (other is not None)
        elif other is None:
            self.quiet += 1
        else:
            sys.exit(f"{line.name}: no race was named, and run {other} was another one")

    def told(self):
        told = f"{self.quiet} without a race, each the same {self.runs} times"
        return f"{told}; {self.differed} of {self.racy} with one differed"


def main(box_main, signalbox, lines="200", runs="100"):
    programs = os.path.abspath(box_main), os.path.abspath(signalbox)
    worked, made = Tally(int(runs)), Tally(int(runs))
    with tempfile.TemporaryDirectory(prefix="menglazou-races-") as folder, load():
        for name, paths in worked_runs():
            line = Rehearsed(*programs, name, paths)
            if line.is_whole:
                worked.work(line)
        print(f"worked runs: {worked.told()}", flush=True)
        for name, paths in made_lines(folder):
            line = Rehearsed(*programs, name, paths)
            if line.is_whole:
                made.work(line)
            if made.quiet >= int(lines):
                break
        print(f"made lines: {made.told()}", flush=True)
    if not worked.differed + made.differed:
        sys.exit("no line with a race differed")


if __name__ == "__main__":
    if not 3 <= len(sys.argv) <= 5:
        sys.exit(__doc__)
    main(*sys.argv[1:])
