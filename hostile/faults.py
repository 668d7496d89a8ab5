#!/usr/bin/env python3
"""Refuses each allocation of the proved program in turn, one at a time, and then all from there on.

faults.py PROGRAM [TESTS]

PROGRAM is crates/box_main/out/box_main. For each command the program is run once for each allocation that it asks the
C library for; each time it ends with status 5 and prints nothing, or prints what it prints with ample memory. Anything
else is told, and the exit status is then 1. It takes some minutes, and a C compiler.

Where a thread can't be started, its script is worked when another has ended, so awaits are given up: what `run` and
`watch` then print must begin with a journal that the program judges legal. The made line of `stress` looks a thousand
million times before it gives up; where it still waits after some seconds it is stopped, and counted as waiting.

TESTS is crates/desk_tests/out/desk_tests_tests, which `make test` leaves: its tests of men who work a line call by
call, and close it once more where memory ran out for that, pass or tell that memory ran out.
"""

import os
import subprocess
import sys
import tempfile

HERE = os.path.dirname(os.path.abspath(__file__))
TEXTS = {
    "two.plan": "plan 1\nboxes 2\ndelay 2\nlooks 2000\nbox Ash\nbox Beech\nend\n",
    "ash": "script Ash\n10:00 ring down 1\n10:00 await_bell down 1\nend\n",
    "beech": "script Beech\n10:00 await_bell up 1\n10:00 ring up 1\nend\n",
    "single": "token 1\ntokens 1 0\n1 give\n0 draw 7\n0 depart\n1 arrive\n1 replace\nend\n",
}
# How long a made line may wait, in seconds, and what a run that is stopped has come to.
LONGEST, WAITS = 5, ("waits", b"", b"")
EXAMPLE = ["example.plan", "ash.script", "beech.script", "cedar.script"]


def commands(folder):
    """The words of each command, on texts that stand in the folder."""
    for name, text in TEXTS.items():
        with open(f"{folder}/{name}", "w", encoding="ascii") as file:
            file.write(text)
    for name in EXAMPLE:
        with open(f"{HERE}/../crates/box_main/data/{name}", "rb") as source, open(f"{folder}/{name}", "wb") as copy:
            copy.write(source.read().replace(b"looks 1000000000", b"looks 2000"))
    return [
        ["run", "two.plan", "ash", "beech"],
        ["run", *EXAMPLE],
        ["watch", "2", "two.plan", "ash", "beech"],
        ["stress", "1"],
        ["check", "example.plan"],
        ["tables", "example.plan", "Beech"],
        ["chart", "example.plan", "Beech"],
        ["upgrade", "example.plan"],
        ["judge", "example.plan", "journal"],
        ["judge", "example.plan", "wrong"],
        ["audit", "example.plan", "journal"],
        ["token", "single"],
        ["check", "ash"],
        ["nonsense"],
    ]


class Faults:
    def __init__(self, program, folder):
        self.program, self.folder, self.runs, self.bad = os.path.abspath(program), folder, 0, 0
        self.library = f"{folder}/refuse.so"
        subprocess.run(["cc", "-O2", "-shared", "-fPIC", "-o", self.library, f"{HERE}/refuse.c"], check=True)

    def ran(self, words, **settings):
        given = {"LD_PRELOAD": self.library, **settings}
        how = {"cwd": self.folder, "env": given, "capture_output": True}
        try:
            ran = subprocess.run([self.program, *words], **how, timeout=LONGEST if words[0] == "stress" else 300)
        except subprocess.TimeoutExpired:
            return WAITS
        return ran.returncode, ran.stdout, ran.stderr

    def is_legal(self, words, output):
        """Whether a run, watched or not, printed a journal that is judged legal."""
        with open(f"{self.folder}/printed", "wb") as file:
            file.write(output)
        plan = {"run": 1, "watch": 2}.get(words[0])
        return plan is not None and self.ran(["judge", words[plan], "printed"])[1].startswith(b"legal ")

    def count(self, words):
        """How many allocations the command asks for, at the most of some runs, and how it ends with ample memory."""
        most, told = 0, None
        for _ in range(5):
            told = self.ran(words, REFUSE_COUNT=f"{self.folder}/count")
            with open(f"{self.folder}/count", encoding="ascii") as file:
                most = max(most, int(file.read()))
        return most, told

    def refuse(self, words):
        count, ample = self.count(words)
        want = {ample, (5, b"", b"")} | ({WAITS} if words[0] == "stress" else set())
        ends = {}
        for number in range(1, count + 1):
            for settings in ({}, {"REFUSE_ALL": "1"}):
                told = self.ran(words, REFUSE=str(number), **settings)
                self.runs += 1
                ends[told[0]] = ends.get(told[0], 0) + 1
                if told not in want and not (told[0] == 0 and self.is_legal(words, told[1])):
                    self.bad += 1
                    which = f"allocation {number}{' and all behind it' if settings else ''}"
                    print(f"{' '.join(words)}: {which} refused: {told[0]} {told[1][:60]!r} {told[2][:60]!r}")
        said = ", ".join(f"{times} with status {status}" for status, times in sorted(ends.items(), key=str))
        print(f"{' '.join(words)}: {count} allocations; ended {said}", flush=True)


class TestFaults(Faults):
    """The same for one test of a program of tests."""

    def refuse(self, test):
        count, passes = self.count([test])
        ends = {}
        for number in range(1, count + 1):
            for settings in ({}, {"REFUSE_ALL": "1"}):
                told = self.ran([test], REFUSE=str(number), **settings)
                self.runs += 1
                ends[told[0]] = ends.get(told[0], 0) + 1
                if told[0] and b"NoMemory" not in told[2] or passes[0]:
                    self.bad += 1
                    print(f"{test}: allocation {number}: {told[0]} {told[1][:60]!r} {told[2][:60]!r}")
        said = ", ".join(f"{times} with status {status}" for status, times in sorted(ends.items(), key=str))
        print(f"{test}: {count} allocations; ended {said}", flush=True)

    def of_men(self):
        listed = subprocess.run([self.program, "--list"], capture_output=True, text=True).stdout.split("\n")
        return [line.split(": ")[0] for line in listed if "::men::" in line]


def main(program, *tests):
    with tempfile.TemporaryDirectory(prefix="menglazou-faults-") as folder:
        faults = Faults(program, folder)
        every = commands(folder)
        for name, cut in (("journal", None), ("wrong", b" -> rung 1\n")):
            journal = faults.ran(every[1])[1]
            with open(f"{folder}/{name}", "wb") as file:
                file.write(journal.replace(cut, b" -> rung 2\n", 1) if cut else journal)
        for words in every:
            faults.refuse(words)
        for those in (TestFaults(path, folder) for path in tests):
            for test in those.of_men():
                those.refuse(test)
            faults.runs, faults.bad = faults.runs + those.runs, faults.bad + those.bad
        print(f"faults {faults.runs} agree {faults.runs - faults.bad}")
        return 1 if faults.bad else 0


if __name__ == "__main__":
    if len(sys.argv) not in (2, 3):
        sys.exit(__doc__)
    sys.exit(main(*sys.argv[1:]))
