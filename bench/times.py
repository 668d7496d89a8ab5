#!/usr/bin/env python3
"""Times programs side by side on the large inputs: times.py PROGRAM..

A PROGRAM is the path of an executable that knows this project's commands; NAME=VALUE may stand before it, with a
space between. All programs are run on each case in turn, ROUNDS times (5). CASES chooses cases by name. The inputs
and outputs are kept in the folder WORK (else a new one, which is removed).

Printed are, for each case and program, the best and the median seconds, the processor's seconds of the best round,
the greatest memory in MiB (never told as less than this script's own, some 15), the best and the median seconds as
ratios to the first program's, and whether its output is that of the first program, byte for byte. Where the replies
depend on the order of the signalmen, the first program judges it.

A second table has some of the runs under load: beside as many busy processes as there are processors, which are
started for it and ended behind it.
"""

import filecmp
import os
import shutil
import statistics
import subprocess
import sys
import tempfile
import time

from load import load

HERE = os.path.dirname(os.path.abspath(__file__))
RUNS = ["made", "wide", "wide64", "free", "racy", "frame", "frame32", "trains", "convoy"]
JUDGED = ["made", "wide", "wide64", "free", "racy", "frame32", "trains"]
CASES = [
    *RUNS,
    *(f"{command}-{name}" for command in ("judge", "audit") for name in JUDGED),
    *("check", "tables", "chart", "upgrade", "stress"),
]
# Those that are run under load too.
UNDER_LOAD = ["made", "trains", "convoy", "wide", "wide64", "free"]
# Whose replies depend on the order of the signalmen.
IN_ANY_ORDER = {"free", "racy"}


class Program:
    def __init__(self, said):
        *settings, path = said.split(" ")
        self.said, self.path, self.settings = said, os.path.abspath(path), dict(it.split("=", 1) for it in settings)

    def run(self, words, output):
        """Runs it once and returns its seconds, the processor's seconds, its most memory in MiB, and its status."""
        with open(output, "wb") as file:
            begin = time.perf_counter()
            ran = subprocess.Popen([self.path, *words], stdout=file, env={**os.environ, **self.settings})
            _, status, used = os.wait4(ran.pid, 0)
            took = time.perf_counter() - begin
        ran.returncode = os.waitstatus_to_exitcode(status)
        return took, used.ru_utime + used.ru_stime, used.ru_maxrss / 1024, ran.returncode


def words_of(case, work, first):
    """The words of a case. A journal is what the first program prints."""
    scripts = lambda name: sorted(f"{work}/{name}/{it}" for it in os.listdir(f"{work}/{name}") if it.startswith("s"))
    command, _, name = case.partition("-")
    if name:
        journal = f"{work}/{name}/journal"
        if not os.path.isfile(journal):
            first.run(["run", f"{work}/{name}/plan", *scripts(name)], journal)
        return [command, f"{work}/{name}/plan", journal]
    other = {
        "check": ["check", f"{work}/frame32/plan"],
        "tables": ["tables", f"{work}/frame32/plan", "Box31"],
        "chart": ["chart", f"{work}/frame32/plan", "Box31"],
        "upgrade": ["upgrade", f"{work}/frame32/plan"],
        "stress": ["stress", "200"],
    }
    return other.get(case) or ["run", f"{work}/{case}/plan", *scripts(case)]


def verdict(case, number, status, work, first):
    if status:
        return f"status {status}"
    output = f"{work}/out/{case}.{number}"
    if case in IN_ANY_ORDER:
        judged = f"{output}.judged"
        first.run(["judge", f"{work}/{case}/plan", output], judged)
        with open(judged, encoding="ascii") as file:
            return file.readline().rstrip()
    if number == 0:
        return "first"
    return "equal" if filecmp.cmp(output, f"{work}/out/{case}.0", shallow=False) else "differs"


def compare(case, programs, rounds, work):
    words = words_of(case, work, programs[0])
    taken = [[] for _ in programs]
    for turn in range(rounds):
        for place in range(len(programs)):
            number = (place + turn) % len(programs)
            taken[number].append(programs[number].run(words, f"{work}/out/{case}.{number}"))
    medians = [statistics.median(it[0] for it in runs) for runs in taken]
    base = min(it[0] for it in taken[0])
    for number, runs in enumerate(taken):
        best, median = min(runs), medians[number]
        memory, status = max(it[2] for it in runs), max(it[3] for it in runs)
        told = verdict(case, number, status, work, programs[0])
        numbers = f"{best[0]:9.4f} {median:9.4f} {best[1]:9.4f} {memory:9.1f}"
        ratios = f"{best[0] / base:7.2f} {median / medians[0]:7.2f}"
        print(f"{case:14} {number:3} {numbers} {ratios}  {told}", flush=True)


def table(title, cases, programs, rounds, work):
    print(title)
    numbers = f"{'best':>9} {'median':>9} {'processor':>9} {'MiB':>9}"
    print(f"{'case':14} {'':3} {numbers} {'by best':>7} {'median':>7}  output")
    for case in cases:
        compare(case, programs, rounds, work)


def main(said):
    if not said:
        sys.exit(__doc__)
    programs, rounds = [Program(it) for it in said], int(os.environ.get("ROUNDS", "5"))
    kept = os.environ.get("WORK")
    work = os.path.abspath(kept) if kept else tempfile.mkdtemp(prefix="menglazou-bench-")
    try:
        os.makedirs(f"{work}/out", exist_ok=True)
        if not os.path.isfile(f"{work}/convoy/plan"):
            subprocess.run([sys.executable, f"{HERE}/inputs.py", work], check=True)
        print(f"{os.cpu_count()} processors, load {os.getloadavg()[0]:.2f}, rounds {rounds}")
        for number, program in enumerate(programs):
            print(f"program {number}: {program.said}")
        cases = os.environ.get("CASES", " ".join(CASES)).split()
        table("quiet", cases, programs, rounds, work)
        with load():
            table("under load", [case for case in cases if case in UNDER_LOAD], programs, rounds, work)
    finally:
        if not kept:
            shutil.rmtree(work)


if __name__ == "__main__":
    main(sys.argv[1:])
