#!/usr/bin/env python3
"""Works the proved program on the greatest texts: sizes.py PROGRAM

PROGRAM is crates/box_main/out/box_main. A plan of 64 boxes, each with 64 places, 120 levers and 400 rows, with 5,000
trains and exactly 4,194,304 bytes, is checked, upgraded and worked by 64 scripts of 10,000 calls each; and a journal of
its 640,000 entries, of exactly 134,217,728 bytes, is judged and audited. Of each command the time and the most memory
are printed. One byte more of the plan or of the journal is refused. The exit status is 1 where the program answers
otherwise.
"""

import multiprocessing
import os
import subprocess
import sys
import tempfile
import time

HERE = os.path.dirname(os.path.abspath(__file__))
sys.path.insert(0, f"{HERE}/../bench")
import inputs  # noqa: E402

BOXES, PLACES, LEVERS, ROWS, TRAINS = 64, 64, 120, 400, 5_000
PLAN_BYTES, JOURNAL_BYTES = 4_194_304, 134_217_728


def filled(lines):
    """The lines of a box with all the places, levers and rows that a box may have; no call moves the levers added."""
    of = lambda word: [line for line in lines if line.startswith(f"{word} ")]
    rest = [line for line in lines if line.split()[0] not in ("box", "place", "lever", "row")]
    places = of("place") + [f"place E{number}" for number in range(PLACES - len(of("place")))]
    had = {int(line.split()[1]) for line in of("lever")}
    spare = [number for number in range(1, LEVERS + 1) if number not in had]
    levers = sorted(of("lever") + [f"lever {number} points" for number in spare], key=lambda line: int(line.split()[1]))
    pairs = ((one, other) for one in spare for other in spare if one != other)
    rows = of("row")
    for one, other in pairs:
        if len(rows) == ROWS:
            break
        when, too = spare[(one + other) % len(spare)], spare[(one * other) % len(spare)]
        if len({one, other, when, too}) == 4:
            rows.append(f"row {one} locks {other} both ways when {when} reversed and {too} normal")
    return of("box") + places + levers + rest + rows


def greatest(plan):
    """The plan with all that it may have, in as many bytes as it may have."""
    starts = [at for at, line in enumerate(plan) if line.startswith("box ")]
    trains = next(at for at, line in enumerate(plan) if line.startswith("train "))
    lines = plan[:starts[0]]
    for start, end in zip(starts, [*starts[1:], trains]):
        lines += filled(plan[start:end])
    had = plan[trains:-1]
    lines += had + [f"train extra_train_{number} ordinary Box0 C" for number in range(TRAINS - len(had))]
    text = "\n".join([*lines, ""])
    comments = PLAN_BYTES - len(text) - len("end\n")
    while comments > 0:
        size = comments if comments <= 201 else min(201, comments - 2)
        text += "#" * (size - 1) + "\n"
        comments -= size
    return text + "end\n"


def write_greatest(folder):
    inputs.wide(folder, "wide64", BOXES, 2)
    with open(f"{folder}/wide64/plan", encoding="ascii") as file:
        text = greatest(file.read().splitlines())
    assert len(text) == PLAN_BYTES
    for name, end in (("plan", ""), ("plan_longer", "\n")):
        with open(f"{folder}/{name}", "w", encoding="ascii") as file:
            file.write(text + end)


class Sizes:
    def __init__(self, program, folder):
        self.program, self.folder, self.bad = os.path.abspath(program), folder, 0

    def ran(self, words, printed, status=0, into=None):
        """Runs the program, and tells its time and the most memory that it took."""
        out = into or f"{self.folder}/printed"
        begun = time.monotonic()
        with open(out, "wb") as file:
            child = subprocess.Popen([self.program, *words], cwd=self.folder, stdout=file)
            _, ended, used = os.wait4(child.pid, 0)
        took = time.monotonic() - begun
        with open(out, "rb") as file:
            front = file.read(len(printed))
        is_so = os.waitstatus_to_exitcode(ended) == status and front == printed
        self.bad += not is_so
        size = os.path.getsize(out)
        told = "" if is_so else f": status {ended >> 8}, printed {front!r}"
        most = used.ru_maxrss / 1024
        print(f"{' '.join(words[:2])}: {took:.2f} s, {most:.0f} MB, {size} bytes printed{told}", flush=True)

    def plan(self):
        # (in a process of its own: what a program takes is counted from what this one has)
        writing = multiprocessing.Process(target=write_greatest, args=(self.folder,))
        writing.start()
        writing.join()
        self.ran(["check", "plan"], b"findings ")
        self.ran(["check", "plan_longer"], b"refused text 1 line 0: too long\n", status=4)
        self.ran(["upgrade", "plan"], b"plan 2\nboxes 64\n")
        self.ran(["tables", "plan", "Box63"], b"frame Box63\n")
        self.ran(["chart", "plan", "Box63"], b"chart Box63\n")

    def journal(self):
        scripts = [f"wide64/s{number:02}" for number in range(BOXES)]
        at = f"{self.folder}/journal"
        self.ran(["run", "plan", *scripts], b"journal 2\n1 ", into=at)
        with open(at, "ab") as file:
            file.truncate(min(JOURNAL_BYTES, os.path.getsize(at)))
            file.seek(0, os.SEEK_END)
            file.write(b"-" * (JOURNAL_BYTES - file.tell()))
        self.ran(["judge", "plan", "journal"], b"legal 640000\n")
        self.ran(["audit", "plan", "journal"], b"audit ")
        with open(at, "ab") as file:
            file.write(b"\n")
        self.ran(["judge", "plan", "journal"], b"refused text 2 line 0: too long\n", status=4)


def main(program):
    with tempfile.TemporaryDirectory(prefix="menglazou-sizes-") as folder:
        sizes = Sizes(program, folder)
        sizes.plan()
        sizes.journal()
        return 1 if sizes.bad else 0


if __name__ == "__main__":
    if len(sys.argv) != 2:
        sys.exit(__doc__)
    sys.exit(main(sys.argv[1]))
