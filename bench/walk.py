#!/usr/bin/env python3
"""Times `signalbox states` beside the same walk in plain Rust (walk.rs, by rustc -O): walk.py PROGRAM [ROUNDS].

The frame is made: 40 levers and 60 rows, of which a million states are kept. Both walk it in turn, ROUNDS times (5);
each line has the median seconds and the most memory."""

import os
import random
import statistics
import subprocess
import sys
import tempfile
import time

HERE = os.path.dirname(os.path.abspath(__file__))
LEVERS, ROWS = 40, 60


def plan():
    chance = random.Random(54)
    lines = ["plan 1", "boxes 2", "delay 2", "looks 1000000", "box Elm", "place Yard", "place Platform"]
    lines += [f"lever {lever} {'signal' if lever in (2, 4) else 'points'}" for lever in range(1, LEVERS + 1)]
    lines += ["signal 2 Yard Platform", "starter down 4 Platform"]
    for _ in range(ROWS):
        lever, other, condition = chance.sample(range(1, LEVERS + 1), 3)
        says = chance.choice([f"locks {other} normal", f"locks {other} both ways", f"released by {other}"])
        when = f" when {condition} {chance.choice(['normal', 'reversed'])}" if chance.random() < 0.3 else ""
        lines.append(f"row {lever} {says}{when}")
    lines += ["box Oak", "place Approach", "place Platform", "lever 1 signal", "signal 1 Approach away",
              "berth down Approach", "end"]
    return "\n".join(lines) + "\n"


def work(words):
    """The seconds, the most kilobytes and the output of one run."""
    begun = time.perf_counter()
    process = subprocess.Popen(words, stdout=subprocess.PIPE, text=True)
    out = process.stdout.read()
    _, status, used = os.wait4(process.pid, 0)
    process.returncode = status
    return time.perf_counter() - begun, used.ru_maxrss, out


def main(program, rounds=5):
    with tempfile.TemporaryDirectory() as at:
        file, plain = f"{at}/frame.plan", f"{at}/walk"
        with open(file, "w", encoding="ascii") as it:
            it.write(plan())
        subprocess.run(["rustc", "-O", f"{HERE}/walk.rs", "-o", plain], check=True)
        ours, theirs = [], []
        for _ in range(int(rounds)):
            ours.append(work([program, "states", file, "Elm"]))
            theirs.append(work([plain, file, "Elm"]))
        count = theirs[0][2].strip()
        assert f"states that were walked: {count}\n" in ours[0][2], (count, ours[0][2][:300])
        for name, runs in ("signalbox states", ours), ("plain Rust", theirs):
            seconds = statistics.median(run[0] for run in runs)
            print(f"{name:<17}{seconds:7.2f} s{max(run[1] for run in runs) // 1024:6} MB   {count} states")
        print(f"ratio {statistics.median(run[0] for run in ours) / statistics.median(run[0] for run in theirs):.2f}")


if __name__ == "__main__":
    main(*sys.argv[1:])
