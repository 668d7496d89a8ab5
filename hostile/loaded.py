#!/usr/bin/env python3
"""Works lines beside busy processes, and stops at the first fault: loaded.py PROGRAM [RUNS]

PROGRAM is the proved program, crates/box_main/out/box_main. Beside as many busy processes as there are processors it
works the bench's lines `free` and `racy`, whose replies depend on the order of the signalmen, RUNS times each (100),
and judges each journal, which must be legal. It works each of them once more with a million looks, so that men sleep.
"""

import os
import subprocess
import sys
import tempfile

HERE = os.path.dirname(os.path.abspath(__file__))
sys.path.insert(0, os.path.join(HERE, "..", "bench"))
from load import load

CASES = ["free", "racy"]


def patient(folder):
    """The folder of the same line with a million looks."""
    other = f"{folder}-patient"
    os.makedirs(other)
    for name in os.listdir(folder):
        with open(f"{folder}/{name}", encoding="ascii") as file:
            lines = file.read().splitlines()
        with open(f"{other}/{name}", "w", encoding="ascii") as file:
            file.writelines("looks 1000000\n" if line.startswith("looks ") else f"{line}\n" for line in lines)
    return other


def work(program, folder, output):
    """Works the line of a folder and has its journal judged."""
    scripts = sorted(f"{folder}/{name}" for name in os.listdir(folder) if name.startswith("s"))
    with open(output, "wb") as file:
        ran = subprocess.run([program, "run", f"{folder}/plan", *scripts], stdout=file)
    if ran.returncode:
        sys.exit(f"{folder}: status {ran.returncode}")
    judged = subprocess.run([program, "judge", f"{folder}/plan", output], stdout=subprocess.PIPE, text=True)
    if judged.returncode or not judged.stdout.startswith("legal "):
        sys.exit(f"{folder}: {judged.stdout.rstrip()} (status {judged.returncode})")


def main(program, runs="100"):
    program = os.path.abspath(program)
    with tempfile.TemporaryDirectory(prefix="menglazou-loaded-") as folder:
        subprocess.run([sys.executable, f"{HERE}/../bench/inputs.py", folder], check=True, stdout=subprocess.DEVNULL)
        with load():
            for case in CASES:
                for _ in range(int(runs)):
                    work(program, f"{folder}/{case}", f"{folder}/output")
                work(program, patient(f"{folder}/{case}"), f"{folder}/output")
                print(f"{case}: {runs} runs, and one with a million looks, each legal", flush=True)


if __name__ == "__main__":
    if len(sys.argv) not in (2, 3):
        sys.exit(__doc__)
    main(*sys.argv[1:])
