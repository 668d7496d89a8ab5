#!/usr/bin/env python3
"""Runs the gate and tells what each crate took of it: gate.py [COMMAND ..]

The command is `make test` where none is given. What it prints is printed; behind that come its clock, its processor
minutes (user and system), and a table of processor minutes for each crate: its proof, its tests, and its must-fail edits
with the proof that these begin with. "Other" is what can't be told of a crate: what ran too shortly to be seen, links, the
programs and the tests as they run. The exit status is that of the command.
"""

import os
import resource
import subprocess
import sys
import threading
import time

SECONDS = 0.25
TICKS = os.sysconf("SC_CLK_TCK")
KINDS = ("proof", "tests", "edits")


def kind_of(words, folder):
    """The crate that a check is of, and whether it is of its proof, its tests or its edits, which have a folder of their own."""
    if not words[0].endswith("/rattle") or "--crate-name" not in words:
        return None
    crate = words[words.index("--crate-name") + 1]
    return crate, "edits" if "/rt-edit-" in folder else "tests" if "--test" in words else "proof"


def look(session, seen, kinds):
    """Notes of each process of the session what it has taken so far."""
    for pid in filter(str.isdigit, os.listdir("/proc")):
        try:
            with open(f"/proc/{pid}/stat", encoding="ascii", errors="replace") as file:
                stat = file.read().rpartition(")")[2].split()
            if int(stat[3]) != session:
                continue
            key = pid, stat[19]
            if not kinds.get(key):
                with open(f"/proc/{pid}/cmdline", encoding="utf-8", errors="replace") as file:
                    words = file.read().split("\0")
                kinds[key] = kind_of(words, os.readlink(f"/proc/{pid}/cwd"))
            seen[key] = int(stat[11]) + int(stat[12])
        except (OSError, IndexError):
            continue


def main(command):
    began, seen, kinds, ended = time.time(), {}, {}, threading.Event()
    run = subprocess.Popen(command, start_new_session=True)

    def watch():
        while not ended.wait(SECONDS):
            look(run.pid, seen, kinds)

    watcher = threading.Thread(target=watch)
    watcher.start()
    status = run.wait()
    ended.set()
    watcher.join()
    used = resource.getrusage(resource.RUSAGE_CHILDREN)
    table = {}
    for key, ticks in seen.items():
        if kinds.get(key):
            crate, kind = kinds[key]
            table.setdefault(crate, dict.fromkeys(KINDS, 0.0))[kind] += ticks / TICKS / 60
    whole = (used.ru_utime + used.ru_stime) / 60
    print(time.strftime("%Y-%m-%d %H:%M", time.localtime(began)), f"on {os.cpu_count()} processors:", " ".join(command))
    print(f"clock {(time.time() - began) / 60:.1f} minutes; processors {whole:.1f} minutes, user and system; status {status}")
    print("| Crate | Proof | Tests | Edits |\n|---|---|---|---|")
    for crate, row in table.items():
        print(f"| `{crate}` | {' | '.join(f'{row[kind]:.1f}' if row[kind] else '' for kind in KINDS)} |")
    sums = [sum(row[kind] for row in table.values()) for kind in KINDS]
    print(f"| all | {' | '.join(f'{it:.1f}' for it in sums)} |")
    print(f"other {whole - sum(sums):.1f}")
    return status


if __name__ == "__main__":
    sys.exit(main(sys.argv[1:] or ["make", "test"]))
