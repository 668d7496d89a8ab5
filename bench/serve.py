#!/usr/bin/env python3
"""Times `signalbox serve` through a pipe: serve.py PROGRAM [ROUNDS].

Two boxes ring a code to one another and hear it, 100,000 calls. In each of ROUNDS (5) all requests are written while
the answers are read; and then 10,000 are asked one at a time, each when the answer before it is there. The lines have the
median seconds, and of the first the most memory and the processor's time for each call."""

import os
import statistics
import subprocess
import sys
import tempfile
import threading
import time

PLAN = "plan 2\nboxes 2\ndelay 2\nlooks 1000000\nbox Ash\nbox Beech\nend\n"
CALLS = 100_000
ALONE = 10_000


def requests(count):
    """As many calls: a code is rung and heard, one way and the other, all within the day."""
    turns = [("Ash", "ring down 1"), ("Beech", "hear up"), ("Beech", "ring up 1"), ("Ash", "hear down")]
    for at in range(count):
        name, call = turns[at % 4]
        second = at * 80_000 // count
        moment = f"{second // 3600:02}:{second // 60 % 60:02}:{second % 60:02}"
        yield f'{{"box":"{name}","at":"{moment}","call":"{call}"}}\n'.encode()


def begin(program, plan):
    return subprocess.Popen([program, "serve", plan], stdin=subprocess.PIPE, stdout=subprocess.PIPE)


def together(program, plan):
    """The seconds, the processor's seconds and the most kilobytes where all are written while the answers are read."""
    text = b"".join(requests(CALLS)) + b'{"end":true}\n'
    begun = time.perf_counter()
    process = begin(program, plan)
    writer = threading.Thread(target=lambda: (process.stdin.write(text), process.stdin.close()))
    writer.start()
    answers = process.stdout.read()
    writer.join()
    _, status, used = os.wait4(process.pid, 0)
    process.returncode = status
    seconds = time.perf_counter() - begun
    lines = answers.splitlines()
    assert status == 0 and lines[-1] == b'{"entries":%d}' % CALLS, lines[-1]
    assert all(b'"done":true' in line for line in lines[:-1])
    return seconds, used.ru_utime + used.ru_stime, used.ru_maxrss


def alone(program, plan):
    """The seconds for a call, where each is written when the answer before it is there."""
    process = begin(program, plan)
    begun = time.perf_counter()
    for line in requests(ALONE):
        process.stdin.write(line)
        process.stdin.flush()
        assert b'"done":true' in process.stdout.readline()
    seconds = time.perf_counter() - begun
    process.stdin.close()
    process.wait()
    return seconds / ALONE


def main(program, rounds=5):
    with tempfile.TemporaryDirectory() as at:
        plan = f"{at}/line.plan"
        with open(plan, "w", encoding="ascii") as it:
            it.write(PLAN)
        runs = [together(program, plan) for _ in range(int(rounds))]
        each = [alone(program, plan) for _ in range(int(rounds))]
        seconds = statistics.median(run[0] for run in runs)
        processor = statistics.median(run[1] for run in runs) / CALLS
        print(f"{CALLS} calls {seconds:6.2f} s, {processor * 1e6:5.1f} us of the processor each, "
              f"{max(run[2] for run in runs) // 1024} MB")
        print(f"one at a time {statistics.median(each) * 1e6:6.1f} us each")


if __name__ == "__main__":
    main(*sys.argv[1:])
