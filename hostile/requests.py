#!/usr/bin/env python3
"""Asks `signalbox serve`, and the library, for what they may do and for what they may not.

requests.py PROGRAM [MINUTES [DOOR]]

PROGRAM is crates/signalbox/out/signalbox, DOOR the program of door.c, which answers by the library and calls it for much
else between two lines. For MINUTES (1), in one session after another, lines are written to PROGRAM, and to DOOR: calls of
all kinds, scripts, looks, changes and steps back, beside cut, changed and made-up requests, bytes of all kinds, deep
nesting and lines up to and over the longest. Where valgrind is installed every other session runs under it, and memory
that DOOR doesn't give back is told too. Each line must be answered by one line, an object of JSON, the same by both. A
copy of the journal is kept by the answers, where boxes have scripts with what `journal` tells of the rest, and a copy of
all that stands by the changes alone; from time to time both must be what `journal` and `look` tell. At the end of a
session the journal must be one that the program judges legal. Anything else is told, and the exit status is then 1."""

import json
import os
import random
import shutil
import subprocess
import sys
import tempfile
import time

HERE = os.path.dirname(os.path.abspath(__file__))
CASE = os.path.join(HERE, "..", "crates", "worked_cases", "data", "people", "serve_looks", "valley.plan")
WORDS = ["pull 1", "pull 2", "pull 3", "pull 4", "put 1", "put 2", "put 4", "bring Local", "pass 2", "pass 4",
         "overrun 4", "ring down 3-1", "ring up 1", "hear up", "hear down", "turn down line_clear", "turn down normal",
         "turn down train_on_line", "berth down", "await_bell up 3-1", "wind down", "release down", "turn down", "ring"]
SCRIPT_WORDS = ["pull 1", "pull 2", "put 1", "put 2", "await_bell up 3-1", "await_bell down 1", "ring up 1", "hear up",
                "hear down", "ring down 3-1"]
LONGEST = 65_536


def a_script(rng, second):
    """The text of a script, mostly one that can be read."""
    lines = [f"script {rng.choice(['Elm', 'Elm', 'Oak', 'Oak', 'Ash'])}"]
    for _ in range(rng.choice([0, 1, 2, 3, 5, 8])):
        second += rng.choice([0, 0, 60])
        lines.append(f"{second // 3600:02}:{second // 60 % 60:02} {rng.choice(SCRIPT_WORDS)}")
    lines += ["end"] if rng.randint(0, 15) else []
    return "".join(line + "\n" for line in lines)


def a_request(rng, count, second):
    """A request that is well formed, as an object."""
    at = f"{second // 3600:02}:{second // 60 % 60:02}"
    return rng.choice([
        {"box": rng.choice(["Elm", "Oak"]), "at": at, "call": rng.choice(WORDS)},
        {"box": rng.choice(["Elm", "Oak"]), "at": at, "call": rng.choice(WORDS)},
        {"may": rng.choice(["Elm", "Oak", "Ash"]), "at": at},
        {"look": rng.choice(["Elm", "Oak", "", True])},
        {"look": rng.choice(["Elm", "Oak"]), "to": rng.choice(["Elm", "Oak"])},
        {"changes": rng.randint(0, count + 1)},
        {"journal": rng.randint(0, count + 2)},
        {"script": a_script(rng, second)},
        {"back": max(0, count - rng.randint(-1, 3))},
    ])


def a_line(rng, count, second):
    """A line without its end: mostly a request, else a damaged one or anything at all."""
    line = json.dumps(a_request(rng, count, second), separators=rng.choice([(",", ":"), (", ", ": ")])).encode()
    kind = rng.randint(0, 15)
    if kind == 0:
        return line[:rng.randint(0, len(line))]
    if kind == 1:
        at = rng.randrange(len(line))
        return line[:at] + bytes([rng.choice([x for x in range(256) if x != 10])]) + line[at + 1:]
    if kind == 2:
        return bytes(rng.choice([x for x in range(256) if x != 10]) for _ in range(rng.randint(0, 60)))
    if kind == 3:
        return b"[" * rng.randint(1, 300)
    if kind == 4 and rng.randint(0, 20) == 0:
        return line + b" " * (LONGEST + rng.randint(-1, 2) - len(line))
    if kind == 5:
        return json.dumps(rng.choice([None, [], {}, 7, "end", {"end": False}, {"back": -1}, {"journal": 1e9}])).encode()
    return line


class Session:
    """Running programs, with copies of their journal and of what stands, as their answers tell them."""

    def __init__(self, commands, careful):
        words = ["valgrind", "-q", "--error-exitcode=99", "--leak-check=full"] if careful else []
        self.runs = [
            subprocess.Popen([*words, *command], stdin=subprocess.PIPE, stdout=subprocess.PIPE) for command in commands
        ]
        self.entries, self.seen, self.since = [], {}, 0
        self.look()

    def ask(self, line):
        """The answer of a line, read as JSON."""
        for run in self.runs:
            run.stdin.write(line + b"\n")
            run.stdin.flush()
        answers = [run.stdout.readline() for run in self.runs]
        told = json.loads(answers[0])
        if len(set(answers)) > 1 or not answers[0].endswith(b"\n") or not isinstance(told, dict):
            raise ValueError(f"{line[:200]!r} is answered by {[answer[:200] for answer in answers]}")
        return told

    def put(self, looks):
        """Puts things in the place of those with the same box and name."""
        for look in looks:
            for kind in ("bells", "blocks", "levers", "lines", "places"):
                for thing in look[kind]:
                    name = thing.get("lever") or thing.get("place") or thing["from"]
                    self.seen[look["box"], kind, name] = thing

    def look(self):
        self.seen = {}
        self.put(self.ask(b'{"look":true}')["looks"])
        self.since = len(self.entries)

    def follow(self):
        """Keeps the entries that boxes have made by their scripts."""
        self.entries += self.ask(b'{"journal":%d}' % (len(self.entries) + 1))["journal"]

    def compare(self):
        """Whether the copies are what the program tells."""
        told = self.ask(b'{"changes":%d}' % self.since)
        self.put(told["changes"])
        self.since = told["entries"]
        kept = dict(self.seen)
        self.look()
        whole = self.ask(b'{"journal":1}')["journal"]
        return kept == self.seen and whole == self.entries

    def take(self, line):
        """Asks a line, and keeps what its answer tells of the journal."""
        told = self.ask(line)
        if "n" in told:
            if told["n"] != len(self.entries) + 1:
                raise ValueError(f"{line[:200]!r} is answered by {told}, behind {len(self.entries)} entries")
            self.entries.append(told)
            self.follow()
        elif set(told) == {"entries"} and told["entries"] < len(self.entries):
            self.entries = self.entries[:told["entries"]]
            self.look()
        elif set(told) == {"entries"}:
            self.follow()
            if told["entries"] != len(self.entries):
                raise ValueError(f"{line[:200]!r} is answered by {told}, and there are {len(self.entries)} entries")
        elif not set(told) & {"error", "may", "journal", "changes", "looks", "box", "entries"}:
            raise ValueError(f"{line[:200]!r} is answered by {told}")

    def end(self):
        """Ends them, and gives the worst of their statuses."""
        if self.ask(b'{"end":true}') != {"entries": len(self.entries)}:
            raise ValueError("the last answer doesn't tell how many entries there are")
        for run in self.runs:
            run.stdin.close()
        return max(run.wait(60) for run in self.runs)


def judged(program, plan, entries, folder):
    """Whether the program takes the entries as a legal journal."""
    path = os.path.join(folder, "day.journal")
    with open(path, "w", encoding="ascii") as file:
        file.write("journal 1\n")
        for entry in entries:
            file.write(f"{entry['n']} {entry['box']} {entry['at']} {entry['call']} -> {entry['reply']}\n")
        file.write("end\n")
    return subprocess.run([program, "json", plan, path], stdout=subprocess.DEVNULL, check=False).returncode == 0


def session(program, door, plan, rng, careful, folder):
    """One session of some hundred lines; what is wrong with it, if anything is."""
    commands = [[program, "serve", plan]]
    if door:
        commands.append([door, plan, str(rng.randrange(2 ** 63))])
    held = Session(commands, careful)
    for number in range(400):
        second = 9 * 3600 + number * 60 + rng.choice([0, 0, 0, -600])
        held.take(a_line(rng, len(held.entries), second))
        if number % 50 == 49 and not held.compare():
            return "the copies differ from what is told"
    entries = held.entries
    status = held.end()
    if status != 0:
        return f"the status is {status}"
    return None if judged(program, plan, entries, folder) else "the journal isn't legal"


def main(program, minutes="1", door=None):
    seed, count, until = random.randrange(2 ** 32), 0, time.time() + 60 * float(minutes)
    has_valgrind = shutil.which("valgrind") is not None
    with tempfile.TemporaryDirectory() as folder:
        plan = shutil.copy(CASE, folder)
        while time.time() < until:
            careful = has_valgrind and count % 2 == 1
            try:
                wrong = session(program, door, plan, random.Random(seed + count), careful, folder)
            except (OSError, ValueError, KeyError, subprocess.TimeoutExpired) as fault:
                wrong = repr(fault)
            if wrong:
                print(f"session {seed + count}{' under valgrind' if careful else ''}: {wrong}")
                return 1
            count += 1
    print(f"{count} sessions of 400 lines, all as they should be")
    return 0


if __name__ == "__main__":
    sys.exit(main(os.path.abspath(sys.argv[1]), *sys.argv[2:3], *map(os.path.abspath, sys.argv[3:])))
