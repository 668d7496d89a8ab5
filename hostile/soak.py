#!/usr/bin/env python3
"""Works made lines until the time is over, and stops at the first fault: soak.py PROGRAM MINUTES [SEED]

PROGRAM is the proved program, crates/box_main/out/box_main. Each round makes a line of 2 to 6 boxes, absolute and
permissive, in either version, with trains that are offered and accepted by the book, signalmen who leave out calls,
overrun, divide trains and release lines, and signalmen who do anything at all; few looks, so that awaits are given up, or
a million, so that men sleep.
The scripts are worked by `watch`, each on its thread, and the output is tested here, from the replies alone:

- the journal has each script's calls, once each and in their order; the registers are its parts; the refused calls are
  those whose replies are refused; and `judge` finds it legal;
- no call stands behind one of a higher box without need, where the two share nothing;
- the most trains of each section are as the replies tell, and while a section is clean it holds no more than it may;
- each sight on the board shows an instrument as it stood after some beginning of the journal, none as it stood before
  what an earlier round showed, and the last round shows all as they stand at the end.

A round has a number of its own, which is told, and makes the same line again where it is given as SEED.
"""

import os
import random
import subprocess
import sys
import tempfile
import time

sys.path.insert(0, os.path.join(os.path.dirname(os.path.abspath(__file__)), "..", "bench"))
from inputs import CLASSES, CODES, POSITIONS, box_lines, minutes, seconds, train_calls

REFUSED = {
    "bell_busy", "silent", "not_yet", "already_there", "not_from_normal", "home_reversed", "track_occupied",
    "welwyn_holds", "count_full", "already_reversed", "spare", "held_by_lever", "held_by_track", "held_by_instrument",
    "already_normal", "already_brought", "occupied", "no_train", "at_danger", "arm_off", "section_full",
    "portion_ahead", "no_portion", "already_winding", "not_at_normal", "not_winding", "too_soon",
}  # fmt: skip
BELLS, INSTRUMENTS, LINES = {"ring", "hear", "await_bell"}, {"turn", "await_block"}, {
    "await_train", "berth", "berth_part", "clear_portion"
}  # fmt: skip


class Fault(Exception):
    pass


def must(is_so, what):
    if not is_so:
        raise Fault(what)


# ---- A line and its scripts


class Made:
    """A line and its scripts, by chance."""

    def __init__(self, seed):
        self.chance = chance = random.Random(seed)
        self.boxes = chance.randint(2, 6)
        self.names = [f"Box{box}" for box in range(self.boxes)]
        self.version = chance.choice([1, 2])
        self.most = {}
        trains, wild = chance.randint(1, 12), chance.choice([0.0, 0.03, 0.2])
        self.plan = [f"plan {self.version}", f"boxes {self.boxes}", f"delay {chance.choice([0, 2, 40])}",
                     f"looks {chance.choice([1, 3, 20, 200, 2_000, 1_000_000])}"]  # fmt: skip
        for box, name in enumerate(self.names):
            self.plan += self.with_permissive(box, box_lines(self.boxes, box, name))
        self.scripts = [[] for _ in self.names]
        for train in range(1, trains + 1):
            self.work_train(train, wild)
        self.plan.append("end")
        self.scripts = [self.timed(calls) for calls in self.scripts]

    def with_permissive(self, box, lines):
        """Some incoming lines take more than one train."""
        more = []
        for way, sections in (("down", box - 1), ("up", box)):
            if f"berth {way} {'DB' if way == 'down' else 'UB'}" in lines:
                most = self.chance.choice([0, 0, 1, 2, 3])
                self.most[way, sections] = most or 1
                more += [f"permissive {way} {most}"] * (most > 0)
        behind = max(place for place, line in enumerate(lines) if line.startswith("clear ")) + 1
        return lines[:behind] + more + lines[behind:]

    def work_train(self, train, wild):
        """A train from end to end, by the book but for what a bad signalman does."""
        name, (kind, code) = f"t{train}", self.chance.choice(CLASSES)
        is_down = self.chance.random() < 0.5
        place = f"{self.names[0]} DP" if is_down else f"{self.names[-1]} UP"
        self.plan.append(f"train {name} {kind} {place}")
        for box, calls in enumerate(self.scripts):
            for call in train_calls(self.boxes, box, name, code, is_down, False):
                calls += self.spoiled(box, call) if self.chance.random() < wild else [call]

    def spoiled(self, box, call):
        """What a bad signalman does in place of a call: nothing, twice the call, a thing as bad as it, or anything."""
        word, _, rest = call.partition(" ")
        instead = {"pass": f"overrun {rest}", "berth": f"berth_part {rest}", "put": f"clear_portion {self.line(box)}"}
        way = self.line(box)
        return self.chance.choice([
            [], [call, call], [instead.get(word, call)], [instead.get(word, call), call],
            [f"wind {way}", f"release {way}"], [f"turn {way} {self.chance.choice(POSITIONS)}", call],
            [f"clear_portion {way}", call], [self.anything(box), call],
        ])  # fmt: skip

    def line(self, box):
        return self.chance.choice(["down"] * (box > 0) + ["up"] * (box < self.boxes - 1))

    def anything(self, box):
        choice = self.chance.choice
        side = choice(["up"] * (box > 0) + ["down"] * (box < self.boxes - 1))
        line = self.line(box)
        arms = [3, 4] if box == 0 else [1, 2] if box == self.boxes - 1 else [1, 2, 3, 4]
        return choice([
            f"ring {side} {choice(CODES)}", f"hear {side}", f"await_bell {side} {choice(CODES)}",
            f"await_block {side} {choice(POSITIONS)}", f"await_train {line}", f"berth {line}", f"berth_part {line}",
            f"clear_portion {line}", f"wind {line}", f"release {line}", f"turn {line} {choice(POSITIONS)}",
            f"pull {choice(range(1, 6))}", f"put {choice(range(1, 6))}", f"pass {choice(arms)}",
            f"overrun {choice(arms)}",
        ])  # fmt: skip

    def timed(self, calls):
        told, moment, day = [], 0, 1440 if self.version == 1 else 86_400
        for call in calls:
            moment = min(moment + self.chance.choice([0, 0, 0, 1, 3, 50]), day - 1)
            told.append(f"{minutes(moment) if self.version == 1 else seconds(moment)} {call}")
        return told

    def write(self, folder):
        """Writes plan and scripts, and returns their paths."""
        paths = [f"{folder}/plan", *(f"{folder}/{name}.script" for name in self.names)]
        texts = [self.plan, *([f"script {name}", *calls, "end"] for name, calls in zip(self.names, self.scripts))]
        for path, lines in zip(paths, texts):
            with open(path, "w", encoding="ascii") as file:
                file.write("\n".join(lines) + "\n")
        return paths


# ---- What is printed


class Entry:
    def __init__(self, line, names):
        told, _, reply = line.partition(" -> ")
        _, box, self.call = told.split(" ", 2)
        self.line, self.box, self.reply = line, names.index(box), reply
        self.words = self.call.split(" ")[1:]

    def said(self):
        return f"{self.call} -> {self.reply}"

    def shared(self, boxes):
        """What the call is decided on that another box shares, if it is one of such calls."""
        word, rest = self.words[0], self.words[1:]
        if word in BELLS:
            heard_at = self.box + (1 if rest[0] == "down" else -1)
            return ("bell", self.box, heard_at) if word == "ring" else ("bell", heard_at, self.box)
        if word in INSTRUMENTS or word in LINES:
            kind = "instrument" if word in INSTRUMENTS else "line"
            is_in = word != "await_block"
            return (kind, rest[0], self.section(rest[0], is_in))
        way = {"2": "down", "4": "up"}.get(rest[0]) if word in ("pull", "pass", "overrun") else None
        if way is None or self.box == (boxes - 1 if way == "down" else 0):
            return None
        return ("instrument" if word == "pull" else "line", way, self.section(way, False))

    def section(self, way, is_in):
        """The lower box of the section of that way that comes in here, or leaves."""
        return self.box - 1 if (way == "down") == is_in else self.box


def parts_of(output, made):
    """The journal's entries, and the lines behind it; the registers and refused calls are tested."""
    lines = output.decode("ascii").split("\n")
    must(lines[-1] == "" and lines[0] == f"journal {made.version}", "the journal's first line")
    end = lines.index("end")
    entries = [Entry(line, made.names) for line in lines[1:end]]
    must(all(entry.line.startswith(f"{at} ") for at, entry in enumerate(entries, 1)), "the entries' numbers")
    at = end + 1
    for box, name in enumerate(made.names):
        mine = [entry for entry in entries if entry.box == box]
        must([entry.call for entry in mine] == made.scripts[box], f"the calls of {name}")
        register = [f"register {name} {len(mine)}", *(f"{i} {entry.said()}" for i, entry in enumerate(mine, 1))]
        must(lines[at : at + len(register)] == register, f"the register of {name}")
        at += len(register)
    refused = [entry.line for entry in entries if entry.reply.split(" ")[0] in REFUSED]
    must(lines[at : at + len(refused) + 1] == [f"refusals {len(refused)}", *refused], "the refused calls")
    return entries, lines[at + len(refused) + 1 : -1]


def test_order(entries, made):
    """No entry could have stood before one of a higher box that comes before it and shares nothing with it."""
    of_box, on_shared = [-1] * made.boxes, {}
    for at, entry in enumerate(entries):
        shared = entry.shared(made.boxes)
        by_other = (place for box, place in on_shared.get(shared, {}).items() if box != entry.box)
        behind = max([of_box[entry.box], *by_other])
        must(max(of_box[entry.box + 1 :], default=-1) <= behind, f"the order at entry {at + 1}")
        of_box[entry.box] = at
        if shared:
            on_shared.setdefault(shared, {})[entry.box] = at


class Section:
    def __init__(self, limit):
        self.limit, self.line, self.berth, self.most, self.is_clean = limit, 0, 0, 0, True

    def held(self, at):
        held = self.line + self.berth
        self.most = max(self.most, held)
        must(not self.is_clean or held <= self.limit, f"{held} trains in a clean section at entry {at}")


def test_sections(entries, told, made):
    """Counts the trains of each section by the replies."""
    pairs = [(way, lower) for lower in range(made.boxes - 1) for way in ("down", "up")]
    sections = {pair: Section(made.most[pair]) for pair in pairs}
    for at, entry in enumerate(entries, 1):
        word, reply = entry.words[0], entry.reply.split(" ")[0]
        if reply in ("passed", "entered"):
            # (the home signal of the down line is lever 1, that of the up line lever 3)
            way = {"1": "down", "3": "up"}.get(entry.words[1])
            if way:
                sections[way, entry.section(way, True)].berth = 0
        if reply == "entered":
            _, way, lower = entry.shared(made.boxes)
            section = sections[way, lower]
            section.line += 1
            section.is_clean &= word == "pass"
        elif reply in ("berthed", "part_berthed", "cleared", "released"):
            way = entry.words[1]
            section = sections[way, entry.section(way, True)]
            section.line -= reply in ("berthed", "cleared")
            section.berth = 1 if reply in ("berthed", "part_berthed") else section.berth
            section.is_clean &= reply in ("berthed", "cleared")
        for section in sections.values():
            section.held(at)
    for (way, lower), line in zip(pairs, told, strict=True):
        rear, ahead = (lower, lower + 1) if way == "down" else (lower + 1, lower)
        most = f"section {way} {made.names[rear]} {made.names[ahead]} most {sections[way, lower].most}"
        must(line == most, f"the line of a section: {line}, by the replies {most}")


def stands_after(entry, boxes):
    """Which instrument an entry met or turned, and how that then stands, if the reply tells it."""
    reply = entry.reply.split(" ")
    if reply[0] == "turned":
        return (entry.words[1], entry.section(entry.words[1], True)), (reply[1], entry.words[2], "unspent")
    if reply[0] == "pulled_under":
        return entry.shared(boxes)[1:], (reply[1], "line_clear", "spent")
    if reply[0] == "held_by_instrument":
        return (reply[1], entry.section(reply[1], False)), (reply[2], reply[3], "spent")
    return None


def test_board(entries, told, made, rounds):
    """Each sight is one of those that the replies tell, in their order, and the last are those at the end."""
    pairs = [(way, lower) for lower in range(made.boxes - 1) for way in ("down", "up")]
    stood = {pair: [("0", "normal", "unspent")] for pair in pairs}
    for pair, sight in filter(None, (stands_after(entry, made.boxes) for entry in entries)):
        stood[pair].append(sight)
    must(told[0] == f"board {rounds}" and len(told) == 1 + rounds * len(pairs), "the board's size")
    seen, lines = dict.fromkeys(pairs, 0), iter(told[1:])
    for number in range(1, rounds + 1):
        for way, lower in pairs:
            rear, ahead = (lower, lower + 1) if way == "down" else (lower + 1, lower)
            *named, turns, position, mark = next(lines).split(" ")
            must(named == [str(number), way, made.names[rear], made.names[ahead]], f"the sections of round {number}")
            sights, sight = stood[way, lower], (turns, position, mark)
            must(sight in sights[seen[way, lower] :], f"a sight of round {number}: {' '.join(sight)}")
            seen[way, lower] = sights.index(sight, seen[way, lower])
            must(number < rounds or sight == sights[-1], f"the last sight of {way} {lower}")


def work(program, seed, folder):
    """Makes a line, works it, and tests what is printed. Returns how many calls it had."""
    made = Made(seed)
    paths, rounds = made.write(folder), made.chance.choice([1, 2, 30, 300])
    ran = subprocess.run([program, "watch", str(rounds), *paths], capture_output=True, timeout=600)
    must(ran.returncode == 0 and not ran.stderr, f"status {ran.returncode} {ran.stderr[:200]}")
    with open(f"{folder}/output", "wb") as file:
        file.write(ran.stdout)
    entries, told = parts_of(ran.stdout, made)
    test_order(entries, made)
    sections = 2 * (made.boxes - 1)
    test_sections(entries, told[:sections], made)
    test_board(entries, told[sections:], made, rounds)
    judged = subprocess.run([program, "judge", paths[0], f"{folder}/output"], capture_output=True, timeout=600)
    must(judged.returncode == 0 and judged.stdout == b"legal %d\n" % len(entries), f"the judge: {judged.stdout[:200]}")
    return len(entries)


def main(program, length, seed=None):
    program, rounds, calls = os.path.abspath(program), 0, 0
    begin = time.monotonic()
    seeds = random.SystemRandom()
    while rounds == 0 or (seed is None and time.monotonic() - begin < 60 * float(length)):
        number = int(seed) if seed else seeds.randrange(10**12)
        folder = tempfile.mkdtemp(prefix="menglazou-soak-")
        try:
            calls += work(program, number, folder)
        except Fault as fault:
            sys.exit(f"round {number}: {fault}; its files are in {folder}")
        for name in os.listdir(folder):
            os.remove(f"{folder}/{name}")
        os.rmdir(folder)
        rounds += 1
    print(f"{rounds} lines worked, {calls} calls, no fault")


if __name__ == "__main__":
    if len(sys.argv) not in (3, 4):
        sys.exit(__doc__)
    main(*sys.argv[1:])
