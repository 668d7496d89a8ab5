#!/usr/bin/env python3
"""Writes the large inputs: inputs.py FOLDER. Each case is a folder with `plan` and the scripts s00, s01, ..

made     the made line of 200 trains: 3 boxes, 12,000 calls
wide     32 boxes, 10,000 calls each; neighbours meet by bells and instruments, by awaits that every order of the
         signalmen satisfies, so that the output is the same at every run
wide64   the same with 64 boxes, in version 2
free     32 boxes, 10,000 calls each, and no await; the replies depend on the order of the signalmen
racy     the same with more trains, and awaits that are given up after 20 looks
frame    2 boxes of 120 levers and 400 rows, 10,000 pulls and puts each
frame32  the same with 32 boxes
trains   32 boxes, 350 trains from end to end, down and up in turn
convoy   32 boxes, 330 trains, all down, so that many are on the line at once
"""

import os
import random
import sys

CALLS = 10_000
CODES = ["1", "2", "2-1", "3-1", "2-3", "2-2-1", "4", "6", "16", "3-5"]
CLASSES = [("light", "2-3"), ("ordinary", "3-1"), ("express", "4"), ("empty", "2-2-1")]
POSITIONS = ["normal", "line_clear", "train_on_line"]


def write(folder, case, plan, scripts):
    """Writes a case. Its scripts are lists of calls, one for each box in box order."""
    at = f"{folder}/{case}"
    os.makedirs(at, exist_ok=True)
    boxes = [line.split()[1] for line in plan if line.startswith("box ")]
    with open(f"{at}/plan", "w", encoding="ascii") as file:
        file.write("\n".join(plan) + "\n")
    for number, (box, calls) in enumerate(zip(boxes, scripts)):
        assert len(calls) <= CALLS, (case, box, len(calls))
        with open(f"{at}/s{number:02}", "w", encoding="ascii") as file:
            file.write("\n".join([f"script {box}", *calls, "end"]) + "\n")
    print(f"{case}: {len(boxes)} boxes, {sum(map(len, scripts))} calls")


def minutes(number):
    return f"{number // 60:02}:{number % 60:02}"


def seconds(number):
    return f"{minutes(number // 60)}:{number % 60:02}"


def timed(calls, version=1):
    """Calls with moments from 6:00 on, 20 to the minute or one to the second."""
    moments = (minutes(360 + i // 20) if version == 1 else seconds(21_600 + i) for i in range(len(calls)))
    return [f"{moment} {call}" for moment, call in zip(moments, calls)]


# ---- Trains from end to end


def offered(side, lever, code):
    """A train is offered to the box on that side and leaves by the starter, and its arrival is acknowledged."""
    return [
        f"ring {side} 1", f"await_bell {side} 1", f"ring {side} {code}", f"await_bell {side} {code}",
        f"await_block {side} line_clear", f"pull {lever}", f"ring {side} 2", f"await_bell {side} 2",
        f"pass {lever}", f"put {lever}", f"await_bell {side} 2-1", f"ring {side} 2-1",
    ]  # fmt: skip


def accepted(side, line, home, code):
    """A train from the box on that side is accepted, berthed, drawn past the home, and cleared."""
    return [
        f"await_bell {side} 1", f"ring {side} 1", f"await_bell {side} {code}", f"ring {side} {code}",
        f"turn {line} line_clear", f"await_bell {side} 2", f"ring {side} 2", f"turn {line} train_on_line",
        f"await_train {line}", f"berth {line}", f"pull {home}", f"pass {home}", f"put {home}",
        f"ring {side} 2-1", f"turn {line} normal", f"await_bell {side} 2-1",
    ]  # fmt: skip


def sent_off(lever):
    return [f"pull {lever}", f"pass {lever}", f"put {lever}"]


def box_lines(boxes, number, name):
    """The lines of a box of a line of trains: the first, the last, or one between."""
    first, last = number == 0, number == boxes - 1
    places = ["DP", "UB", "UP"] if first else ["DB", "DP", "UP"] if last else ["DB", "DP", "UB", "UP"]
    spare = 1 if first else 3 if last else 0
    lines = [f"box {name}", *(f"place {place}" for place in places)]
    lines += [f"lever {lever} {'spare' if lever == spare else 'signal'}" for lever in range(1, 5)]
    lines.append("lever 5 points")
    if first:
        return lines + [
            "signal 3 UB UP", "signal 4 UP away", "starter down 2 DP", "berth up UB", "clear up UP",
            "row 2 locks 5 normal", "row 3 locks 5 normal",
        ]  # fmt: skip
    if last:
        return lines + [
            "signal 1 DB DP", "signal 2 DP away", "starter up 4 UP", "berth down DB", "clear down DP",
            "row 1 locks 5 normal", "row 4 locks 5 normal",
        ]  # fmt: skip
    return lines + [
        "signal 1 DB DP", "signal 3 UB UP", "starter down 2 DP", "starter up 4 UP", "berth up UB", "berth down DB",
        "clear up UP", "clear down DP", "track 5 DP", "row 1 locks 5 normal", "row 3 locks 5 normal",
    ]  # fmt: skip


def train_calls(boxes, box, train, code, is_down, is_answered):
    """What the man of a box does for a train."""
    # Where all trains go down, the next offer would meet the last 2-1 unheard, so that is answered.
    heard, answer = (["await_bell down 16"], ["ring up 16"]) if is_answered else ([], [])
    if is_down:
        taken = [f"bring {train}"] if box == 0 else accepted("up", "down", 1, code) + answer
        return taken + (sent_off(2) if box == boxes - 1 else offered("down", 2, code) + heard)
    taken = [f"bring {train}"] if box == boxes - 1 else accepted("down", "up", 3, code)
    return taken + (sent_off(4) if box == 0 else offered("up", 4, code))


def train_line(names, trains, all_down=False, step=5):
    """A line of boxes with these names, and trains from end to end."""
    boxes = len(names)
    plan = ["plan 1", f"boxes {boxes}", "delay 2", "looks 1000000000"]
    for number, name in enumerate(names):
        plan += box_lines(boxes, number, name)
    scripts = [[] for _ in names]
    for train in range(1, trains + 1):
        kind, code = CLASSES[train % 4]
        is_down = all_down or train % 2 == 1
        plan.append(f"train t{train} {kind} " + (f"{names[0]} DP" if is_down else f"{names[-1]} UP"))
        moment = minutes(min(360 + step * (train - 1), 1439))
        for box, script in enumerate(scripts):
            script += [f"{moment} {call}" for call in train_calls(boxes, box, f"t{train}", code, is_down, all_down)]
    return [*plan, "end"], scripts


# ---- Boxes with bells, instruments and points


def wide_plan(boxes, chance, version=1, looks=1_000_000_000):
    plan = [f"plan {version}", f"boxes {boxes}", "delay 0", f"looks {looks}"]
    for box in range(boxes):
        is_first, is_last = box == 0, box == boxes - 1
        plan += [f"box Box{box}", "place C", "place D", "place P", "place DB", "place UB"]
        plan += [f"lever {lever} signal" for lever in range(1, 9)]
        plan += [f"lever {lever} points" for lever in range(10, 30)]
        plan += ["signal 1 C D", "signal 2 D C", "signal 5 DB P", "signal 6 UB P"]
        plan += ["starter down 3 P"] * (not is_last) + ["starter up 4 P"] * (not is_first)
        plan += ["berth up UB"] * (not is_last) + ["berth down DB"] * (not is_first)
        plan += ["clear up P"] * (not is_last) + ["clear down P"] * (not is_first)
        plan.append("track 10 C")
        for _ in range(30):
            lever, other, when, also = chance.sample(range(10, 30), 4)
            plan.append(chance.choice([
                f"row {lever} locks {other} normal when {when} reversed",
                f"row {lever} locks {other} normal when {when} normal and {also} reversed",
                f"row {lever} locks {other} both ways",
                f"row {lever} locks {other} normal",
            ]))  # fmt: skip
    return plan + [f"train t{box} ordinary Box{box} C" for box in range(boxes)] + ["end"]


class Local:
    """The calls of a box that no other box hears of: points pulled and put back, and a train that goes round."""

    def __init__(self, chance):
        self.chance, self.signal, self.reversed = chance, 1, set()

    def calls(self, count):
        calls = []
        while len(calls) < count:
            if self.chance.random() < 0.2 and count - len(calls) >= 3:
                calls += sent_off(self.signal)
                self.signal = 3 - self.signal
            else:
                lever = self.chance.randrange(10, 30)
                calls.append(f"{'put' if lever in self.reversed else 'pull'} {lever}")
                self.reversed ^= {lever}
        return calls


def wide(folder, case, boxes, version):
    chance = random.Random(2)
    plan = wide_plan(boxes, chance, version)
    rear = ["ring down 1", "await_block down line_clear", "hear down", "pull 3", "put 3", "ring down 2-1",
            "await_bell down 1"]  # fmt: skip
    advance = ["await_bell up 1", "ring up 2", "turn down line_clear", "await_bell up 2-1", "turn down normal",
               "wind down", "release down", "ring up 1"]  # fmt: skip
    scripts, rounds = [], 250
    for box in range(boxes):
        local, calls = Local(chance), [f"bring t{box}"]
        for number in range(1, rounds + 1):
            before = advance if box > 0 else []
            after = rear if box < boxes - 1 else []
            room = CALLS * number // rounds - len(calls) - len(before) - len(after)
            between = local.calls(room)
            calls += after + between + before if box % 2 == 0 else before + between + after
        scripts.append(timed(calls, version))
    write(folder, case, plan, scripts)


class Free:
    """The calls of a box that nobody leads: any call that its plan knows, by chance."""

    def __init__(self, chance, box, boxes, awaits):
        self.chance, self.box, self.awaits, self.trains, self.local = chance, box, awaits, 0, Local(chance)
        self.sides = ["up"] * (box > 0) + ["down"] * (box < boxes - 1)
        self.lines = [{"up": "down", "down": "up"}[side] for side in self.sides]
        self.arms = [3] * (box < boxes - 1) + [4] * (box > 0) + [5, 6]

    def waiting(self, side, line):
        choice = self.chance.choice
        calls = [choice([
            f"await_bell {side} {choice(CODES)}", f"await_block {side} {choice(POSITIONS)}", f"await_train {line}",
            f"{choice(['pass', 'overrun'])} {choice(self.arms)}", f"overrun {choice(self.arms)}",
        ])]  # fmt: skip
        if self.chance.random() < 0.3 and self.trains < 150:
            calls.append(f"bring u{self.box}_{self.trains}")
            self.trains += 1
        return calls

    def next(self):
        choice, kind = self.chance.choice, self.chance.random()
        side, line = choice(self.sides), choice(self.lines)
        if kind < 0.2:
            return [f"ring {side} {choice(CODES)}"]
        if kind < 0.4:
            return [f"hear {side}"]
        if kind < 0.5:
            return [f"turn {line} {choice(POSITIONS)}"]
        if kind < 0.53:
            return [f"wind {line}", f"release {line}"]
        if kind < 0.6:
            return [f"{choice(['pull', 'put'])} {choice([3, 4])}"]
        if kind < 0.62:
            return [f"{choice(['berth', 'berth', 'berth_part', 'clear_portion'])} {line}"]
        if self.awaits and kind < 0.75:
            return self.waiting(side, line)
        return self.local.calls(1)


def free(folder, case, looks=None):
    """Without looks no call waits; with them many awaits are given up after so many."""
    chance, boxes = random.Random(3), 32
    plan = wide_plan(boxes, chance, looks=looks or 1_000_000_000)
    scripts = []
    for box in range(boxes):
        man, calls = Free(chance, box, boxes, looks is not None), [f"bring t{box}"]
        while len(calls) < CALLS:
            calls += man.next()
        scripts.append(timed(calls[:CALLS]))
        plan[-1:-1] = [f"train u{box}_{number} light Box{box} P" for number in range(man.trains)]
    write(folder, case, plan, scripts)


# ---- Full frames


def holds(row, reversed_levers, moved):
    """Whether a row holds with a lever at mid."""
    lever, kind, other, conditions = row
    if lever != moved and lever not in reversed_levers:
        return True
    if any(at != moved and (at in reversed_levers) != (end == "reversed") for at, end in conditions):
        return True
    if kind == "both ways":
        return other != moved
    return other != moved and (other in reversed_levers) == (kind == "reversed")


def frame_box(chance):
    """The rows of a frame of 120 levers, and pulls and puts that follow what the frame allows."""
    lines, rows, by_lever = [], 400, {lever: [] for lever in range(1, 121)}
    for _ in range(rows):
        lever, other, *more = chance.sample(range(1, 121), 4)
        kind = chance.choices(["normal", "both ways", "reversed"], [6, 3, 1])[0]
        conditions = [(at, chance.choice(["normal", "reversed"])) for at in more[: chance.choice([1, 2, 2])]]
        says = f"released by {other}" if kind == "reversed" else f"locks {other} {kind}"
        lines.append(f"row {lever} {says} when " + " and ".join(f"{at} {end}" for at, end in conditions))
        for at in {lever, other, *(at for at, _ in conditions)}:
            by_lever[at].append((lever, kind, other, conditions))
    reversed_levers, calls = set(), []
    while len(calls) < CALLS:
        lever = chance.randint(1, 120)
        calls.append(f"{'put' if lever in reversed_levers else 'pull'} {lever}")
        if all(holds(row, reversed_levers, lever) for row in by_lever[lever]):
            reversed_levers ^= {lever}
    return lines, timed(calls)


def frames(folder, case, boxes):
    chance = random.Random(4)
    plan, scripts = ["plan 1", f"boxes {boxes}", "delay 0", "looks 1000000000"], []
    for box in range(boxes):
        lines, calls = frame_box(chance)
        plan += [f"box Box{box}", *(f"lever {lever} points" for lever in range(1, 121)), *lines]
        scripts.append(calls)
    write(folder, case, [*plan, "end"], scripts)


def main(folder):
    boxes = [f"Box{box}" for box in range(32)]
    write(folder, "made", *train_line(["Ash", "Beech", "Cedar"], 200))
    wide(folder, "wide", 32, 1)
    wide(folder, "wide64", 64, 2)
    free(folder, "free")
    free(folder, "racy", looks=20)
    frames(folder, "frame", 2)
    frames(folder, "frame32", 32)
    write(folder, "trains", *train_line(boxes, 350, step=3))
    write(folder, "convoy", *train_line(boxes, 330, all_down=True, step=3))


if __name__ == "__main__":
    main(*sys.argv[1:])
