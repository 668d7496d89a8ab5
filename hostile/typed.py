#!/usr/bin/env python3
"""Works a box with the proved `signalbox` in a pseudo-terminal, as a man who types: typed.py PROGRAM

PROGRAM is crates/signalbox/out/signalbox. Each row of the table tells what is typed, and what must be seen. A row that is
seen otherwise is told, and the exit status is then 1.
"""

import fcntl
import os
import pty
import re
import select
import signal
import struct
import subprocess
import sys
import termios
import time

HERE = os.path.dirname(os.path.abspath(__file__))
LINE = os.path.join(HERE, "..", "crates", "worked_cases", "data", "people", "work_guide_line")
ROWS, COLUMNS = 24, 80
PROMPT = re.compile(rb"Oak \d\d:\d\d> $")


class Seat:
    """The program with a terminal of 80 by 24 of its own."""

    def __init__(self, program, words, plain=None):
        self.master, slave = pty.openpty()
        fcntl.ioctl(slave, termios.TIOCSWINSZ, struct.pack("HHHH", ROWS, COLUMNS, 0, 0))
        self.slave = os.dup(slave)
        self.before = termios.tcgetattr(self.slave)
        surroundings = {k: v for k, v in os.environ.items() if k != "NO_COLOR"}
        if plain is not None:
            surroundings["NO_COLOR"] = plain

        def own_terminal():
            os.setsid()
            fcntl.ioctl(0, termios.TIOCSCTTY, 0)

        self.process = subprocess.Popen(
            [program, "work", *words, "valley.plan", "Oak", "elm.script"],
            stdin=slave, stdout=slave, stderr=slave, cwd=LINE, preexec_fn=own_terminal, env=surroundings)
        os.close(slave)
        self.seen = b""

    def read(self, seconds):
        """Reads what comes within so many seconds, or until a prompt stands at the end."""
        got, end = b"", time.time() + seconds
        while time.time() < end:
            ready, _, _ = select.select([self.master], [], [], 0.05)
            if ready:
                try:
                    piece = os.read(self.master, 65536)
                except OSError:
                    break
                if not piece:
                    break
                got += piece
            elif PROMPT.search(got) or self.process.poll() is not None:
                break
        self.seen += got
        return got

    def type(self, line):
        os.write(self.master, line)

    def status(self):
        try:
            return self.process.wait(timeout=20)
        except subprocess.TimeoutExpired:
            self.process.kill()
            return None

    def is_as_before(self):
        return termios.tcgetattr(self.slave) == self.before

    def close(self):
        os.close(self.master)
        os.close(self.slave)


def rows_of(line):
    """How many rows of the terminal a line takes."""
    return max(1, -(-len(line) // COLUMNS))


def fits(screen):
    """Whether what was drawn since a clearing, up to the prompt, stands within the rows of the terminal."""
    plain = re.sub(rb"\x1b\[\d*m", b"", screen).replace(b"\r", b"")
    at = re.search(rb"Oak \d\d:\d\d> ", plain)
    return at is not None and sum(rows_of(line) for line in plain[:at.end()].split(b"\n")) <= ROWS


def prompts(program):
    """A prompt stands before anything is typed, and again behind each answer."""
    seat = Seat(program, [])
    first = seat.read(20)
    if not PROMPT.search(first):
        return "no prompt before the first line"
    seat.type(b"hear up\n")
    if not PROMPT.search(seat.read(20)):
        return "no prompt behind an answer"
    seat.type(b"end\n")
    rest = seat.read(20)
    return None if b"register Oak 1" in rest and seat.status() == 0 else "no register at the end"


def control_d(program):
    """Ctrl-D is the end of input, which is `end`."""
    seat = Seat(program, [])
    seat.read(20)
    seat.type(b"\x04")
    rest = seat.read(20)
    if seat.status() != 0 or b"register Oak 0" not in rest:
        return "Ctrl-D doesn't end the session"
    return None if seat.is_as_before() else "Ctrl-D leaves the terminal otherwise"


def control_c(program):
    """Ctrl-C stops the program, and leaves the terminal as it was."""
    seat = Seat(program, ["--screen"])
    seat.read(20)
    seat.type(b"hear up\n")
    seat.read(20)
    seat.type(b"\x03")
    status = seat.status()
    if status != -signal.SIGINT:
        return f"Ctrl-C gives the status {status}"
    return None if seat.is_as_before() else "Ctrl-C leaves the terminal otherwise"


def screen(program):
    """With --screen the box, the answer and the prompt stand within 80 by 24."""
    seat = Seat(program, ["--screen", "--hint"])
    seat.read(20)
    lines = [b"hear up", b"ring up 1", b"look", b"turn down line_clear", b"hear up", b"ring up 3-1", b"may", b"help",
             b"codes", b"undo", b"pull 2", b"why", b"book", b"at 09:30", b"nonsense"]
    for line in lines:
        before = len(seat.seen)
        seat.type(line + b"\n")
        seat.read(20)
        if b"\x1b[H\x1b[2J" not in seat.seen[before:]:
            return f"nothing is drawn behind `{line.decode()}`"
    seat.type(b"end\n")
    seat.read(20)
    if seat.status() != 0:
        return "no end"
    wrong = [k for k, drawn in enumerate(seat.seen.split(b"\x1b[H\x1b[2J")[1:]) if not fits(drawn)]
    return f"the screens {wrong} don't fit" if wrong else None


def colours(program):
    """A refusal is red on a terminal, but not with --plain, nor where NO_COLOR is set."""
    for words, plain, wanted in [([], None, True), (["--plain"], None, False), ([], "1", False), ([], "", True)]:
        seat = Seat(program, words, plain)
        seat.read(20)
        seat.type(b"berth down\n")
        seat.read(20)
        seat.type(b"end\n")
        seat.read(20)
        seat.status()
        if (b"\x1b[31mrefused" in seat.seen) != wanted:
            return f"colours with {words}, NO_COLOR {plain}"
    return None


def hang_up(program):
    """Where the terminal goes away, so does the program."""
    seat = Seat(program, [])
    seat.read(20)
    seat.close()
    return None if seat.status() is not None else "the program stays"


def pipe(program):
    """Over a pipe there is no prompt and no colour, and each line is echoed: the same typing gives the same transcript."""
    with open(os.path.join(LINE, "typed"), "rb") as it:
        typed = it.read()
    words = [program, "work", "valley.plan", "Oak", "elm.script"]
    runs = [subprocess.run(words, input=typed, cwd=LINE, capture_output=True, timeout=60) for _ in range(2)]
    with open(os.path.join(LINE, "out"), "rb") as it:
        wanted = it.read()
    if runs[0].stderr or b"\x1b" in runs[0].stdout:
        return "a prompt or a colour over a pipe"
    if runs[0].stdout != runs[1].stdout:
        return "two transcripts of the same typing differ"
    return None if runs[0].stdout == wanted else "not the transcript of the worked case"


def main():
    program = os.path.abspath(sys.argv[1])
    failed = 0
    rows = [prompts, control_d, control_c, screen, colours, hang_up, pipe]
    for row in rows:
        wrong = row(program)
        if wrong:
            failed += 1
            print(f"{row.__name__}: {wrong}")
    print(f"{len(rows)} rows, {failed} seen otherwise")
    return 1 if failed else 0


if __name__ == "__main__":
    sys.exit(main())
