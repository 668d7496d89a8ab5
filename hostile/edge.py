#!/usr/bin/env python3
"""Runs the proved program at the real edge, where files, output and words are bad: edge.py PROGRAM

PROGRAM is crates/box_main/out/box_main. Each row of the table tells what is done, the status that is wanted, and what
is to be printed; a row that answers otherwise is told, and the exit status is then 1.
"""

import os
import resource
import subprocess
import sys
import tempfile
import threading
import time

HERE = os.path.dirname(os.path.abspath(__file__))
EXAMPLE = os.path.join(HERE, "..", "crates", "box_main", "data")
TEXTS = ["example.plan", "ash.script", "beech.script", "cedar.script"]
WORDS = b"words not understood\n"
NOBODY = 65534

# Two boxes that await each other first. Of men who work one after another the first awaits in vain, whoever he is.
IN_TURN = {
    "turn.plan": "plan 1\nboxes 2\ndelay 2\nlooks 1000000000\nbox Ash\nbox Beech\nend\n",
    "turn_ash.script": "script Ash\n10:00 await_bell down 1\n10:00 ring down 1\nend\n",
    "turn_beech.script": "script Beech\n10:00 await_bell up 1\n10:00 ring up 1\nend\n",
}
ASH_FIRST = b"""journal 1
1 Ash 10:00 await_bell down 1 -> not_yet 0 none
2 Ash 10:00 ring down 1 -> rung 1
3 Beech 10:00 await_bell up 1 -> heard 1 1
4 Beech 10:00 ring up 1 -> rung 1
end
register Ash 2
1 10:00 await_bell down 1 -> not_yet 0 none
2 10:00 ring down 1 -> rung 1
register Beech 2
1 10:00 await_bell up 1 -> heard 1 1
2 10:00 ring up 1 -> rung 1
refusals 1
1 Ash 10:00 await_bell down 1 -> not_yet 0 none
section down Ash Beech most 0
section up Beech Ash most 0
"""
BEECH_FIRST = b"""journal 1
1 Beech 10:00 await_bell up 1 -> not_yet 0 none
2 Beech 10:00 ring up 1 -> rung 1
3 Ash 10:00 await_bell down 1 -> heard 1 1
4 Ash 10:00 ring down 1 -> rung 1
end
register Ash 2
1 10:00 await_bell down 1 -> heard 1 1
2 10:00 ring down 1 -> rung 1
register Beech 2
1 10:00 await_bell up 1 -> not_yet 0 none
2 10:00 ring up 1 -> rung 1
refusals 1
1 Beech 10:00 await_bell up 1 -> not_yet 0 none
section down Ash Beech most 0
section up Beech Ash most 0
"""


class Edge:
    def __init__(self, program, folder):
        self.program, self.folder, self.bad, self.rows = os.path.abspath(program), folder, 0, 0
        for name in TEXTS:
            with open(f"{EXAMPLE}/{name}", "rb") as source, open(self.path(name), "wb") as copy:
                copy.write(source.read())
        self.output = self.ran(["run", *TEXTS])[1]

    def path(self, name):
        return f"{self.folder}/{name}"

    def ran(self, words, **how):
        """Runs the program in the folder, and returns its status, what it printed, and what it said of errors."""
        how.setdefault("stdout", subprocess.PIPE)
        ran = subprocess.run([self.program, *words], cwd=self.folder, stderr=subprocess.PIPE, timeout=300, **how)
        return ran.returncode, ran.stdout or b"", ran.stderr

    def row(self, what, words, status, printed, **how):
        """A row of the table: the status is one of these, and what is printed with it is this."""
        statuses = status if isinstance(status, tuple) else (status,)
        told = self.ran(words, **how)
        texts = printed if isinstance(printed, tuple) else (printed,)
        is_so = told[0] in statuses and told[1] in texts and not told[2]
        self.rows += 1
        self.bad += not is_so
        if not is_so:
            print(f"{what}: status {told[0]}, printed {told[1][:80]!r}, errors {told[2][:80]!r}")

    # ---- files

    def files(self):
        found = self.ran(["check", TEXTS[0]])[1]
        os.mkdir(self.path("folder"))
        self.row("a plan that is a folder", ["check", "folder"], 2, b"")
        self.row("a plan that isn't there", ["check", "nowhere"], 2, b"")
        self.row("a plan in a file as if it were a folder", ["check", "ash.script/plan"], 2, b"")
        self.row("a folder as a script", ["run", TEXTS[0], "folder", *TEXTS[2:]], 2, b"")
        self.row("a folder as a journal", ["judge", TEXTS[0], "folder"], 2, b"")
        self.row("an empty file", ["check", "/dev/null"], 4, b"refused text 1 line 1: no end\n")
        self.row("a path with ..", ["check", "folder/../folder/.././example.plan"], 0, found)
        for what, name in (("a newline", "a\nplan"), ("a space", " plan"), ("letters of two bytes", "Größe")):
            os.link(self.path(TEXTS[0]), self.path(name))
            self.row(f"a name with {what}", ["check", name], 0, found)
        self.row("a name of 4,096 bytes", ["check", "n" * 4096], 2, b"")
        self.row("a path of 4,094 bytes", ["check", "./" * 2041 + TEXTS[0]], (0, 2), (b"", found))
        os.symlink("round", self.path("round"))
        self.row("a link to itself", ["check", "round"], 2, b"")
        self.row("endless zeros", ["check", "/dev/zero"], (4, 5), (b"refused text 1 line 0: too long\n", b""))

    def leave_to_read(self):
        name = "locked.plan"
        os.link(self.path(TEXTS[0]), self.path("open.plan"))
        with open(self.path(name), "wb") as file:
            file.write(b"plan 1\n")
        os.chmod(self.path(name), 0)
        os.chmod(self.folder, 0o755)
        how = {"user": NOBODY, "group": NOBODY} if os.getuid() == 0 else {}
        self.row("a plan without leave to read", ["check", name], 2, b"", **how)

    def cut_while_read(self):
        """A file that another writes anew and cuts all the time: what was read is a beginning of it, or a mixture."""
        is_over, path = threading.Event(), self.path("shifting.plan")
        with open(self.path(TEXTS[0]), "rb") as file:
            whole = file.read()

        def shift():
            while not is_over.is_set():
                for size in (len(whole), len(whole) // 2, 0):
                    with open(path, "r+b" if os.path.exists(path) else "w+b") as file:
                        file.write(whole[:size])
                        file.truncate(size)

        writer = threading.Thread(target=shift)
        writer.start()
        statuses = set()
        try:
            while not os.path.exists(path):
                time.sleep(0.01)
            for _ in range(200):
                statuses.add(self.ran(["check", "shifting.plan"])[0])
        finally:
            is_over.set()
            writer.join()
        self.rows += 1
        if not statuses <= {0, 2, 4}:
            self.bad += 1
            print(f"a file that is cut while it is read: statuses {sorted(statuses)}")

    def pipes(self):
        """A pipe whose writer ends early: the text is what came."""
        os.mkfifo(self.path("pipe"))

        def write():
            with open(self.path("pipe"), "wb") as file:
                file.write(b"plan 1\nboxes 2")

        writer = threading.Thread(target=write)
        writer.start()
        self.row("a pipe that ends early", ["check", "pipe"], (2, 4), (b"", b"refused text 1 line 2: cut\n"))
        writer.join()

    # ---- output

    def outputs(self):
        with open("/dev/full", "wb") as full:
            for words in (["run", *TEXTS], ["check", TEXTS[0]], ["check", "/dev/null"], ["nonsense"], ["stress", "1"]):
                self.row(f"a full disk, {words[0]}", words, 3, b"", stdout=full)
        reading, writing = os.pipe()
        os.close(reading)
        self.row("a pipe that nobody reads", ["run", *TEXTS], 3, b"", stdout=writing)
        os.close(writing)
        self.row("a closed output", ["run", *TEXTS], 3, b"", stdout=None, preexec_fn=lambda: os.close(1))

    # ---- threads

    def refused_threads(self):
        """Where no thread can be started, no man waits for one whose turn hasn't come."""
        if os.getuid() != 0:
            return
        for name, text in IN_TURN.items():
            with open(self.path(name), "w", encoding="ascii") as file:
                file.write(text)
        os.chmod(self.folder, 0o755)
        one = lambda: resource.setrlimit(resource.RLIMIT_NPROC, (1, 1))
        how = {"user": NOBODY, "group": NOBODY, "preexec_fn": one}
        self.row("no thread can be started", ["run", *IN_TURN], 0, (ASH_FIRST, BEECH_FIRST), **how)

    # ---- words

    def words(self):
        many = [f"script{number}" for number in range(10_000)]
        self.row("ten thousand scripts", ["run", TEXTS[0], *many], 4, b"refused text 1 line 0: number of scripts\n")
        self.row("ten thousand words", ["check", *many], 1, WORDS)
        for what, word in (("no UTF-8", b"\xff\xfe"), ("half a letter", b"plan\xc3"), ("a surrogate", b"\xed\xa0\x80")):
            self.row(f"a word that is {what}", ["check", word], 1, WORDS)
            self.row(f"a first word that is {what}", [word], 1, WORDS)
        long = "check " + "x" * 100_000 + " plan"
        for said in ("", "check", "check -", "check --help", "--help", "-V", "help", "stress 0", "stress 201",
                     "stress 01", "stress +1", "watch 0 plan ash", "watch 1001 plan ash", "watch 01 plan ash",
                     "watch 1 plan", "Check plan", long, "check\tplan"):  # fmt: skip
            self.row(f"the words {said}"[:60], said.split(" ") if said else [], 1, WORDS)
        self.row("an empty first word", [""], 1, WORDS)
        self.row("an empty name", ["check", ""], 1, WORDS)

    def all(self):
        must_be = b"journal 1\n1 Ash"
        if not self.output.startswith(must_be):
            sys.exit(f"{self.program} doesn't work the example line")
        files = (self.files, self.leave_to_read, self.cut_while_read)
        for part in (*files, self.pipes, self.outputs, self.refused_threads, self.words):
            part()
        print(f"edge {self.rows} agree {self.rows - self.bad}")
        return 1 if self.bad else 0


if __name__ == "__main__":
    if len(sys.argv) != 2:
        sys.exit(__doc__)
    with tempfile.TemporaryDirectory(prefix="menglazou-edge-") as room:
        sys.exit(Edge(sys.argv[1], room).all())
