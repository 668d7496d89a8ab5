#!/usr/bin/env python3
"""Works a line by `signalbox serve`: serve.py SIGNALBOX PLAN JOURNAL

It asks for the calls of a journal, one after another, and prints the journal that comes of them; docs/EMBEDDING.md has
the requests and the answers."""

import json
import subprocess
import sys


class Line:
    """A line that is held by `signalbox serve`."""

    def __init__(self, signalbox, plan):
        self.process = subprocess.Popen(
            [signalbox, "serve", plan], stdin=subprocess.PIPE, stdout=subprocess.PIPE, text=True
        )

    def ask(self, **request):
        self.process.stdin.write(json.dumps(request) + "\n")
        self.process.stdin.flush()
        return json.loads(self.process.stdout.readline())

    def close(self):
        self.ask(end=True)
        self.process.stdin.close()
        return self.process.wait()


def calls_of(journal):
    """The box, the moment and the call of each entry."""
    for line in journal:
        words = line.split(" -> ")[0].split(" ", 3)
        if words[0].isdigit():
            yield words[1:]


def main(signalbox, plan, journal):
    line = Line(signalbox, plan)
    print("journal 1")
    with open(journal, encoding="ascii") as file:
        for box, at, call in calls_of(file.read().splitlines()):
            entry = line.ask(box=box, at=at, call=call)
            print(entry["n"], entry["box"], entry["at"], entry["call"], "->", entry["reply"])
    print("end")
    return line.close()


if __name__ == "__main__":
    sys.exit(main(*sys.argv[1:]))
