#!/usr/bin/env python3
"""Draws pictures with the proved `signalbox` and opens each as people do: look.py PROGRAM [FOLDER]

PROGRAM is crates/signalbox/out/signalbox. The frames of the guide's line, of the example line of three boxes, and of a
box with as many levers and rows as a box may have are drawn; and the train graphs of what comes of these lines' scripts,
and of a line of 64 boxes. Each file is taken by xmllint, rsvg-convert and headless Chromium; whichever of these is
missing is installed from Debian's packages. A PNG of each, as each of the two drew it, is left in FOLDER (a new one
where none is given) to be looked at. The pictures of docs/pictures/ have to be those that are drawn now. The pages of a
sheet, a locking table and two films are taken by xmllint and Chromium, which steps through the films by their keys:
what it shows after an entry has to be what `picture` draws after it. What isn't so is told, and the exit status is 1.
"""

import os
import re
import shutil
import subprocess
import sys
import tempfile

HERE = os.path.dirname(os.path.abspath(__file__))
TOP = os.path.join(HERE, "..")
sys.path[:0] = [HERE, os.path.join(TOP, "bench")]
import film  # noqa: E402
import inputs  # noqa: E402
import sizes  # noqa: E402

# The tools draw no wider picture: a wider one is made smaller by one, and shown in part by the other.
WIDEST = 16_000
PACKAGES = {"xmllint": "libxml2-utils", "rsvg-convert": "librsvg2-bin", "chromium": "chromium"}
PEOPLE = os.path.join(TOP, "crates", "worked_cases", "data", "people")
VALLEY = os.path.join(PEOPLE, "frame_of_oak", "valley.plan")
GRAPHED = os.path.join(PEOPLE, "graph_guide_line")
DRAWN = os.path.join(PEOPLE, "picture_guide_line_in_the_middle")
LINE = os.path.join(TOP, "crates", "box_main", "data")
EXAMPLE = os.path.join(LINE, "example.plan")
REFUSED = os.path.join(PEOPLE, "sheet_refusals")
# The pages: file, and the words that print it.
PAGES = [
    ("sheet", ["sheet", "--html", f"{GRAPHED}/valley.plan", f"{GRAPHED}/day.journal"]),
    ("table", ["table", "--html", VALLEY, "Oak"]),
]
# The films: file, plan and journal.
FILMS = [
    ("film_guide", f"{GRAPHED}/valley.plan", f"{GRAPHED}/day.journal"),
    ("film_refusals", f"{REFUSED}/valley.plan", f"{REFUSED}/day.journal"),
]
# What is pressed in a film, and the entry that is shown then, of so many.
PRESSED = [
    ([], lambda last: 0),
    (["ArrowRight"], lambda last: 1),
    (["End"], lambda last: last),
    (["End", "ArrowLeft", "ArrowLeft"], lambda last: last - 2),
    (["End", "Home", "ArrowLeft"], lambda last: 0),
    (["ArrowRight"] * 20 + ["ArrowLeft"] * 6, lambda last: 14),
]
# Presses keys when the page is there.
PRESS = ("<script>%s.forEach(function(k){"
         "document.dispatchEvent(new KeyboardEvent('keydown',{key:k,cancelable:true}));});</script>")
# The pictures of the documents: file, and the words that draw it.
SHOWN = [
    ("oak_frame.svg", ["frame", VALLEY, "Oak"]),
    ("valley_graph.svg", ["graph", f"{GRAPHED}/valley.plan", f"{GRAPHED}/day.journal"]),
    ("valley_line.svg", ["picture", f"{DRAWN}/valley.plan", f"{DRAWN}/day.journal", "22"]),
]


def install():
    missing = [package for tool, package in PACKAGES.items() if not shutil.which(tool)]
    if missing:
        subprocess.run(["apt-get", "update", "-qq"], check=True)
        subprocess.run(["apt-get", "install", "-y", "-qq", *missing], check=True, stdout=subprocess.DEVNULL)


def great_plan(folder):
    """A plan of two boxes, of which the first has as many places, levers and rows as a box may have."""
    inputs.wide(folder, "two", 2, 1)
    with open(f"{folder}/two/plan", encoding="ascii") as file:
        lines = file.read().splitlines()
    first, second = [at for at, line in enumerate(lines) if line.startswith("box ")][:2]
    made = os.path.join(folder, "great.plan")
    with open(made, "w", encoding="ascii") as file:
        file.write("\n".join([*lines[:first], *sizes.filled(lines[first:second]), *lines[second:], ""]))
    return made, lines[first].split()[1]


def long_line(folder):
    """The plan and the scripts of a line of 64 boxes over which a dozen trains go, down and up in turn, in seconds."""
    plan, scripts = inputs.train_line([f"B{at:02}" for at in range(64)], 12)
    plan[:3] = ["plan 2", plan[1], "delay 120"]
    inputs.write(folder, "long", plan, [[call.replace(" ", ":00 ", 1) for call in script] for script in scripts])
    return f"{folder}/long/plan", [f"{folder}/long/s{at:02}" for at in range(64)]


class Looker:
    def __init__(self, program, folder):
        self.program, self.folder, self.bad = os.path.abspath(program), folder, 0

    def tell(self, name, why):
        self.bad += 1
        print(f"{name}: {why}")

    def draw(self, words):
        ran = subprocess.run([self.program, *words], capture_output=True)
        if ran.returncode != 0:
            self.tell(words[-1], f"status {ran.returncode}: {ran.stderr.decode(errors='replace').strip()}")
        return ran.stdout

    def journal(self, folder, name, plan, scripts):
        """The journal of a line whose scripts are rehearsed."""
        ran = subprocess.run([self.program, "rehearse", "--journal", plan, *scripts], capture_output=True)
        if ran.returncode == 2:
            self.tell(name, f"status 2: {ran.stderr.decode(errors='replace').strip()}")
        path = os.path.join(folder, f"{name}.journal")
        with open(path, "wb") as file:
            file.write(ran.stdout)
        return path

    def tool(self, name, words):
        ran = subprocess.run(words, capture_output=True, timeout=120)
        if ran.returncode != 0:
            self.tell(name, f"{words[0]}: {ran.stderr.decode(errors='replace').strip()[:400]}")

    def look(self, name, svg):
        """Has each of the three tools take a picture, and leaves it as two of them drew it."""
        path = os.path.join(self.folder, f"{name}.svg")
        with open(path, "wb") as file:
            file.write(svg)
        width, height = map(int, re.search(rb'<svg [^>]*width="(\d+)" height="(\d+)"', svg).groups())
        wide = min(width, WIDEST)
        self.tool(name, ["xmllint", "--noout", path])
        self.tool(name, ["rsvg-convert", "-a", "-w", str(wide), "-o", f"{path}.rsvg.png", path])
        self.tool(name, ["chromium", "--headless", "--no-sandbox", "--disable-gpu", "--hide-scrollbars",
                         f"--window-size={wide},{height}", f"--screenshot={path}.chromium.png", f"file://{path}"])
        for drawn in (f"{path}.rsvg.png", f"{path}.chromium.png"):
            if not os.path.isfile(drawn):
                self.tell(name, f"no {os.path.basename(drawn)}")

    def chromium(self, *words):
        return subprocess.run(["chromium", "--headless", "--no-sandbox", "--disable-gpu", "--hide-scrollbars", *words],
                              capture_output=True, timeout=120)

    def look_page(self, name, page, at=""):
        """Has two of the tools take a page, and leaves it as one of them shows it."""
        path = os.path.join(self.folder, f"{name}.html")
        with open(path, "wb") as file:
            file.write(page)
        self.tool(name, ["xmllint", "--noout", path])
        shot = f"{path}.chromium.png"
        self.chromium("--window-size=1180,1000", f"--screenshot={shot}", f"file://{path}{at}")
        if not os.path.isfile(shot):
            self.tell(name, f"no {os.path.basename(shot)}")

    def look_film(self, name, plan, journal):
        """Has a film played by a reader of its text, and stepped through by the browser."""
        page = self.draw(["picture", "--film", plan, journal])
        self.look_page(name, page, "#14")
        played = film.Film(page.decode())
        numbers = range(1, len(played.frames) + 1)
        pictures = [self.draw(["picture", plan, journal, str(number)]).decode() for number in numbers]
        for fault in played.faults(pictures):
            self.tell(name, fault)
        states = [{at: film.as_shown(drawn) for at, drawn in state.items()} for state in played.states()]
        for keys, entry in PRESSED:
            pressed = os.path.join(self.folder, f"{name}.pressed.html")
            with open(pressed, "wb") as file:
                file.write(page.replace(b"</body>", (PRESS % keys).encode() + b"</body>"))
            shown = self.chromium("--dump-dom", f"file://{pressed}").stdout.decode()
            os.remove(pressed)
            if film.seen_in(shown) != states[entry(len(pictures))]:
                self.tell(name, f"{' '.join(keys) or 'nothing'}: the browser doesn't show entry {entry(len(pictures))}")

    def compare(self):
        for file_name, words in SHOWN:
            with open(os.path.join(TOP, "docs", "pictures", file_name), "rb") as file:
                if file.read() != self.draw(words):
                    self.tell(file_name, "isn't what is drawn now: make pictures")


def main(program, folder):
    install()
    os.makedirs(folder, exist_ok=True)
    looker = Looker(program, folder)
    with tempfile.TemporaryDirectory() as room:
        great, first = great_plan(room)
        frames = [(VALLEY, "Elm"), (VALLEY, "Oak"), (EXAMPLE, "Ash"), (EXAMPLE, "Beech"), (EXAMPLE, "Cedar"), (great, first)]
        for plan, box in frames:
            looker.look(f"frame_{box}", looker.draw(["frame", plan, box]))
        example = [os.path.join(LINE, f"{name}.script") for name in ("ash", "beech", "cedar")]
        graphs = [("guide", f"{GRAPHED}/valley.plan", f"{GRAPHED}/day.journal"),
                  ("example", EXAMPLE, looker.journal(room, "example", EXAMPLE, example))]
        long_plan, long_scripts = long_line(room)
        graphs.append(("long", long_plan, looker.journal(room, "long", long_plan, long_scripts)))
        for name, plan, journal in graphs:
            looker.look(f"graph_{name}", looker.draw(["graph", plan, journal]))
    for name, words in PAGES:
        looker.look_page(name, looker.draw(words))
    for name, plan, journal in FILMS:
        looker.look_film(name, plan, journal)
    looker.compare()
    print(f"{len(frames) + len(graphs)} pictures and {len(PAGES) + len(FILMS)} pages in {folder}; "
          f"{looker.bad} seen otherwise than they should be")
    return 1 if looker.bad else 0


if __name__ == "__main__":
    if not 2 <= len(sys.argv) <= 3:
        sys.exit(__doc__)
    sys.exit(main(sys.argv[1], sys.argv[2] if len(sys.argv) == 3 else tempfile.mkdtemp(prefix="look-")))
