"""Plays a film, the page of `signalbox picture --film`, as its script does: a reader of its text of its own."""

import re

THING = re.compile(r'<g class="(\d+)[^"]*">')


def between(text, start, end):
    return text.split(start, 1)[1].split(end, 1)[0]


def things(text):
    """The drawings of things by their numbers: each in a group that has its number, one behind another."""
    parts = THING.split(text)
    return {int(number): drawn.removesuffix("</g>") for number, drawn in zip(parts[1::2], parts[2::2])}


def as_shown(drawn):
    """A drawing as a browser writes it anew."""
    return re.sub(r"<(\w+)([^>]*)/>", r"<\1\2></\1>", drawn)


def seen_in(shown):
    """The drawings of all things that a browser shows."""
    return things(between(shown, '<g id="line">', '</g><defs id="changes">'))


class Film:
    def __init__(self, page):
        self.first = things(between(page, '<g id="line">', '</g><defs id="changes">'))
        changes = between(page, '<defs id="changes">', "</defs></svg>")
        self.frames = [things(entry.removesuffix("</g>")) for entry in changes.split("\n<g>")[1:]]
        # What is drawn in each state: the key, the boxes and the roads.
        self.ground = page.split("<g id=\"line\">")[0]
        self.ground = self.ground[self.ground.index('<text class="key"'):]
        rows = between(page, '<tbody id="journal">', "</tbody>").split("\n")[1:]
        self.rows = [re.findall(r"<t[hd][^>]*>([^<]*)</t[hd]>", row) for row in rows]

    def states(self):
        """The drawings of all things before the first entry, and after each."""
        seen = dict(self.first)
        yield dict(seen)
        for frame in self.frames:
            seen.update(frame)
            yield dict(seen)

    def faults(self, pictures):
        """What isn't as the pictures after the entries have it, of which there is one for each entry."""
        states = list(self.states())
        if not len(self.frames) == len(self.rows) == len(pictures):
            yield f"{len(self.frames)} entries change something, {len(self.rows)} are told, of {len(pictures)}"
        for number, (old, new, svg) in enumerate(zip(states, states[1:], pictures), 1):
            if not svg.endswith(self.ground + "".join(new[at] for at in sorted(new)) + "</svg>"):
                yield f"entry {number} isn't shown as `picture` draws it"
            if any(old[at] == drawn for at, drawn in self.frames[number - 1].items()):
                yield f"entry {number} draws what is seen as before"
            if sorted(new) != list(range(len(self.first))):
                yield f"entry {number} has a thing that isn't there before it"
        for number, row in enumerate(self.rows, 1):
            if row[0] != str(number):
                yield f"entry {number} has the number {row[0]}"
