"""told.py: editors that type at random, are cut off and come back, each with what it shows by the changes that its client tells: after
each step that is its view. `told.py SEED STEPS` writes how many changes of each kind there were."""

import collections
import random
import sys

from editors import Editor, Server

WORDS = ("tea ", "at five", "\u00e9", "\U0001f600", "x")
KEYS = ("b", "i", "size")
LABELS = ("n", "m")


class Typist(Editor):
    """An editor that types at random, and counts what it is told."""

    def __init__(self, server, name, draw):
        super().__init__(server)
        self.draw, self.stem, self.joins, self.online, self.counts = draw, name, 0, False, collections.Counter()

    def come(self):
        self.joins += 1
        self.join(f"{self.stem}/{self.joins}")
        self.online = True

    def go(self):
        self.leave()
        self.online = False

    def size(self):
        return len(self.shown.elements)

    def span(self, of):
        return sorted(self.draw.sample(range(of + 1), 2)) if of else (0, 0)

    def props(self):
        return {key: self.draw.choice((None, 1, True, "red")) for key in self.draw.sample(KEYS, self.draw.randint(1, 2))}

    def base(self):
        """An insertion, a removal or an annotation."""
        start, end = self.span(self.size())
        kind = self.draw.random()
        if kind < 0.5 or end == 0:
            seg = self.draw.choice(WORDS) if self.draw.random() < 0.8 else {"marker": {"refType": self.draw.randint(0, 3)}}
            if self.draw.random() < 0.3:
                seg = {**(seg if isinstance(seg, dict) else {"text": seg}), "props": self.props()}
            return {"type": 0, "pos1": self.draw.randint(0, self.size()), "seg": seg}
        if kind < 0.75:
            return {"type": 1, "pos1": start, "pos2": end}
        return {"type": 2, "pos1": start, "pos2": end, "props": self.props()}

    def interval(self):
        """An operation of an interval."""
        name = {"label": self.draw.choice(LABELS), "id": str(self.draw.randint(0, 5))}
        known = (name["label"], name["id"]) in self.shown.intervals
        places = dict(zip(("start", "end"), sorted(self.draw.choices(range(self.size()), k=2)))) if self.size() else {"start": -1, "end": -1}
        if not known:
            return {"interval": "add", **name, **places, "props": self.props()}
        if self.draw.random() < 0.5:
            return {"interval": "change", **name, **(places if self.draw.random() < 0.7 else {}), "props": self.props()}
        return {"interval": "delete", **name}

    def table(self):
        """An operation of the table."""
        target = self.draw.choice(("rows", "cols"))
        units = self.shown.units[target]
        kind = self.draw.random()
        if kind < 0.4 or units == 0:
            return {"type": 0, "target": target, "pos1": self.draw.randint(0, units), "count": self.draw.randint(1, 3)}
        if kind < 0.6:
            start, end = self.span(units)
            return {"type": 1, "target": target, "pos1": start, "pos2": end}
        if all(self.shown.units.values()):
            row, col = self.draw.randrange(self.shown.units["rows"]), self.draw.randrange(self.shown.units["cols"])
            return {"type": "set", "row": row, "col": col, "value": self.draw.choice((None, 7, "v", [1, {"k": None}]))}
        return {"type": 0, "target": target, "pos1": 0, "count": 1}

    def type(self):
        kind = self.draw.random()
        if kind < 0.6:
            self.client.edit(self.base())
        elif kind < 0.8:
            self.client.edit(self.interval())
        else:
            self.client.edit(self.table(), "grid")

    def compare(self):
        changes = self.client.changes()
        self.counts.update(type(change).__name__ for change in changes)
        self.shown.apply(changes)
        view = self.client.view()
        if list(self.shown.lines()) != view[1:]:
            raise AssertionError((changes, list(self.shown.lines()), view))


def step(typist, draw):
    kind = draw.random()
    if kind < 0.5:
        typist.type()
    elif kind < 0.7 and typist.online:
        typist.submit()
    elif kind < 0.95:
        typist.deliver()
    elif typist.online:
        typist.go()
    else:
        typist.come()
        typist.deliver()
    typist.compare()


def main():
    seed, steps = (int(word) for word in sys.argv[1:3])
    draw, server = random.Random(seed), Server()
    typists = [Typist(server, name, draw) for name in ("ann", "bob", "cy")]
    for typist in typists:
        typist.come()
    for _ in range(steps):
        step(draw.choice(typists), draw)
    for typist in typists:
        if not typist.online:
            typist.come()
    for typist in typists * 2:
        typist.deliver()
        typist.submit()
    for typist in typists:
        typist.deliver()
        typist.compare()
    first, *others = (list(typist.shown.lines()) for typist in typists)
    assert all(other == first for other in others), "all show the same"
    counts = sum((typist.counts for typist in typists), collections.Counter())
    print(*(f"{kind} {count}" for kind, count in sorted(counts.items())))


if __name__ == "__main__":
    main()
