"""unruly.py: two to five editors type at random over a network that loses drafts, and brings drafts and messages late, twice or in another
order. `unruly.py SEED EDITORS STEPS [VEMIKTAG]` writes how often what happened.

At the end all show the same, and so does who has the log alone: a new client, and `vemiktag log` where the program is given. What the server
answers is compared with the proved sequencer, which is that of a session whose guests are the connections, as long as a session has names
for them."""

import collections
import json
import random
import subprocess
import sys

import vemiktag
from editors import Server
from told import Typist

MOST_NAMES = 16
OUT_OF_ORDER = 9


class Compared(Server):
    """A server that is compared with a session's sequencer."""

    def __init__(self):
        super().__init__()
        self.session, self.names = vemiktag.Session(), 0

    def join(self, name):
        if self.names == MOST_NAMES:
            self.compare()
        self.names += 1
        super().join(name)
        self.ask({"do": "guest", "guest": name})

    def leave(self, name):
        joined = name in self.joined
        super().leave(name)
        if joined:
            self.ask({"do": "part", "guest": name})

    def take(self, name, draft):
        why = super().take(name, draft)
        told = self.ask({"do": "submit", "guest": name, "message": draft})
        if told is not None:
            expected = "" if why is None else f"refused 17 Nacked {why}\n"
            assert told.partition(" refused ")[2] == expected.partition("refused ")[2], (told, why)
        return why

    def ask(self, event):
        """What the session writes; None where it is compared no more."""
        return None if self.session is None else self.session.line(event)[0].decode()

    def compare(self):
        """Compares the messages; the session is over then."""
        if self.session is None:
            return
        theirs = self.ask({"do": "history"}).splitlines()
        assert len(theirs) == len(self.messages)
        for mine, other in zip(self.messages, theirs):
            mine, other = json.loads(mine), json.loads(other)
            assert other == {"contents": None, **mine, "clientId": mine["clientId"] + "/1"}, (mine, other)
        self.session.free()
        self.session = None


class Unruly(Typist):
    """An editor whose lines come as the network likes."""

    def __init__(self, server, name, draw):
        super().__init__(server, name, draw)
        self.under_way, self.happened = [], collections.Counter()

    def submit(self):
        """Its drafts are under way."""
        self.under_way += [(self.name, draft) for draft in self.client.outgoing()]

    def arrive(self):
        """The next draft that is under way gets to the server, in most cases; or the one behind it does first, or it will once more, or it is
        lost."""
        kind = self.draw.random()
        if len(self.under_way) > 1 and kind < 0.02:
            self.happened["drafts in another order"] += 1
            self.under_way[:2] = self.under_way[1::-1]
        name, draft = self.under_way[0]
        if not 0.02 < kind < 0.1:
            del self.under_way[0]
        if kind > 0.98:
            self.happened["drafts lost"] += 1
        else:
            self.hand_in(name, draft)

    def hand_in(self, name, draft):
        """The server takes the draft, or says why not. A connection that lost one is given up."""
        why = self.server.take(name, draft)
        if why is None:
            self.happened["drafts taken"] += 1
            return
        kind, *words = why.split()
        self.happened[kind] += 1
        came_twice = kind == "ClientSeq" and int(words[3]) < int(words[1])
        if not came_twice and self.online and name == self.name:
            self.go()

    def hear(self):
        """Some of the next messages, and before them now and then one that came before, or one too early."""
        messages = self.server.messages
        for number in (self.given - 1, self.given + 1):
            if 0 <= number < len(messages) and self.draw.random() < 0.2:
                self.refuse(messages[number])
        upto = self.draw.randint(self.given, len(messages))
        for message in messages[self.given : upto]:
            self.client.process(message)
        self.given = upto

    def refuse(self, message):
        """A message out of turn changes nothing."""
        try:
            self.client.process(message)
        except vemiktag.Refused as why:
            assert why.number == OUT_OF_ORDER, why
            self.happened["messages out of turn"] += 1
        else:
            raise AssertionError("a message out of turn is refused")

    def finish(self):
        """It comes back under a new name, and what is still under way comes too late."""
        if self.online:
            self.go()
        for name, draft in self.under_way:
            assert self.server.take(name, draft) == "NotJoined"
            self.happened["NotJoined"] += 1
        self.come()


def step(typist, draw):
    kind = draw.random()
    if kind < 0.4:
        typist.type()
    elif kind < 0.55:
        if typist.online:
            typist.submit()
    elif kind < 0.75:
        for _ in range(draw.randint(0, len(typist.under_way))):
            typist.arrive()
    elif kind < 0.98:
        typist.hear()
    elif typist.online:
        typist.go()
    if not typist.online and draw.random() < 0.3:
        typist.come()
    typist.compare()


def settle(typists):
    """All come back over a network that works."""
    for typist in typists:
        typist.finish()
    for typist in typists * 2:
        typist.deliver()
        super(Unruly, typist).submit()
    for typist in typists:
        typist.deliver()
        typist.compare()


def read_log(messages, program):
    """What is shown by who has the log alone, each without the lines at its ends."""
    client = vemiktag.Client()
    for message in messages:
        client.process(message)
    yield client.view()[1:]
    if program is not None:
        told = subprocess.run([program, "log"], input="\n".join(messages), stdout=subprocess.PIPE, encoding="utf-8", check=False)
        *shown, refused, _, other = told.stdout.splitlines()
        assert (refused, other) == ("refused 0", "other 0"), told.stdout
        yield shown[1:]


def main():
    seed, editors, steps = (int(word) for word in sys.argv[1:4])
    draw, server = random.Random(seed), Compared()
    typists = [Unruly(server, name, draw) for name in ("ann", "bob", "cy", "dee", "eve")[:editors]]
    for typist in typists:
        typist.come()
    for _ in range(steps):
        step(draw.choice(typists), draw)
    settle(typists)
    server.compare()
    shown = list(typists[0].shown.lines())
    assert all(list(typist.shown.lines()) == shown for typist in typists), "all show the same"
    assert all(lines == shown for lines in read_log(server.messages, sys.argv[4] if len(sys.argv) > 4 else None)), "and so does the log"
    happened = sum((typist.happened for typist in typists), collections.Counter())
    print(f"{server.names} connections", *(f"{what} {count}" for what, count in sorted(happened.items())), sep=", ")


if __name__ == "__main__":
    main()
