"""editors.py: two editors in one process, each with a client, and what orders their messages. They type at once, one of them is cut
off, types on, and comes back. What they show is written after each step: the same as client.c writes. Each of them keeps what it shows by
the changes that its client tells, too, and that is the same."""

import json

import vemiktag


class Server:
    """Orders messages, and keeps their texts for all.

    Each connection that is joined has the reference number and the client number of its last draft. No draft refers to a number below
    the minimum: so a draft is tested before it gets its number, and one that comes late, twice or out of turn changes nothing."""

    def __init__(self):
        self.messages, self.joined, self.minimum = [], {}, 0

    def join(self, name):
        """The connection of this name, a new one, comes."""
        self.joined[name] = (self.minimum, 0)
        self._notice(name, "join")

    def leave(self, name):
        """The connection goes, if it is there."""
        if self.joined.pop(name, None) is not None:
            self._notice(name, "leave")

    def take(self, name, draft):
        """Gives the draft, a text, its number. Returns why not, in the words of docs/FORMATS.md, or None where it has one."""
        fields = json.loads(draft)
        number, reference = fields["clientSequenceNumber"], fields["referenceSequenceNumber"]
        why = self._against(name, number, reference)
        if why is None:
            self.joined[name] = (reference, number)
            self._put(name, draft)
        return why

    def _against(self, name, number, reference):
        """The first of five reasons against a draft with these numbers."""
        if name not in self.joined:
            return "NotJoined"
        last, before = self.joined[name]
        if number != before + 1:
            return f"ClientSeq expected {before + 1} got {number}"
        if reference < self.minimum:
            return f"RefBelow min {self.minimum} got {reference}"
        if reference < last:
            return f"RefBack last {last} got {reference}"
        if reference > len(self.messages):
            return f"RefAhead seq {len(self.messages)} got {reference}"
        return None

    def _put(self, name, text):
        """Puts a message into the log: the text of an object, and the fields that the server adds. Of a field that stands twice the last
        one counts, so no draft can tell these itself."""
        number = len(self.messages) + 1
        self.minimum = min((reference for reference, _ in self.joined.values()), default=number)
        order = {"clientId": name, "sequenceNumber": number, "minimumSequenceNumber": self.minimum}
        self.messages.append(text.rstrip()[:-1] + "," + json.dumps(order)[1:])

    def _notice(self, name, kind):
        self._put(name, json.dumps({"type": kind, "clientSequenceNumber": -1, "referenceSequenceNumber": -1}))


class Editor:
    """A client, the name of its connection, how many messages it was given, and what is shown by what it tells."""

    def __init__(self, server):
        self.server, self.client, self.given, self.shown = server, vemiktag.Client(), 0, vemiktag.Shown()
        self.client.tell()

    def join(self, name):
        self.name = name
        self.client.connect(name)
        self.server.join(name)

    def leave(self):
        self.client.drop()
        self.server.leave(self.name)

    def submit(self):
        for draft in self.client.outgoing():
            why = self.server.take(self.name, draft)
            assert why is None, why

    def deliver(self):
        for message in self.server.messages[self.given :]:
            self.client.process(message)
            self.given += 1

    def view(self):
        view = self.client.view()
        self.shown.apply(self.client.changes())
        assert list(self.shown.lines()) == view[1:], "what is told leads to the view"
        return view


def main():
    """What the two of them do, and what they show."""
    server = Server()
    ann, bob = Editor(server), Editor(server)

    def exchange():
        ann.submit()
        bob.submit()
        ann.deliver()
        bob.deliver()

    def show(when):
        print(when, *ann.view(), *bob.view(), sep="\n")

    ann.join("ann/1")
    bob.join("bob/1")
    exchange()
    ann.client.insert(0, "The cat sat.")
    exchange()
    show("ann has typed")
    ann.client.insert(4, "black ")
    bob.client.remove(7, 11)
    bob.client.insert(7, " slept")
    show("both have typed")
    exchange()
    show("each has heard of the other")
    bob.client.insert(20, " Quietly.")
    late = next(bob.client.outgoing())
    bob.leave()
    assert server.take("bob/1", late) == "NotJoined", "a draft that comes behind its connection's leave changes nothing"
    ann.client.remove(4, 10)
    ann.submit()
    ann.deliver()
    show("bob is cut off")
    bob.join("bob/2")
    bob.deliver()
    exchange()
    show("bob is back")
    try:
        bob.client.insert(100, "!")
    except vemiktag.Refused as why:
        print(why)


if __name__ == "__main__":
    main()
