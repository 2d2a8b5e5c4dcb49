#!/usr/bin/env python3
"""latency.py: how long a key of another user takes until it stands in an editor's buffer, in texts of three lengths.

    xvfb-run -a latency.py tk          a Tk text widget: packages python3-tk and, where there is no display, xvfb
    latency.py neovim                  a buffer of Neovim, over msgpack-rpc: packages neovim and python3-msgpack
    latency.py neovim 1000 5000000     texts of other lengths

Two clients edit one text. One types a run of keys here and there, and now and then takes one back; the other one listens, is given each
message as its text, and the changes that it tells are applied to the buffer. A row for each length has the median and the 99th of a hundred
in milliseconds: of the message (`process` and `changes`), of the buffer, and of both together, which is what a key costs. What Tk draws then,
where the place is in sight, is told besides. At the end the buffer's text must be the client's."""

import itertools
import random
import statistics
import subprocess
import sys
import time

import vemiktag
from editors import Server

KEYS, RUN = 2000, 16
WORDS = "the quick brown fox, an \u00e9clair and a \U0001f98a over \u65e5\u672c lazy dogs".split(" ")
MARKER = "\ufffc"


class Lines:
    """The lines of a buffer, in which a place in the text is found. A marker stands there as one character.

    They are kept in blocks with how many characters each has, line ends counted: so a place is found by going past blocks, and then past
    the lines of one."""

    MOST = 128

    def __init__(self):
        self.blocks, self.sizes = [[""]], [1]

    def find(self, place):
        """The block, the line in it, and the column."""
        block = line = 0
        while place >= self.sizes[block]:
            place -= self.sizes[block]
            block += 1
        lines = self.blocks[block]
        while place > len(lines[line]):
            place -= len(lines[line]) + 1
            line += 1
        return block, line, place

    def spot(self, place):
        """How many lines stand above the place, and what stands in its line before it."""
        block, line, column = self.find(place)
        return sum(map(len, self.blocks[:block])) + line, self.blocks[block][line][:column]

    def put(self, place, text):
        """Puts the text in."""
        block, line, column = self.find(place)
        lines = self.blocks[block]
        lines[line : line + 1] = (lines[line][:column] + text + lines[line][column:]).split("\n")
        self.sizes[block] += len(text)
        if len(lines) > self.MOST:
            self.cut(block)

    def take(self, place, count):
        """Takes so many characters out."""
        block, line, column = self.find(place)
        last, last_line, last_column = self.find(place + count)
        joined = self.blocks[block][line][:column] + self.blocks[last][last_line][last_column:]
        self.blocks[block : last + 1] = [[*self.blocks[block][:line], joined, *self.blocks[last][last_line + 1 :]]]
        self.sizes[block : last + 1] = [sum(self.sizes[block : last + 1]) - count]

    def cut(self, block):
        """Cuts a block into some of half the size."""
        lines, half = self.blocks[block], self.MOST // 2
        parts = [lines[start : start + half] for start in range(0, len(lines), half)]
        self.blocks[block : block + 1] = parts
        self.sizes[block : block + 1] = [sum(map(len, part)) + len(part) for part in parts]


class Tk:
    """A Tk text widget. Its columns are counted in UTF-16 units where its Tcl does so."""

    def __init__(self):
        import tkinter

        self.root = tkinter.Tk()
        self.text = tkinter.Text(self.root)
        self.text.pack()
        self.text.insert("1.0", "\U0001f98a")
        self.wide = self.text.index("1.end") == "1.2"
        self.text.delete("1.0", "end")

    def at(self, spot):
        row, before = spot
        column = len(before.encode("utf-16-le")) // 2 if self.wide else len(before)
        return f"{row + 1}.{column}"

    def put(self, spot, text):
        self.text.insert(self.at(spot), text)

    def take(self, start, end):
        self.text.delete(self.at(start), self.at(end))

    def draw(self, spot):
        """Draws the place, in the middle of the widget."""
        self.text.yview(spot[0] - 12)
        self.root.update()

    def content(self):
        return self.text.get("1.0", "end-1c")

    def close(self):
        self.root.destroy()


class Neovim:
    """A buffer of a Neovim of its own. A change is in the buffer once its request is answered."""

    def __init__(self):
        import msgpack

        words = ["nvim", "--clean", "-n", "--headless", "--embed"]
        self.process = subprocess.Popen(words, stdin=subprocess.PIPE, stdout=subprocess.PIPE, bufsize=0)
        self.packer, self.unpacker = msgpack.Packer(), msgpack.Unpacker()
        self.numbers = itertools.count()

    def ask(self, method, *arguments):
        """What Neovim answers to a request; events that come before are passed over."""
        number = next(self.numbers)
        self.process.stdin.write(self.packer.pack([0, number, method, arguments]))
        while True:
            for kind, *rest in self.unpacker:
                if kind == 1 and rest[0] == number:
                    _, why, answer = rest
                    if why is not None:
                        raise RuntimeError(why)
                    return answer
            self.unpacker.feed(self.process.stdout.read(65536))

    def set(self, start, end, lines):
        at = [word for row, before in (start, end) for word in (row, len(before.encode()))]
        self.ask("nvim_buf_set_text", 0, *at, lines)

    def put(self, spot, text):
        self.set(spot, spot, text.split("\n"))

    def take(self, start, end):
        self.set(start, end, [""])

    def draw(self, spot):
        """Nobody looks."""

    def content(self):
        return "\n".join(self.ask("nvim_buf_get_lines", 0, 0, -1, False))

    def close(self):
        self.process.stdin.close()
        self.process.stdout.close()
        self.process.wait()


def apply(changes, lines, buffer):
    """Applies the changes of the text to the buffer; properties and intervals it doesn't show."""
    for change in changes:
        if isinstance(change, vemiktag.Put):
            text = change.seg if isinstance(change.seg, str) else MARKER
            buffer.put(lines.spot(change.pos), text)
            lines.put(change.pos, text)
        elif isinstance(change, vemiktag.Take):
            buffer.take(lines.spot(change.pos), lines.spot(change.pos + change.count))
            lines.take(change.pos, change.count)


class Peer:
    """A client, and how many messages it was given."""

    def __init__(self, server, name):
        self.server, self.name, self.client, self.given = server, name, vemiktag.Client(), 0
        self.client.connect(name)
        server.join(name)

    def send(self):
        for draft in self.client.outgoing():
            self.server.take(self.name, draft)

    def hear(self):
        """The messages that it wasn't given yet: the client takes each before the next one is asked for."""
        while self.given < len(self.server.messages):
            self.given += 1
            yield self.server.messages[self.given - 1]

    def catch_up(self):
        for message in self.hear():
            self.client.process(message)


def text_of(length, draw):
    """So many characters in lines of some sixty."""
    lines, size = [], 0
    while size < length:
        lines.append(" ".join(draw.choice(WORDS) for _ in range(12)))
        size += len(lines[-1]) + 1
    return "\n".join(lines)[:length]


def fill(writer, text):
    """Types the text, some thousands of characters at a time, once it is online."""
    writer.catch_up()
    for start in range(0, len(text), 5000):
        writer.client.insert(start, text[start : start + 5000])
        writer.send()
        writer.catch_up()


def keys(length, draw):
    """What is typed: runs of keys, each at a place of its own; of eight keys one takes back the one before."""
    place = 0
    for number in range(KEYS):
        if number % RUN == 0:
            place = draw.randrange(length)
        if number % RUN and draw.random() < 0.125:
            place, length = place - 1, length - 1
            yield place, None
        else:
            yield place, draw.choice("etaoin srhld\n")
            place, length = place + 1, length + 1


def type_key(writer, place, letter):
    if letter is None:
        writer.client.remove(place, place + 1)
    else:
        writer.client.insert(place, letter)
    writer.send()
    writer.catch_up()


def measure(kind, length):
    """The seconds of each key: of its message, of the buffer, and of what is drawn."""
    draw, server, buffer, lines = random.Random(length), Server(), kind(), Lines()
    writer, reader = Peer(server, "writer/1"), Peer(server, "reader/1")
    fill(writer, text_of(length, draw))
    reader.catch_up()
    reader.client.tell()
    apply(reader.client.changes(), lines, buffer)
    told = []
    for number, (place, letter) in enumerate(keys(length, draw)):
        type_key(writer, place, letter)
        for message in reader.hear():
            begun = time.perf_counter()
            reader.client.process(message)
            changes = reader.client.changes()
            heard = time.perf_counter()
            apply(changes, lines, buffer)
            applied = time.perf_counter()
            buffer.draw(lines.spot(place))
            told.append((heard - begun, applied - heard, time.perf_counter() - applied))
        if number % RUN == RUN - 1:
            answer(reader, length, lines, buffer)
            writer.catch_up()
    if buffer.content() != reader.client.text():
        raise AssertionError("the buffer has the client's text")
    buffer.close()
    return told


def answer(reader, length, lines, buffer):
    """The reader types a key too, which tells the writer's server how far it has come."""
    reader.client.insert(length // 2, "+")
    reader.send()
    reader.catch_up()
    apply(reader.client.changes(), lines, buffer)


def row(what, seconds):
    """The median and the 99th of a hundred, in milliseconds."""
    cuts = statistics.quantiles(seconds, n=100)
    return f"{what} {statistics.median(seconds) * 1000:.3f} {cuts[98] * 1000:.3f}"


def main():
    kind = {"tk": Tk, "neovim": Neovim}[sys.argv[1]]
    for length in [int(word) for word in sys.argv[2:]] or [1000, 100_000, 1_000_000]:
        told = measure(kind, length)
        heard, applied, drawn = zip(*told)
        both = [one + other for one, other in zip(heard, applied)]
        print(f"{length} characters, {len(told)} keys:", end=" ")
        print(row("message", heard), row("buffer", applied), row("both", both), row("drawn", drawn), sep=", ", flush=True)


if __name__ == "__main__":
    main()
