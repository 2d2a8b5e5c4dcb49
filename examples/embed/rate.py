#!/usr/bin/env python3
"""rate.py: how many edits a second go through a client from Python. `rate.py [EDITS]`, 100,000 without.

A client types at the end of its text, words of eight characters, and each of its drafts comes back as a message at once. A row tells how
many edits, or drafts and messages, a second took of the processor."""

import json
import sys
import time

import vemiktag

NOTICE = {"type": "join", "clientSequenceNumber": -1, "referenceSequenceNumber": -1}


def message(text, number):
    """The message of a draft, or of a notice."""
    order = f',"clientId":"a/1","sequenceNumber":{number},"minimumSequenceNumber":{number - 1}}}'
    return text[:-1] + order


def joined():
    """A client that is online."""
    client = vemiktag.Client()
    client.connect("a/1")
    client.process(message(json.dumps(NOTICE), 1))
    return client


def timed(what, edits, work):
    begun = time.process_time()
    work()
    print(f"{what}: {edits / (time.process_time() - begun):,.0f} a second")


def by_dict(client, edits):
    for number in range(edits):
        client.edit({"type": 0, "pos1": 8 * number, "seg": "eight   "})


def by_text(client, edits):
    for number in range(edits):
        client.edit(f'{{"type":0,"pos1":{8 * number},"seg":"eight   "}}')


def by_name(client, edits):
    for number in range(edits):
        client.insert(8 * number, "eight   ")


def there_and_back(client, edits):
    for number in range(edits):
        client.insert(8 * number, "eight   ")
        for draft in client.outgoing():
            client.process(message(draft, number + 2))


def main():
    edits = int(sys.argv[1]) if len(sys.argv) > 1 else 100_000
    for what, work in (("edit(dict)", by_dict), ("edit(text)", by_text), ("insert", by_name)):
        with vemiktag.Client() as client:
            timed(f"{what}, offline", edits, lambda: work(client, edits))
    with joined() as client:
        timed("insert, its draft and its message", edits, lambda: there_and_back(client, edits))


if __name__ == "__main__":
    main()
