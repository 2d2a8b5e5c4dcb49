"""raises.py: what the module's calls take, and what they raise: each kind of text, each error that can be had, a text longer than the room
for it, and the command line."""

import os
import subprocess
import sys

import vemiktag

LONG = "long " * 4000


def raised(kind, call, *given):
    """The error of this kind that the call raises."""
    try:
        call(*given)
    except kind as why:
        return why
    raise AssertionError(f"{kind.__name__} is raised")


def try_refused(client):
    why = raised(vemiktag.Refused, client.insert, 5, "x")
    assert (why.number, why.text, why.name, str(why)) == (6, "OutOfRange length 0", "OutOfRange", "refused 6 OutOfRange length 0")
    assert isinstance(why, ValueError) and isinstance(why, vemiktag.Error)
    for op, text in (("{", "Malformed NotJson"), (b"\xff", "Malformed NotUtf8"), ("\ud800", "Malformed NotUtf8")):
        assert raised(vemiktag.Refused, client.edit, op).text == text, op
    assert raised(vemiktag.Refused, client.edit, {}, "chat").name == "Malformed"
    assert raised(vemiktag.Refused, client.insert, 0, "\ud800").text == "Malformed NotJson"
    assert raised(vemiktag.Refused, client.connect, "\ud800").text == "Malformed NotUtf8"
    assert raised(vemiktag.Refused, client.drop).name == "NotConnected"
    assert raised(vemiktag.Refused, client.load, "{}").text == "Summary Malformed Missing version"
    raised(ValueError, client.insert, 0.5, "x")
    assert client.view() == ['client "" offline seq 0 min 0 pending 0', 'text ""']


def try_texts(client):
    """An edit as a dict, as a text and as bytes, and what is longer than the room for it."""
    assert client.changes() is None
    client.tell()
    client.edit({"type": 0, "pos1": 0, "seg": "a\nb\u00e9"})
    client.edit('{"type":0,"pos1":4,"seg":{"marker":{"refType":1}}}')
    client.edit(b'{"type":0,"target":"rows","pos1":0,"count":2}', "grid")
    client.insert(0, LONG)
    assert client.text() == LONG + "a\nb\u00e9"
    assert client.changes() == [
        vemiktag.Put(0, "a\nb\u00e9", {}),
        vemiktag.Put(4, vemiktag.Marker(1), {}),
        vemiktag.PutUnits("rows", 0, 2),
        vemiktag.Put(0, LONG, {}),
    ]
    client.connect("a/1")
    client.process('{"clientId":"a/1","clientSequenceNumber":-1,"minimumSequenceNumber":0,"referenceSequenceNumber":-1,"sequenceNumber":1,"type":"join"}')
    drafts = client.outgoing()
    assert next(drafts).startswith('{"clientSequenceNumber":1,')
    assert [len(draft) > len(LONG) for draft in drafts] == [False, False, True]
    assert list(client.outgoing()) == []
    # Pieces as long as the room, one less and one more.
    for more in range(-3, 4):
        client.load('{"cells":[],"cols":[],"conns":[],"count":0,"intervals":[],"min":0,"other":0,"rows":[],"seq":0,"skipped":0,"text":[],"version":2}')
        client.insert(0, "x" * (4096 - len(client.view()[0]) - len('\ntext ""\n') + more))
        assert len(client.text()) == 4096 - len('client "" offline seq 0 min 0 pending 0\ntext ""\n') + more


def try_ends():
    """What takes nothing more, and what is too much."""
    assert raised(vemiktag.Full, vemiktag.report, b" " * 16_777_217)
    with vemiktag.Session() as session:
        assert session.line({"do": "start", "client": "a"}) == (b"", True)
        assert session.line('{"do":"start","client":"a"}') == (b"line 2 refused 3 NameInUse\n", False)
        assert session.end() == (b"refused 1\nskipped 0\nother 0\n", False)
        assert raised(vemiktag.Closed, session.line, b"")
    with vemiktag.Client() as client:
        client.free()
        assert raised(vemiktag.Closed, client.insert, 0, "x") and raised(vemiktag.Closed, client.view)
    assert issubclass(vemiktag.OutOfMemory, MemoryError) and issubclass(vemiktag.Full, ValueError)


def try_command():
    """`python3 -m vemiktag session`."""
    here = os.path.dirname(os.path.abspath(__file__))
    session = os.path.join(here, "..", "tea_at_five.session")
    with open(os.path.join(here, "tea_at_five.report"), "rb") as file:
        report = file.read()
    command = [sys.executable, "-m", "vemiktag"]
    with open(session, "rb") as file:
        assert subprocess.run([*command, "session"], cwd=here, stdin=file, stdout=subprocess.PIPE, check=True).stdout == report
    assert subprocess.run([*command, "session", session], cwd=here, stdout=subprocess.PIPE, check=True).stdout == report
    for words, status in (([], 2), (["session", "a", "b"], 2), (["session", "/none"], 3)):
        ended = subprocess.run([*command, *words], cwd=here, stderr=subprocess.PIPE, check=False)
        assert ended.returncode == status and b"Traceback" not in ended.stderr, words


def main():
    with vemiktag.Client() as client:
        try_refused(client)
        try_texts(client)
    try_ends()
    try_command()
    print("each call takes and raises what it says;", vemiktag.version())


if __name__ == "__main__":
    main()
