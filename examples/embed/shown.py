"""shown.py: what a client shows is kept by the changes that it tells, for each kind of change, and compared with its view."""

import vemiktag

SUMMARY = (
    b'{"cells":[[0,1,{"a":[1,null]}]],"cols":[{"n":2}],"conns":["a/1"],"count":6,"intervals":[["n","i",1,3,{"k":true}]],"min":9,"other":0,'
    b'"rows":[{"n":1}],"seq":9,"skipped":0,"text":[[{"t":"Tea"},{"m":1,"p":{"h":2}},{"p":{"h":2},"t":"\\"\xc3\xa9"}]],"version":2}'
)

TEXT = [
    {"type": 0, "pos1": 0, "seg": "The cat sat."},
    {"type": 0, "pos1": 4, "seg": {"text": "black ", "props": {"b": 1}}},
    {"type": 0, "pos1": 10, "seg": {"marker": {"refType": 1}, "props": {"h": 2}}},
    {"interval": "add", "label": "n", "id": "i", "start": 4, "end": 9, "props": {"c": "red"}},
    {"type": 2, "pos1": 2, "pos2": 12, "props": {"i": True}},
    {"type": 2, "pos1": 4, "pos2": 8, "props": {"b": None}},
    {"type": 1, "pos1": 3, "pos2": 6},
    {"interval": "change", "label": "n", "id": "i", "props": {"c": None}},
    {"interval": "add", "label": "n", "id": "j", "start": 0, "end": 0},
    {"interval": "delete", "label": "n", "id": "i"},
    {"type": 3, "ops": [{"type": 0, "pos1": 0, "seg": "So: "}, {"type": 1, "pos1": 0, "pos2": 6}]},
    {"type": 1, "pos1": 0, "pos2": 12},
]

GRID = [
    {"type": 0, "target": "rows", "pos1": 0, "count": 3},
    {"type": 0, "target": "cols", "pos1": 0, "count": 2},
    {"type": "set", "row": 1, "col": 0, "value": {"a": [1, None]}},
    {"type": "set", "row": 2, "col": 1, "value": "x"},
    {"type": 0, "target": "rows", "pos1": 2, "count": 2},
    {"type": 1, "target": "cols", "pos1": 0, "pos2": 1},
    {"type": "set", "row": 4, "col": 0, "value": None},
    {"type": 1, "target": "rows", "pos1": 1, "pos2": 4},
]


def compare(client, shown, told):
    """Applies the changes since the last time, and compares."""
    changes = client.changes()
    shown.apply(changes)
    assert list(shown.lines()) == client.view()[1:], (changes, *shown.lines(), *client.view())
    return told + [type(change).__name__ for change in changes]


client, shown, told = vemiktag.Client(), vemiktag.Shown(), []
assert client.changes() is None
client.tell()
for op in TEXT:
    client.edit(op)
    told = compare(client, shown, told)
for op in GRID:
    client.edit(op, "grid")
    told = compare(client, shown, told)
later = vemiktag.Client(SUMMARY)
later.tell()
told = compare(later, vemiktag.Shown(), told)
client.tell()
compare(client, vemiktag.Shown(), told)
client.tell(False)
assert client.changes() is None
print(*sorted(set(told)))
