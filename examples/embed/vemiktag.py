"""Vemiktag for Python, over libvemiktag.so, which stands beside this file or where VEMIKTAG_SO says. No packages are needed.

    python3 -m vemiktag session FILE      writes the report of the session in FILE
    python3 -m vemiktag session           the same of standard input, what each line writes as soon as it is heard
"""

from __future__ import annotations

import ctypes
import json
import os
import sys
from dataclasses import dataclass
from typing import IO, Any, Callable, Dict, Iterable, Iterator, List, Optional, Sequence, Tuple, Union

DONE, SOME_REFUSED, UNTOLD, TOO_SMALL, OUT_OF_MEMORY, TOO_LONG, CLOSED, NOTHING = 0, 1, 2, 4, 5, 6, 7, 8

Fields = Dict[str, Any]

# A JSON object: as a dict, or as the text of one, which is handed on as it is.
Text = Union[Fields, str, bytes]


class Error(Exception):
    """What a call raises that wasn't done."""


class Refused(Error, ValueError):
    """The call was refused, and nothing changed.

    `number` and `text` tell why as docs/FORMATS.md has it, say 6 and "OutOfRange length 4"; they are 0 and "" where there was no
    memory for that. `name` is the first word of the text.
    """

    def __init__(self, number: int, text: str) -> None:
        super().__init__(number, text)
        self.number, self.text = number, text

    @property
    def name(self) -> str:
        return self.text.partition(" ")[0]

    def __str__(self) -> str:
        return f"refused {self.number} {self.text}" if self.text else "refused, and there was no memory to tell why"


class OutOfMemory(Error, MemoryError):
    """There was no memory. A session or a client whose line, edit or message it was takes nothing more."""

    def __str__(self) -> str:
        return "there was no memory"


class Full(Error, ValueError):
    """It would be too much: the input has more than 16,777,216 bytes, or the session as many lines, or the client is full."""

    def __str__(self) -> str:
        return "more than 16,777,216 bytes or lines, or more than a client takes"


class Closed(Error, ValueError):
    """The session or the client takes nothing more."""

    def __str__(self) -> str:
        return "it takes nothing more"


_ERRORS = {OUT_OF_MEMORY: OutOfMemory, TOO_LONG: Full, CLOSED: Closed}

# ---- the calls of the shared object


class _Handle(ctypes.Structure):
    _fields_ = [("at", ctypes.c_void_p), ("open", ctypes.c_bool)]


_HERE = os.path.dirname(os.path.abspath(__file__))
_LIBRARY = ctypes.CDLL(os.environ.get("VEMIKTAG_SO") or os.path.join(_HERE, "libvemiktag.so"))
_HANDLE, _COUNT = ctypes.POINTER(_Handle), ctypes.POINTER(ctypes.c_size_t)
_BYTES = (ctypes.c_char_p, ctypes.c_size_t)


def _declared(name: str, *takes: Any) -> Any:
    """The call of this name, which takes these."""
    call = getattr(_LIBRARY, "vemiktag_" + name)
    call.restype, call.argtypes = ctypes.c_uint32, takes
    return call


_report = _declared("report", *_BYTES, *_BYTES, _COUNT)

_session_new = _declared("session_new", _HANDLE)
_session_line = _declared("session_line", _HANDLE, *_BYTES, _COUNT)
_session_close = _declared("session_close", _HANDLE, _COUNT)
_session_read = _declared("session_read", _HANDLE, *_BYTES, _COUNT)
_session_free = _declared("session_free", _HANDLE)

_client_new = _declared("client_new", _HANDLE)
_client_load = _declared("client_load", _HANDLE, *_BYTES)
_client_connect = _declared("client_connect", _HANDLE, *_BYTES)
_client_drop = _declared("client_drop", _HANDLE)
_client_edit = _declared("client_edit", _HANDLE, *_BYTES)
_client_process = _declared("client_process", _HANDLE, *_BYTES)
_client_outgoing = _declared("client_outgoing", _HANDLE)
_client_view = _declared("client_view", _HANDLE)
_client_tell = _declared("client_tell", _HANDLE, ctypes.c_bool)
_client_changes = _declared("client_changes", _HANDLE)
_client_waiting = _declared("client_waiting", _HANDLE, _COUNT)
_client_read = _declared("client_read", _HANDLE, *_BYTES, _COUNT)
_client_free = _declared("client_free", _HANDLE)

# Values here have no cycles, and no number that JSON hasn't.
_dumps = json.JSONEncoder(check_circular=False, allow_nan=False, separators=(",", ":")).encode


def _bytes_of(text: Text) -> bytes:
    """The text of this object."""
    if isinstance(text, bytes):
        return text
    # Half a surrogate pair makes bytes that aren't UTF-8, which is refused by its name.
    return (text if isinstance(text, str) else _dumps(text)).encode("utf-8", "surrogatepass")


def version() -> str:
    """What the shared object is, and what was proved of it: a line."""
    try:
        told = ctypes.c_char.in_dll(_LIBRARY, "vemiktag_version")
    except ValueError:
        return "vemiktag, and nobody said what was proved of it"
    return ctypes.string_at(ctypes.addressof(told)).decode()


# ---- a whole session


def report(events: bytes, room: int = 65536) -> Tuple[bytes, bool]:
    """The report of the session whose lines are these bytes, and whether nothing was refused or skipped.

    `room` is how many bytes it may have at first; where it has more, it is made again. Raises OutOfMemory and Full.
    """
    count = ctypes.c_size_t()
    while True:
        told = ctypes.create_string_buffer(max(room, 1))
        status = _report(events, len(events), told, room, ctypes.byref(count))
        if status != TOO_SMALL:
            break
        room = count.value
    if status in _ERRORS:
        raise _ERRORS[status]()
    return ctypes.string_at(told, count.value), status == DONE


class Session:
    """A session whose lines come one after another. It may be used by one thread, and by one call at a time.

    Each call raises OutOfMemory where there was no memory, Closed where the session takes no more lines, and Full where it heard
    too many.
    """

    def __init__(self) -> None:
        self._handle, self._count = _Handle(), ctypes.c_size_t()
        self._at, self._counted = ctypes.byref(self._handle), ctypes.byref(self._count)
        self._expect(_session_new(self._at))

    def __enter__(self) -> Session:
        return self

    def __exit__(self, *_: object) -> None:
        self.free()

    def line(self, event: Text) -> Tuple[bytes, bool]:
        """What an event writes, a dict or a line without its LF, and whether it was taken."""
        text = _bytes_of(event)
        status = self._expect(_session_line(self._at, text, len(text), self._counted))
        return self._read(), status == DONE

    def end(self) -> Tuple[bytes, bool]:
        """The last lines, and whether nothing was refused or skipped. The session takes no more lines then."""
        status = self._expect(_session_close(self._at, self._counted))
        return self._read(), status == DONE

    def free(self) -> None:
        """Frees what the session holds. It does no harm to free it twice."""
        _session_free(self._at)

    __del__ = free

    def _read(self) -> bytes:
        """What waits: as many bytes as were counted."""
        room = self._count.value
        if room == 0:
            return b""
        told = ctypes.create_string_buffer(room)
        self._expect(_session_read(self._at, told, room, self._counted))
        return ctypes.string_at(told, self._count.value)

    @staticmethod
    def _expect(status: int) -> int:
        if status in _ERRORS:
            raise _ERRORS[status]()
        return status


# ---- what a client tells


@dataclass(frozen=True)
class Marker:
    """An element that adds nothing to the text."""

    ref_type: int


@dataclass(frozen=True)
class Put:
    """The characters, or the marker, go in with these properties, in front of the element at `pos`, or at the end."""

    pos: int
    seg: Union[str, Marker]
    props: Fields


@dataclass(frozen=True)
class Take:
    """`count` elements from `pos` on go away."""

    pos: int
    count: int


@dataclass(frozen=True)
class Style:
    """`count` elements from `pos` on have these properties now, and no others."""

    pos: int
    count: int
    props: Fields


@dataclass(frozen=True)
class PutUnits:
    """`count` rows or columns, as `target` says, go in, in front of number `pos`, or at the end."""

    target: str
    pos: int
    count: int


@dataclass(frozen=True)
class TakeUnits:
    """`count` rows or columns from number `pos` on go away, with their cells."""

    target: str
    pos: int
    count: int


@dataclass(frozen=True)
class Cell:
    """The cell has this value now; None: it has none any more."""

    row: int
    col: int
    value: Any


@dataclass(frozen=True)
class Interval:
    """The interval is new, or has these ends and these properties now. Both ends are -1 where it is detached."""

    label: str
    id: str
    start: int
    end: int
    props: Fields


@dataclass(frozen=True)
class Gone:
    """The interval is gone."""

    label: str
    id: str


Change = Union[Put, Take, Style, PutUnits, TakeUnits, Cell, Interval, Gone]

_CHANGES: Dict[str, Callable[..., Change]] = {
    "put": Put,
    "take": Take,
    "style": Style,
    "putUnits": PutUnits,
    "takeUnits": TakeUnits,
    "cell": Cell,
    "interval": Interval,
    "gone": Gone,
}


def _change(change: str, **fields: Any) -> Change:
    """The change of this name with these fields."""
    if change == "put" and not isinstance(fields["seg"], str):
        fields["seg"] = Marker(fields["seg"]["marker"]["refType"])
    return _CHANGES[change](**fields)


# ---- a client

# Room for what a client tells of an edit or a message; a longer text takes a second one.
_ROOM = 4096



def _edit_head(address: str) -> bytes:
    """The beginning of an event `edit`, up to its operation."""
    return f'{{"address":{_dumps(address)},"client":"","do":"edit","op":'.encode()


_EDITS = {address: _edit_head(address) for address in ("text", "grid")}


class Client:
    """One editor's copy of the document. It may be used by one thread, and by one call at a time.

    Each call raises Refused where it was refused, and then nothing changed; OutOfMemory where there was no memory; Closed where the
    client takes nothing more; and Full where it would be too much for it, and then nothing changed.
    """

    def __init__(self, summary: Optional[Text] = None) -> None:
        self._handle, self._count = _Handle(), ctypes.c_size_t()
        self._at, self._counted = ctypes.byref(self._handle), ctypes.byref(self._count)
        self._room = ctypes.create_string_buffer(_ROOM)
        self._expect(_client_new(self._at))
        if summary is not None:
            self.load(summary)

    def __enter__(self) -> Client:
        return self

    def __exit__(self, *_: object) -> None:
        self.free()

    def load(self, summary: Text) -> None:
        """Starts anew, offline, from a summary. What it had is gone."""
        self._give(_client_load, _bytes_of(summary))

    def connect(self, name: str) -> None:
        """Waits for the join of the connection of this name, a new one. It is online once it has processed the join."""
        self._give(_client_connect, name.encode("utf-8", "surrogatepass"))

    def drop(self) -> None:
        """Its connection is gone; what it has pending stays so."""
        self._expect(_client_drop(self._at))

    def edit(self, op: Text, address: str = "text") -> None:
        """Takes an operation of its own: a dict as docs/FORMATS.md has it, or the text of one. `address` is "text" or "grid"."""
        self._give(_client_edit, (_EDITS.get(address) or _edit_head(address)) + _bytes_of(op) + b"}")

    def insert(self, place: int, text: str) -> None:
        """Puts the characters in front of the element at `place`, or at the end."""
        self.edit(f'{{"type":0,"pos1":{place:d},"seg":{_dumps(text)}}}')

    def remove(self, start: int, end: int) -> None:
        """Takes out the elements from `start` up to before `end`."""
        self.edit(f'{{"type":1,"pos1":{start:d},"pos2":{end:d}}}')

    def process(self, message: Text) -> None:
        """Takes the next message of the log: its text as it came, or a dict."""
        self._give(_client_process, _bytes_of(message))

    def outgoing(self) -> Iterator[str]:
        """The drafts that it has to send, oldest first: the text of each. A draft counts as sent once it is taken."""
        while self._expect(_client_outgoing(self._at)) == DONE:
            yield self._told()[:-1]

    def view(self) -> List[str]:
        """The lines of what it shows."""
        return self._shown().split("\n")[:-1]

    def text(self) -> str:
        """Its text, without the markers."""
        line: str = json.loads(self._shown().split("\n", 2)[1][len("text ") :])
        return line

    def tell(self, listens: bool = True) -> None:
        """From now on `changes` tells what changes, first from nothing to what it shows now; or it doesn't any more."""
        self._expect(_client_tell(self._at, listens))

    def changes(self) -> Optional[List[Change]]:
        """The changes since it was last asked, in order. None where it isn't told."""
        if self._expect(_client_changes(self._at)) == NOTHING:
            return None
        # An LF within a string is written as \n.
        return [_change(**fields) for fields in json.loads("[" + self._told()[:-1].replace("\n", ",") + "]")]

    def free(self) -> None:
        """Frees what the client holds. It does no harm to free it twice."""
        _client_free(self._at)

    __del__ = free

    def _give(self, call: Any, text: bytes) -> None:
        """Makes a call that takes a text."""
        status = call(self._at, text, len(text))
        if status:
            self._expect(status)

    def _shown(self) -> str:
        self._expect(_client_view(self._at))
        return self._told()

    def _told(self) -> str:
        """What waits to be read."""
        _client_read(self._at, self._room, _ROOM, self._counted)
        told = ctypes.string_at(self._room, self._count.value)
        if len(told) == _ROOM:
            _client_waiting(self._at, self._counted)
            rest = ctypes.create_string_buffer(self._count.value + 1)
            _client_read(self._at, rest, self._count.value, self._counted)
            told += ctypes.string_at(rest, self._count.value)
        return told.decode()

    def _expect(self, status: int) -> int:
        """The status of a call that was done, or had nothing to do."""
        if status == SOME_REFUSED:
            _, number, text = self._told()[:-1].split(" ", 2)
            raise Refused(int(number), text)
        if status == UNTOLD:
            raise Refused(0, "")
        if status in _ERRORS:
            raise _ERRORS[status]()
        return status


# ---- what an editor shows


class Shown:
    """What an editor shows that applies changes: it has the lines of the view of the client that told them.

    `elements` are pairs of a character or a marker and its properties, `intervals` have a label and an id as their key, `cells` a
    row and a column, and `units` counts "rows" and "cols".
    """

    def __init__(self) -> None:
        self.elements: List[Tuple[Union[str, Marker], Fields]] = []
        self.intervals: Dict[Tuple[str, str], Interval] = {}
        self.cells: Dict[Tuple[int, int], Any] = {}
        self.units = {"rows": 0, "cols": 0}

    def apply(self, changes: Iterable[Change]) -> None:
        """Applies changes, in order."""
        for change in changes:
            getattr(self, "_" + type(change).__name__)(change)

    def lines(self) -> Iterator[str]:
        """The lines of what is shown, as a view has them behind its first one."""
        yield "text " + _written("".join(part for part, _ in self.elements if isinstance(part, str)))
        for place, (part, _) in enumerate(self.elements):
            if isinstance(part, Marker):
                yield f"marker {place} {part.ref_type}"
        for start, end, props in self._runs():
            yield f"props {start} {end} {_written(props)}"
        for _, i in sorted(self.intervals.items(), key=lambda item: item[0]):
            yield f"interval {_written(i.label)} {_written(i.id)} {i.start} {i.end} {_written(i.props)}"
        if any(self.units.values()):
            yield "rows {rows} cols {cols}".format(**self.units)
        for (row, col), value in sorted(self.cells.items(), key=lambda item: item[0]):
            yield f"cell {row} {col} {_written(value)}"

    def _runs(self) -> Iterator[Tuple[int, int, Fields]]:
        """The runs of elements with equal properties that aren't empty."""
        start = 0
        for end in range(1, len(self.elements) + 1):
            props = self.elements[start][1]
            if end == len(self.elements) or not _same(self.elements[end][1], props):
                if props:
                    yield start, end, props
                start = end

    def _Put(self, put: Put) -> None:
        parts: List[Union[str, Marker]] = [*put.seg] if isinstance(put.seg, str) else [put.seg]
        self.elements[put.pos : put.pos] = [(part, put.props) for part in parts]
        self._move_ends(lambda end: end + len(parts) if end >= put.pos else end)

    def _Take(self, take: Take) -> None:
        del self.elements[take.pos : take.pos + take.count]
        left = len(self.elements)

        def moved(end: int) -> int:
            if end < take.pos:
                return end
            if end >= take.pos + take.count:
                return end - take.count
            return take.pos if take.pos < left else left - 1

        self._move_ends(moved)

    def _Style(self, style: Style) -> None:
        end = style.pos + style.count
        self.elements[style.pos : end] = [(part, style.props) for part, _ in self.elements[style.pos : end]]

    def _PutUnits(self, put: PutUnits) -> None:
        self.units[put.target] += put.count
        self._move_cells(put.target, lambda number: number + put.count if number >= put.pos else number)

    def _TakeUnits(self, take: TakeUnits) -> None:
        self.units[take.target] -= take.count
        end = take.pos + take.count
        kept = {place: value for place, value in self.cells.items() if not take.pos <= _number(take.target, place) < end}
        self.cells = kept
        self._move_cells(take.target, lambda number: number - take.count if number >= end else number)

    def _Cell(self, cell: Cell) -> None:
        if cell.value is None:
            self.cells.pop((cell.row, cell.col), None)
        else:
            self.cells[cell.row, cell.col] = cell.value

    def _Interval(self, interval: Interval) -> None:
        self.intervals[interval.label, interval.id] = interval

    def _Gone(self, gone: Gone) -> None:
        self.intervals.pop((gone.label, gone.id), None)

    def _move_ends(self, moved: Callable[[int], int]) -> None:
        for key, i in self.intervals.items():
            if i.start >= 0:
                self.intervals[key] = Interval(i.label, i.id, moved(i.start), moved(i.end), i.props)

    def _move_cells(self, target: str, moved: Callable[[int], int]) -> None:
        on_rows = target == "rows"
        self.cells = {(moved(row), col) if on_rows else (row, moved(col)): value for (row, col), value in self.cells.items()}


def _number(target: str, place: Tuple[int, int]) -> int:
    """The number of the cell's row, or of its column."""
    return place[0] if target == "rows" else place[1]


def _same(props: Fields, others: Fields) -> bool:
    """Whether properties are equal; 1 and true are not."""
    return props is others or _written(props) == _written(others)


def _written(value: Any) -> str:
    """The one text of a JSON value, as views have it: its objects keep the order of their keys."""
    return json.dumps(value, ensure_ascii=False, separators=(",", ":"))


# ---- from a shell


def _play(events: Iterable[bytes], out: IO[bytes]) -> bool:
    """Writes what each line of a session writes as soon as it is heard; whether nothing was refused or skipped."""
    with Session() as session:
        for event in events:
            out.write(session.line(event[:-1] if event.endswith(b"\n") else event)[0])
            out.flush()
        told, done = session.end()
        out.write(told)
        return done


def main(words: Sequence[str]) -> int:
    """What `python3 -m vemiktag` does with these words. Ends with the statuses of the program `vemiktag`."""
    if words[:1] != ["session"] or len(words) > 2:
        print("usage: python3 -m vemiktag session [FILE]", file=sys.stderr)
        return 2
    try:
        if len(words) == 1:
            done = _play(sys.stdin.buffer, sys.stdout.buffer)
        else:
            with open(words[1], "rb") as file:
                told, done = report(file.read())
            sys.stdout.buffer.write(told)
        sys.stdout.flush()
    except OSError as why:
        print(why, file=sys.stderr)
        return 3
    except Error as why:
        print(why, file=sys.stderr)
        return OUT_OF_MEMORY if isinstance(why, OutOfMemory) else TOO_LONG
    return DONE if done else SOME_REFUSED


if __name__ == "__main__":
    sys.exit(main(sys.argv[1:]))
