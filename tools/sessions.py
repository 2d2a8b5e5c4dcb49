#!/usr/bin/env python3
"""Pseudo-random sessions for `vemiktag session` and for `ft_beside`.

    tools/sessions.py SEED [EVENTS] [CLIENTS]      a session, one event a line
    tools/sessions.py --told SEED [EVENTS] [CLIENTS]    what it comes to: the counts of its lines, refused lines and views
    tools/sessions.py --cases                      writes stdin and stdout of crates/ft_beside anew
    tools/sessions.py --covered                    how often each word and each refusal comes in these cases

A session of a seed is always the same. Its events are drawn by what a session's clients see: a small model of the sequencer
and of the clients' lists, which docs/MODEL.md describes, knows how long each list is at each client and what is pending there. So most edits
are in range, those that are not are meant, and how many lines are refused is known without a run. At its end all clients connect, process
all messages and are shown.

SEED is from 0 to 18446744073709551615, EVENTS from 0 to 100000, and CLIENTS from 1 to 15. Without EVENTS a session has 60, and with 0 CLIENTS or
without from 2 to 5. Where fewer events are asked for than its clients need to come and to be shown, it has these. Lists are whole ones, so
1,000 events take a second, and 4,000 fifteen. The status is 2 where the words are none of these.

Only the standard library is used.
"""
import json
import os
import re
import sys

ROOT = os.path.dirname(os.path.dirname(os.path.abspath(__file__)))
ALL = 'all'
NAME_LIMIT = 16
COUNT_LIMIT = 1_000_000
SEED_LIMIT = 2**64
EVENT_LIMIT = 100_000


def line_of(value):
    """The one spelling of a value: keys rise, and no spaces stand between."""
    return json.dumps(value, ensure_ascii=False, separators=(',', ':'), sort_keys=True)


class Draws:
    """Pseudo-random numbers, those of `vemiktag gen`."""

    def __init__(self, seed):
        self.state = seed % 2**64

    def below(self, bound):
        self.state = (self.state * 6364136223846793005 + 1442695040888963407) % 2**64
        return (self.state >> 33) % bound

    def of(self, items):
        return items[self.below(len(items))]

    def happens(self, of_hundred):
        return self.below(100) < of_hundred

    def weighed(self, weights):
        """A key, as often as its weight says."""
        drawn = self.below(sum(weights.values()))
        for key, weight in weights.items():
            if drawn < weight:
                return key
            drawn -= weight
        raise AssertionError('no weights')


# ---- the model

class Element:
    """A character, a marker or a unit: who inserted it, who removed it, and what is pending on it."""
    __slots__ = ('content', 'inserted', 'stage', 'removals', 'removal_stage')

    def __init__(self, content, inserted, stage):
        self.content = content                      # a character, and nothing of a marker and a unit
        self.inserted = inserted                    # (number, connection), None while it is pending
        self.stage = stage                          # the stage that inserts it, while it is pending
        self.removals = []
        self.removal_stage = 0                      # the stage that removes it, 0 for none

    def is_shown(self, stage):
        """Whether its client shows it with the pending edits up to this stage."""
        is_inserted = self.inserted is not None or self.stage <= stage
        return is_inserted and not self.removals and not 0 < self.removal_stage <= stage


class Stage:
    """A pending sub-operation, by the elements that it names."""

    def __init__(self, number, address, op, kind):
        self.number, self.address, self.op, self.kind = number, address, op, kind
        self.list = {'rows': 'rows', 'cols': 'cols'}.get(op.get('target'), 'text')
        self.elements = []                          # what it inserts, removes or annotates, or the row and the column of its cell


def sub_operations(op):
    return op['ops'] if op.get('type') == 3 else [op]


def kind_of(op):
    if 'interval' in op:
        return 'interval'
    if op['type'] == 'set':
        return 'set'
    return ('insert', 'remove', 'annotate')[op['type']]


def inserted_contents(op):
    """What an insertion puts in: of each element its character, nothing of a marker and a unit."""
    if 'target' in op:
        return [''] * op['count']
    segment = op['seg']
    return segment if isinstance(segment, str) else segment.get('text', [''])


class Lists:
    """The text, the rows, the columns and the names of the intervals, as they are in a client or by all messages alone."""

    def __init__(self):
        self.text, self.rows, self.cols = [], [], []
        self.intervals = set()
        self.skipped = 0

    def copied(self):
        other = Lists()
        for name in ('text', 'rows', 'cols'):
            for element in getattr(self, name):
                twin = Element(element.content, element.inserted, 0)
                twin.removals = list(element.removals)
                getattr(other, name).append(twin)
        other.intervals = set(self.intervals)
        other.skipped = self.skipped
        return other

    def seen(self, name, number, connection):
        """The elements that the messages up to this number and those of this connection show."""
        found = []
        for element in getattr(self, name):
            stamp = element.inserted
            if stamp is None or not (stamp[0] <= number or stamp[1] == connection):
                continue
            for stamp in element.removals:
                if stamp[0] <= number or stamp[1] == connection:
                    break
            else:
                found.append(element)
        return found

    def take(self, entry):
        """Takes the operation of a message of another."""
        op = entry.contents['contents']
        for sub in sub_operations(op):
            if not self.take_sub(sub, entry.number, entry.connection, entry.reference):
                self.skipped += 1

    def take_sub(self, op, number, connection, reference):
        kind = kind_of(op)
        if kind == 'set':
            rows, cols = self.seen('rows', reference, connection), self.seen('cols', reference, connection)
            return op['row'] < len(rows) and op['col'] < len(cols)
        name = op.get('target', 'text')
        seen = self.seen(name, reference, connection)
        if kind == 'interval':
            return self.take_interval(op, len(seen))
        if kind == 'insert':
            if op['pos1'] > len(seen):
                return False
            place = place_behind(getattr(self, name), seen, op['pos1'])
            while place < len(getattr(self, name)) and getattr(self, name)[place].inserted is None:
                place += 1
            getattr(self, name)[place:place] = [Element(content, (number, connection), 0) for content in inserted_contents(op)]
            return True
        if op['pos2'] > len(seen):
            return False
        if kind == 'remove':
            for element in seen[op['pos1']:op['pos2']]:
                element.removals.append((number, connection))
        return True

    def take_interval(self, op, length):
        if op.get('end', -1) >= length:
            return False
        take_name(self.intervals, op)
        return True


def take_name(names, op):
    """What an operation on an interval makes of the names that there are."""
    if op['interval'] == 'add':
        names.add((op['label'], op['id']))
    elif op['interval'] == 'delete':
        names.discard((op['label'], op['id']))


def place_behind(elements, some, count):
    """The place directly behind the first so many of some of the elements."""
    return 0 if count == 0 else next(i for i, element in enumerate(elements) if element is some[count - 1]) + 1


class Entry:
    """A message of the log. Its contents are exact where the model knows them word for word."""

    def __init__(self, number, minimum, connection, client_number, reference, kind, contents, is_exact=True):
        self.number, self.minimum, self.connection = number, minimum, connection
        self.client_number, self.reference = client_number, reference
        self.kind, self.contents, self.is_exact = kind, contents, is_exact

    def message(self):
        return {'clientId': self.connection, 'clientSequenceNumber': self.client_number, 'contents': self.contents,
                'minimumSequenceNumber': self.minimum, 'referenceSequenceNumber': self.reference,
                'sequenceNumber': self.number, 'type': self.kind}


class Draft:
    def __init__(self, client_number, reference, kind, contents, is_exact=True):
        self.client_number, self.reference = client_number, reference
        self.kind, self.contents, self.is_exact = kind, contents, is_exact


class Sequencer:
    def __init__(self):
        self.number = self.minimum = 0
        self.joined = {}                            # of each connection its last reference number and its last client number
        self.log = []

    def log_entry(self, connection, client_number, reference, kind, contents, is_exact):
        self.number += 1
        self.minimum = min((last[0] for last in self.joined.values()), default=self.number)
        self.log.append(Entry(self.number, self.minimum, connection, client_number, reference, kind, contents, is_exact))

    def join(self, connection):
        self.joined[connection] = (self.minimum, 0)
        self.log_entry(connection, -1, -1, 'join', None, True)

    def leave(self, connection):
        del self.joined[connection]
        self.log_entry(connection, -1, -1, 'leave', None, True)

    def is_nacked(self, connection, draft):
        if connection not in self.joined:
            return True
        last_reference, last_number = self.joined[connection]
        is_in_range = max(self.minimum, last_reference) <= draft.reference <= self.number
        return draft.client_number != last_number + 1 or not is_in_range

    def submit(self, connection, draft):
        self.joined[connection] = (draft.reference, draft.client_number)
        self.log_entry(connection, draft.client_number, draft.reference, draft.kind, draft.contents, draft.is_exact)


class Client:
    def __init__(self, name, lists, number, minimum):
        self.name, self.lists, self.number, self.minimum = name, lists, number, minimum
        self.link, self.connection, self.connections = 'offline', None, []
        self.stage, self.client_number = 0, 0
        self.pending, self.queue = [], []           # lists of stages; drafts

    def shown(self, name, stage=None):
        last = self.stage if stage is None else stage
        return [element for element in getattr(self.lists, name) if not element.removals and element.is_shown(last)]

    def intervals(self):
        names = set(self.lists.intervals)
        for stages in self.pending:
            for stage in stages:
                if stage.kind == 'interval':
                    take_name(names, stage.op)
        return names

    def is_in_range(self, op):
        kind = kind_of(op)
        if kind == 'set':
            return op['row'] < len(self.shown('rows')) and op['col'] < len(self.shown('cols'))
        length = len(self.shown(op.get('target', 'text')))
        if kind == 'interval':
            return op.get('end', -1) < length
        return op['pos1'] <= length if kind == 'insert' else op['pos2'] <= length

    def edit(self, address, op):
        """Takes an edit of its own, and answers the number of its refusal, 0 for none."""
        if 'interval' in op:
            is_there = (op['label'], op['id']) in self.intervals()
            if op['interval'] == 'add' and is_there:
                return 13
            if op['interval'] != 'add' and not is_there:
                return 14
        stages, before = [], self.stage
        for sub in sub_operations(op):
            if not self.is_in_range(sub):
                self.undo(stages)
                self.stage = before
                return 6
            self.stage += 1
            stage = Stage(self.stage, address, sub, kind_of(sub))
            self.apply(stage)
            stages.append(stage)
        self.pending.append(stages)
        if self.link == 'online':
            self.client_number += 1
            self.queue.append(Draft(self.client_number, self.number, 'op', {'address': address, 'contents': op}))
        return 0

    def apply(self, stage):
        op, elements = stage.op, getattr(self.lists, stage.list)
        if stage.kind == 'set':
            stage.elements = [self.shown('rows')[op['row']], self.shown('cols')[op['col']]]
        elif stage.kind == 'insert':
            shown = self.shown(stage.list, stage.number - 1)
            place = place_behind(elements, shown, op['pos1'])
            stage.elements = [Element(content, None, stage.number) for content in inserted_contents(op)]
            elements[place:place] = stage.elements
        elif stage.kind in ('remove', 'annotate'):
            stage.elements = self.shown(stage.list, stage.number - 1)[op['pos1']:op['pos2']]
            if stage.kind == 'remove':
                for element in stage.elements:
                    element.removal_stage = stage.number

    def undo(self, stages):
        for stage in reversed(stages):
            if stage.kind == 'insert':
                gone = set(map(id, stage.elements))
                elements = getattr(self.lists, stage.list)
                elements[:] = [element for element in elements if id(element) not in gone]
            elif stage.kind == 'remove':
                for element in stage.elements:
                    element.removal_stage = 0

    def process(self, entry):
        if entry.kind == 'op' and entry.connection in self.connections:
            self.acknowledge(entry)
        elif entry.kind == 'op' and entry.contents['address'] in ('text', 'grid'):
            self.lists.take(entry)
        self.number, self.minimum = entry.number, entry.minimum
        if entry.kind == 'join' and entry.connection == self.connection and self.link == 'joining':
            self.rebuild()
            self.link = 'online'

    def acknowledge(self, entry):
        stamp = (entry.number, entry.connection)
        for stage in self.pending.pop(0):
            for element in stage.elements:
                if stage.kind == 'insert':
                    element.inserted = stamp
                elif stage.kind == 'remove':
                    element.removal_stage = 0
                    element.removals.append(stamp)
            if stage.kind == 'interval':
                take_name(self.lists.intervals, stage.op)

    # What is pending is sent again as the lists are now, and its elements stand where they would if it had been done now.
    def rebuild(self):
        pieces = [[(stage, self.pieces(stage)) for stage in stages] for stages in self.pending]
        for name in ('text', 'rows', 'cols'):
            elements = getattr(self.lists, name)
            elements[:] = [element for element in elements if element.inserted is not None]
            for element in elements:
                element.removal_stage = 0
        self.pending, self.queue, self.client_number = [], [], 0
        for edit in pieces:
            kept, ops, is_exact = [], [], True
            for stage, (found, elements) in edit:
                if found:
                    kept.append(self.put_again(stage, found, elements))
                    ops.extend(found)
                    is_exact = is_exact and stage.kind != 'interval'
            if kept:
                op = ops[0] if len(ops) == 1 else {'ops': ops, 'type': 3}
                self.pending.append(kept)
                self.client_number += 1
                self.queue.append(Draft(self.client_number, self.number, 'op', {'address': kept[0].address, 'contents': op}, is_exact))

    # The pieces of a stage in the view of the one before, and the elements that they cover.
    def pieces(self, stage):
        before = stage.number - 1
        if stage.kind == 'interval':
            return [dict(stage.op)], []
        if stage.kind == 'set':
            row, col = stage.elements
            rows, cols = self.shown('rows', before), self.shown('cols', before)
            if not (row.is_shown(before) and col.is_shown(before)):
                return [], []
            return [dict(stage.op, row=index_of(rows, row), col=index_of(cols, col))], [row, col]
        if stage.kind == 'insert':
            if not stage.elements:
                return [], []
            left = 0
            for element in getattr(self.lists, stage.list):
                if element is stage.elements[0]:
                    break
                left += element.is_shown(before)
            return [dict(stage.op, pos1=left)], stage.elements
        marked = set(map(id, stage.elements))
        covered, runs = [], []
        for place, element in enumerate(self.shown(stage.list, before)):
            if id(element) in marked:
                covered.append(element)
                if runs and runs[-1][1] == place:
                    runs[-1][1] = place + 1
                else:
                    runs.append([place, place + 1])
        lowered, found = 0, []
        for start, end in runs:
            found.append(dict(stage.op, pos1=start - lowered, pos2=end - lowered))
            if stage.kind == 'remove':
                lowered += end - start
        return found, covered

    def put_again(self, stage, found, elements):
        again = Stage(stage.number, stage.address, found[0], stage.kind)
        again.elements = elements
        if stage.kind == 'insert':
            shown = self.shown(stage.list, stage.number - 1)
            place = place_behind(getattr(self.lists, stage.list), shown, found[0]['pos1'])
            getattr(self.lists, stage.list)[place:place] = elements
        elif stage.kind == 'remove':
            for element in elements:
                element.removal_stage = stage.number
        return again


def index_of(elements, one):
    return next(i for i, element in enumerate(elements) if element is one)


class World:
    """The clients and guests of a session. It takes events, and answers the number of a refusal, 0 for none."""

    def __init__(self):
        self.clients, self.guests = {}, {}
        self.sequencer = Sequencer()
        self.observer = Client('', Lists(), 0, 0)   # it has no edits

    def take(self, event):
        return getattr(self, 'take_' + event['do'])(event)

    def agreed(self):
        """What the messages alone come to."""
        for entry in self.sequencer.log[self.observer.number:]:
            self.observer.process(entry)
        return self.observer.lists

    def name_fault(self, name):
        if name in self.clients or name in self.guests:
            return 3
        return 12 if len(self.clients) + len(self.guests) >= NAME_LIMIT else 0

    def take_start(self, event):
        fault = self.name_fault(event['client'])
        if fault:
            return fault
        if 'from' not in event:
            self.clients[event['client']] = Client(event['client'], Lists(), 0, 0)
            return 0
        other = self.clients.get(event['from'])
        if other is None:
            return 2
        if other.pending:
            return 11
        self.clients[event['client']] = Client(event['client'], other.lists.copied(), other.number, other.minimum)
        return 0

    def take_connect(self, event):
        client = self.clients.get(event['client'])
        if client is None:
            return 2
        if client.link != 'offline':
            return 4
        count = len(client.connections) + 1
        client.connection = f'{client.name}/{count}'
        client.connections.append(client.connection)
        client.link, client.client_number = 'joining', 0
        self.sequencer.join(client.connection)
        return 0

    # The client of an event, or why there is none that is connected.
    def connected(self, event):
        client = self.clients.get(event['client'])
        if client is None:
            return None, 2
        return (None, 5) if client.link == 'offline' else (client, 0)

    def take_drop(self, event):
        client, fault = self.connected(event)
        if client is None:
            return fault
        self.sequencer.leave(client.connection)
        client.link, client.queue = 'offline', []
        return 0

    def take_edit(self, event):
        client = self.clients.get(event['client'])
        return 2 if client is None else client.edit(event['address'], event['op'])

    def take_ticket(self, event):
        client, fault = self.connected(event)
        if client is None:
            return fault
        count = event.get('count', 1)
        count = len(client.queue) if count == ALL else count
        if count > len(client.queue):
            return 7
        for draft in client.queue[:count]:
            self.sequencer.submit(client.connection, draft)
        del client.queue[:count]
        return 0

    def take_deliver(self, event):
        client, fault = self.connected(event)
        if client is None:
            return fault
        ahead = self.sequencer.log[client.number:]
        count = event.get('count', 1)
        count = len(ahead) if count == ALL else count
        if count > len(ahead):
            return 8
        for entry in ahead[:count]:
            client.process(entry)
        return 0

    def take_noop(self, event):
        client = self.clients.get(event['client'])
        if client is None:
            return 2
        if client.link != 'online':
            return 5
        client.client_number += 1
        client.queue.append(Draft(client.client_number, client.number, 'noop', None))
        return 0

    def take_show(self, event):
        return 0 if event['client'] in self.clients else 2

    take_queue = take_compact = take_overlap = take_authors = take_show

    def take_summary(self, event):
        client = self.clients.get(event['client'])
        if client is None:
            return 2
        return 11 if client.pending else 0

    def take_blame(self, event):
        client = self.clients.get(event['client'])
        if client is None:
            return 2
        return 6 if event['end'] > len(client.shown('text')) else 0

    def take_history(self, event):
        return 0

    def take_offer(self, event):
        client, fault = self.connected(event)
        if client is None:
            return fault
        if event['message'] in MALFORMED_MESSAGES:
            return MALFORMED_MESSAGES[event['message']]
        message = json.loads(event['message'])
        if message['sequenceNumber'] != client.number + 1:
            return 9
        ahead = self.sequencer.log[client.number:]
        if not ahead or message != ahead[0].message():
            return 10
        client.process(ahead[0])
        return 0

    def take_guest(self, event):
        fault = self.name_fault(event['guest'])
        if fault:
            return fault
        self.guests[event['guest']] = event['guest'] + '/1'
        self.sequencer.join(event['guest'] + '/1')
        return 0

    def take_submit(self, event):
        connection = self.guests.get(event['guest'])
        if connection is None:
            return 2
        if event['message'] in MALFORMED_MESSAGES:
            return MALFORMED_MESSAGES[event['message']]
        given = json.loads(event['message'])
        draft = Draft(given['clientSequenceNumber'], given['referenceSequenceNumber'], given['type'], given['contents'])
        if self.sequencer.is_nacked(connection, draft):
            return 17
        self.sequencer.submit(connection, draft)
        return 0

    def take_part(self, event):
        connection = self.guests.get(event['guest'])
        if connection is None:
            return 2
        if connection not in self.sequencer.joined:
            return 5
        self.sequencer.leave(connection)
        return 0


# ---- lines that are refused when they are read

DEEP = '[' * 101 + ']' * 101


def edit_line(op, address='"text"'):
    return '{"address":%s,"client":"ana","do":"edit","op":%s}' % (address, op)


# Of each line the number of its refusal.
MALFORMED_LINES = [
    (b'{"client":"\xff","do":"show"}', 1),                                          # NotUtf8
    ('{"client":"ana","do":"show"', 1),                                             # NotJson
    ('{"client":"\\ud800","do":"show"}', 1),
    ('{"do":"show","x":1e999}', 1),
    ('[' * 128 + ']' * 128, 1),
    ('{"do":"show"}', 1),                                                           # Missing
    ('{}', 1),
    ('{"client":"ana","do":"edit","op":{"pos1":0,"seg":"a","type":0}}', 1),
    ('{"client":"ana","do":"edit","address":"text"}', 1),
    ('{"guest":"bot","do":"submit"}', 1),
    ('{"client":"ana","do":"overlap","label":"notes","start":0}', 1),
    (edit_line('{"pos1":0,"type":1}'), 1),
    (edit_line('{"end":1,"id":"i","interval":"change","label":"notes"}'), 1),
    ('[]', 1),                                                                      # WrongKind
    ('{"do":7}', 1),
    ('{"client":7,"do":"show"}', 1),
    ('{"client":"ana","count":-1,"do":"ticket"}', 1),
    ('{"client":"ana","count":"some","do":"deliver"}', 1),
    ('{"client":"eve","do":"start","from":null}', 1),
    (edit_line('{"pos1":0,"seg":"a","type":0}', '"chat"'), 1),
    (edit_line('5'), 1),
    (edit_line('{"pos1":0,"seg":5,"type":0}'), 1),
    (edit_line('{"ops":[3],"type":3}'), 1),
    (edit_line('{"pos1":0,"pos2":0,"props":{"a":1},"adjust":{"a":{"delta":1}},"type":2}'), 1),
    (edit_line('{"pos1":0,"pos2":1,"type":4}'), 1),                                 # UnknownType
    (edit_line('{"pos1":4,"pos2":3,"type":1}'), 1),                                 # Reversed
    (edit_line('{"adjust":{"n":{"delta":1,"max":4,"min":5}},"pos1":0,"pos2":1,"type":2}'), 1),
    ('{"client":"ana","do":"overlap","end":3,"label":"notes","start":5}', 1),
    ('{"client":"ana","do":"blame","end":0,"start":1}', 1),
    (edit_line('{"ops":[{"ops":[],"type":3}],"type":3}'), 1),                       # NestedGroup
    (edit_line('{"pos1":0,"pos2":1,"props":{"a":%s},"type":2}' % DEEP), 1),         # TooDeep
    (edit_line('{"col":0,"row":0,"type":"set","value":%s}' % DEEP, '"grid"'), 1),
    (edit_line('{"pos1":0,"pos2":1,"props":{"a":1.5},"type":2}'), 1),               # Fraction
    (edit_line('{"col":0,"row":0,"type":"set","value":-0}', '"grid"'), 1),
    ('{"client":"ana","do":"jump"}', 1),                                            # UnknownWord
    (edit_line('{"count":1000001,"pos1":0,"target":"rows","type":0}', '"grid"'), 15),
]

MALFORMED_MESSAGES = {
    '{"clientId"': 1,
    '': 1,
    '[]': 1,
    '{"clientSequenceNumber":1}': 1,
    '{"clientId":"ana/1","clientSequenceNumber":-2,"sequenceNumber":1}': 1,
    line_of({'clientId': 'bot/1', 'clientSequenceNumber': 1, 'minimumSequenceNumber': 0, 'referenceSequenceNumber': 0, 'sequenceNumber': 1, 'type': 'op',
             'contents': {'address': 'grid', 'contents': {'count': COUNT_LIMIT + 1, 'pos1': 0, 'target': 'cols', 'type': 0}}}): 15,
}

# ---- what is drawn

CLIENT_NAMES = ['ana', 'ben', 'cy', 'dora', 'é', 'fay', 'gil', 'hana', 'ida', 'jo', 'kim', 'lea', 'mo', 'nan', 'ola', 'pia']
GUEST_NAMES = ['bot', 'cron', 'web']
LABELS = ['notes', 'a b', 'é']
IDS = ['i', 'j', 'k', 'l', 'm"n']
KEYS = ['bold', 'n', 'size', 'é', '']
VALUES = [True, False, None, 0, 7, -3, 'a', '', 'q"\\\n', 9007199254740991, 18446744073709551615, -9223372036854775808, [], {}, [1, [2]],
          {'b': None, 'a': 'x'}, [None]]
LETTERS = 'etaoinshrdlu  .é😀"\\\n\u0001\u007f'

# How often each kind of event comes in a session of each sort.
EVENTS = {'edit': 40, 'ticket': 12, 'deliver': 22, 'noop': 4, 'show': 3, 'queue': 1, 'compact': 5, 'summary': 1, 'offer': 3, 'history': 1,
          'guest': 1, 'submit': 4, 'part': 1, 'overlap': 2, 'blame': 2, 'authors': 2, 'start': 1, 'connect': 6, 'drop': 3, 'meet': 3, 'malformed': 1}
SORTS = {
    'mixed': {},
    'typed': {'edit': 90, 'drop': 1, 'guest': 0, 'submit': 0, 'start': 0},
    'offline': {'drop': 9, 'connect': 5, 'deliver': 30, 'meet': 1},
    'compacted': {'compact': 16, 'meet': 12, 'noop': 12},
    'guests': {'guest': 4, 'submit': 24, 'part': 3, 'offer': 8},
    'refused': {'malformed': 8, 'start': 6, 'summary': 6, 'offer': 10, 'connect': 10},
    'read': {'show': 10, 'summary': 6, 'overlap': 12, 'blame': 12, 'authors': 8, 'queue': 6, 'history': 3},
}
EDITS = {'insert': 40, 'remove': 16, 'annotate': 12, 'adjust': 6, 'marker': 4, 'group': 8, 'add': 8, 'change': 5, 'delete': 3,
         'splice in': 6, 'splice out': 3, 'set': 8, 'grid group': 3}
TASTES = {
    'all': {},
    'text': {'insert': 80, 'remove': 40},
    'intervals': {'add': 40, 'change': 20, 'delete': 10, 'remove': 30},
    'table': {'splice in': 30, 'splice out': 14, 'set': 50, 'grid group': 12},
    'properties': {'annotate': 50, 'adjust': 30},
    'groups': {'group': 60, 'grid group': 20},
}


class Session:
    """The events of a session, drawn one after another and taken by the model."""

    def __init__(self, seed, count, clients):
        self.draws = Draws(seed)
        self.world = World()
        self.lines, self.refused, self.views = [], [], 0
        self.weights = dict(EVENTS, **SORTS[self.draws.of(sorted(SORTS))])
        self.edit_weights = dict(EDITS, **TASTES[self.draws.of(sorted(TASTES))])
        self.clients = clients or 2 + self.draws.below(4)
        self.values = 0
        self.open()
        while len(self.lines) < count:
            self.act(self.draws.weighed(self.weights))
        self.close()

    # ---- lines

    def take(self, event):
        """Adds the line of an event, and answers whether it isn't refused."""
        refusal = self.world.take(event)
        self.add(line_of(event), refusal, event['do'])
        self.views += event['do'] == 'show' and not refusal
        return not refusal

    def add(self, line, refusal, word='malformed'):
        self.lines.append((line if isinstance(line, bytes) else line.encode(), word, refusal))
        if refusal:
            self.refused.append(refusal)

    def text(self):
        return b''.join(line + b'\n' for line, _, _ in self.lines)

    def told(self):
        return f'lines {len(self.lines)} refused {len(self.refused)} views {self.views}'

    # ---- the course of a session

    def open(self):
        for name in CLIENT_NAMES[:self.clients]:
            self.take({'client': name, 'do': 'start'})
            if self.draws.happens(85):
                self.take({'client': name, 'do': 'connect'})
        for client in self.all_clients():
            if client.link != 'offline':
                self.take({'client': client.name, 'count': ALL, 'do': 'deliver'})

    def close(self):
        for client in self.all_clients():
            if client.link == 'offline':
                self.take({'client': client.name, 'do': 'connect'})
        self.deliver_all()
        self.meet()
        for client in self.all_clients():
            self.take({'client': client.name, 'do': 'show'})
        last = self.all_clients()[0]
        self.take({'client': last.name, 'do': 'blame', 'end': len(last.shown('text')), 'start': 0})
        self.take({'client': last.name, 'do': 'authors'})
        self.take({'client': last.name, 'do': 'summary'})
        if self.take({'client': 'zoe', 'do': 'start', 'from': last.name}):
            self.take({'client': 'zoe', 'do': 'show'})
        self.take({'do': 'history'})

    def all_clients(self):
        return list(self.world.clients.values())

    def deliver_all(self):
        for client in self.all_clients():
            if client.link != 'offline':
                self.take({'client': client.name, 'count': ALL, 'do': 'deliver'})

    def meet(self):
        """All that are connected send what they have and process all, so that they agree."""
        for client in self.all_clients():
            if client.link == 'online':
                if self.draws.happens(50):
                    self.take({'client': client.name, 'do': 'noop'})
                self.take({'client': client.name, 'count': ALL, 'do': 'ticket'})
        self.deliver_all()

    def act(self, word):
        getattr(self, 'act_' + word)()

    def client(self, is_wanted):
        """A client for which this holds, if there is one; and now and then another one, or a name without a client."""
        if self.draws.below(150) == 0:
            return self.draws.of(CLIENT_NAMES[-3:] + ['bot'])
        found = [client.name for client in self.all_clients() if is_wanted(client)]
        if not found or self.draws.happens(2):
            found = list(self.world.clients)
        return self.draws.of(found)

    def connected(self):
        return self.client(lambda client: client.link != 'offline')

    def any_client(self):
        return self.client(lambda client: True)

    # ---- links and messages

    def act_start(self):
        name = self.draws.of(CLIENT_NAMES)
        event = {'client': name, 'do': 'start'}
        if self.draws.happens(70):
            event['from'] = self.client(lambda client: not client.pending)
        if self.take(event) and self.draws.happens(60):
            self.take({'client': name, 'do': 'connect'})

    def act_connect(self):
        name = self.client(lambda client: client.link == 'offline')
        if not self.take({'client': name, 'do': 'connect'}):
            return
        if self.draws.happens(25):
            self.act('compact')
        if self.draws.happens(40):
            self.take({'client': name, 'count': ALL, 'do': 'deliver'})

    def act_drop(self):
        name = self.connected()
        client = self.world.clients.get(name)
        if self.take({'client': name, 'do': 'drop'}):
            for _ in range(self.draws.below(4)):
                self.take(dict(self.edit_of(client), client=name, do='edit'))

    def counted(self, event, have):
        """The event with a count, which is rarely above what there is."""
        if self.draws.happens(45):
            return dict(event, count=ALL)
        if self.draws.happens(3):
            return dict(event, count=have + 1)
        if have and self.draws.happens(60):
            return dict(event, count=1 + self.draws.below(have))
        return event

    def act_ticket(self):
        name = self.client(lambda client: client.queue)
        client = self.world.clients.get(name)
        have = len(client.queue) if client else 0
        self.take(self.counted({'client': name, 'do': 'ticket'}, have))

    def act_deliver(self):
        log = self.world.sequencer.log
        name = self.client(lambda client: client.link != 'offline' and client.number < len(log))
        client = self.world.clients.get(name)
        have = len(log) - client.number if client else 0
        self.take(self.counted({'client': name, 'do': 'deliver'}, have))

    def act_noop(self):
        self.take({'client': self.client(lambda client: client.link == 'online'), 'do': 'noop'})

    def act_meet(self):
        self.meet()
        if self.draws.happens(50):
            for client in self.all_clients():
                self.take({'client': client.name, 'do': 'compact'})

    def act_offer(self):
        log = self.world.sequencer.log
        name = self.client(lambda client: client.link != 'offline' and client.number < len(log))
        client = self.world.clients.get(name)
        if self.draws.happens(8) or client is None:
            text = self.draws.of(sorted(MALFORMED_MESSAGES))
        elif client.number < len(log) and log[client.number].is_exact and self.draws.happens(75):
            text = line_of(log[client.number].message())
        else:
            number = client.number + 1 + self.draws.below(3)
            if log and self.draws.happens(30):
                number = self.draws.of(log).number
            text = line_of({'clientId': 'nobody/1', 'clientSequenceNumber': 1, 'contents': None, 'minimumSequenceNumber': 0,
                            'referenceSequenceNumber': 0, 'sequenceNumber': number, 'type': 'noop'})
        self.take({'client': name, 'do': 'offer', 'message': text})

    # ---- guests

    def guest(self):
        if self.draws.happens(4):
            return self.draws.of(GUEST_NAMES + ['ana'])
        if not self.world.guests:
            self.act_guest()
        return self.draws.of(list(self.world.guests) or GUEST_NAMES)

    def act_guest(self):
        self.take({'do': 'guest', 'guest': self.draws.of(GUEST_NAMES + ['ana'])})

    def act_part(self):
        self.take({'do': 'part', 'guest': self.guest()})

    def act_submit(self):
        name = self.guest()
        self.take({'do': 'submit', 'guest': name, 'message': self.draft_text(name)})

    def draft_text(self, name):
        if self.draws.happens(4):
            return self.draws.of(sorted(MALFORMED_MESSAGES))
        sequencer = self.world.sequencer
        connection = name + '/1'
        last_reference, last_number = sequencer.joined.get(connection, (sequencer.minimum, 0))
        least = max(sequencer.minimum, last_reference)
        reference = sequencer.number - self.draws.below(min(3, sequencer.number - least) + 1) if sequencer.number > least else least
        number = last_number + 1
        fault = self.draws.below(24)
        if fault == 0:
            number += 1
        elif fault == 1:
            reference = sequencer.number + 1
        elif fault == 2:
            reference = max(0, sequencer.minimum - 1)
        elif fault == 3:
            reference = max(0, last_reference - 1)
        kind, contents = 'noop', None
        if self.draws.happens(75):
            kind = 'op'
            agreed = self.world.agreed()
            lengths = {part: len(agreed.seen(part, reference, connection)) for part in ('text', 'rows', 'cols')}
            drawn = self.op_of(lengths, sorted(agreed.intervals))
            contents = {'address': drawn['address'], 'contents': drawn['op']}
            if self.draws.happens(4):
                contents = {'address': 'chat', 'contents': self.draws.of(VALUES)}
        return line_of({'clientSequenceNumber': number, 'contents': contents, 'referenceSequenceNumber': reference, 'type': kind})

    # ---- what is read

    def act_show(self):
        self.take({'client': self.any_client(), 'do': 'show'})

    def act_queue(self):
        self.take({'client': self.any_client(), 'do': 'queue'})

    def act_compact(self):
        self.take({'client': self.any_client(), 'do': 'compact'})

    def act_authors(self):
        self.take({'client': self.any_client(), 'do': 'authors'})

    def act_history(self):
        self.take({'do': 'history'})

    def act_summary(self):
        self.take({'client': self.client(lambda client: not client.pending), 'do': 'summary'})

    def act_overlap(self):
        name = self.any_client()
        client = self.world.clients.get(name)
        length = len(client.shown('text')) if client else 0
        start = self.draws.below(length + 2)
        self.take({'client': name, 'do': 'overlap', 'end': start + self.draws.below(length + 2), 'label': self.draws.of(LABELS), 'start': start})

    def act_blame(self):
        name = self.any_client()
        client = self.world.clients.get(name)
        length = len(client.shown('text')) if client else 0
        start = self.draws.below(length + 1)
        end = start + self.draws.below(length - start + 1) + (self.draws.below(10) == 0)
        self.take({'client': name, 'do': 'blame', 'end': end, 'start': start})

    def act_malformed(self):
        self.add(*self.draws.of(MALFORMED_LINES))

    # ---- edits

    def act_edit(self):
        name = self.any_client()
        for _ in range(1 + self.draws.below(3)):
            self.take(dict(self.edit_of(self.world.clients.get(name)), client=name, do='edit'))

    def edit_of(self, client):
        if client is None:
            return self.op_of({'text': 0, 'rows': 0, 'cols': 0}, [])
        return self.op_of({part: len(client.shown(part)) for part in ('text', 'rows', 'cols')}, sorted(client.intervals()))

    def op_of(self, lengths, intervals):
        """An operation by what its sender sees, with its address."""
        kind = self.draws.weighed(self.edit_weights)
        if kind in ('add', 'change', 'delete'):
            return {'address': 'text', 'op': self.interval_op(kind, lengths['text'], intervals)}
        if kind == 'group':
            return {'address': 'text', 'op': {'ops': self.several(self.text_op, lengths), 'type': 3}}
        if kind == 'grid group':
            return {'address': 'grid', 'op': {'ops': self.several(self.grid_op, lengths), 'type': 3}}
        if kind in ('splice in', 'splice out', 'set'):
            return {'address': 'grid', 'op': self.grid_op(lengths, kind)}
        return {'address': 'text', 'op': self.text_op(lengths, kind)}

    def several(self, drawn, lengths):
        """Sub-operations, each by what those before it leave."""
        lengths = dict(lengths)
        ops = []
        for _ in range(self.draws.below(5)):
            op = drawn(lengths)
            ops.append(op)
            part = op.get('target', 'text')
            if kind_of(op) == 'insert':
                lengths[part] += len(inserted_contents(op))
            elif kind_of(op) == 'remove':
                lengths[part] -= op['pos2'] - op['pos1']
        return ops

    def beyond(self, length):
        """How far a position may go: now and then beyond the length."""
        return length + (3 if self.draws.happens(2) else 0)

    def span(self, length, longest):
        bound = self.beyond(length)
        start = self.draws.below(bound + 1)
        return start, start + self.draws.below(min(longest, bound - start) + 1)

    def text_op(self, lengths, kind=None):
        kind = kind or self.draws.weighed({'insert': 5, 'remove': 3, 'annotate': 2, 'adjust': 1, 'marker': 1})
        length = lengths['text']
        if length == 0 and kind in ('remove', 'annotate', 'adjust') and self.draws.happens(90):
            kind = 'insert'
        if kind == 'insert':
            return {'pos1': self.draws.below(self.beyond(length) + 1), 'seg': self.segment(), 'type': 0}
        if kind == 'marker':
            segment = {'marker': {'refType': self.draws.below(3)}}
            if self.draws.happens(30):
                segment['props'] = self.properties()
            return {'pos1': self.draws.below(length + 1), 'seg': segment, 'type': 0}
        start, end = self.span(length, 6 if self.draws.happens(85) else length)
        if kind == 'remove':
            return {'pos1': start, 'pos2': end, 'type': 1}
        op = {'pos1': start, 'pos2': end, 'type': 2}
        if kind == 'annotate' or self.draws.happens(30):
            op['props'] = self.properties()
        if kind == 'adjust':
            key = self.draws.of(['n', 'size'])
            op.get('props', {}).pop(key, None)
            op['adjust'] = {key: self.adjustment()}
        return op

    def adjustment(self):
        found = {'delta': self.draws.of([1, -1, 5, -7, 100, 9007199254740991])}
        least = self.draws.below(20) - 10
        if self.draws.happens(40):
            found['min'] = least
        if self.draws.happens(40):
            found['max'] = least + self.draws.below(30)
        return found

    def segment(self):
        length = 1 + self.draws.below(8)
        if self.draws.happens(1):
            length = 300
        elif self.draws.happens(2):
            length = 0
        text = ''.join(self.draws.of(LETTERS) for _ in range(length))
        if self.draws.happens(12):
            return {'props': self.properties(), 'text': text}
        return text

    def properties(self):
        return {self.draws.of(KEYS): self.draws.of(VALUES) for _ in range(1 + self.draws.below(2))}

    def interval_op(self, kind, length, intervals):
        if intervals and self.draws.happens(12 if kind == 'add' else 85):
            label, name = self.draws.of(intervals)
        else:
            label, name = self.draws.of(LABELS), self.draws.of(IDS)
        op = {'id': name, 'interval': kind, 'label': label}
        if kind == 'delete':
            return op
        if kind == 'add' or self.draws.happens(60):
            bound = self.beyond(length)
            if bound == 0 or self.draws.happens(3):
                op['start'] = op['end'] = -1
            else:
                op['start'] = self.draws.below(bound)
                op['end'] = op['start'] + self.draws.below(min(bound - op['start'], 9))
        if self.draws.happens(40):
            op['props'] = self.properties()
        return op

    def grid_op(self, lengths, kind=None):
        kind = kind or self.draws.weighed({'splice in': 4, 'splice out': 2, 'set': 5})
        if kind == 'set' and not (lengths['rows'] and lengths['cols']) and self.draws.happens(90):
            kind = 'splice in'
        if kind == 'set':
            value = self.draws.of(VALUES)
            self.values += 1
            if self.draws.happens(60):
                value = self.values
            row, col = (max(1, self.beyond(lengths[part])) for part in ('rows', 'cols'))
            return {'col': self.draws.below(col), 'row': self.draws.below(row), 'type': 'set', 'value': value}
        target = self.draws.of(['rows', 'cols'])
        if kind == 'splice in':
            count = 40 if self.draws.happens(2) else self.draws.below(4)
            return {'count': count, 'pos1': self.draws.below(self.beyond(lengths[target]) + 1), 'target': target, 'type': 0}
        start, end = self.span(lengths[target], 3)
        return {'pos1': start, 'pos2': end, 'target': target, 'type': 1}


# ---- the cases of ft_beside

# Of each seed how many events it has: most sessions are short, some are long enough for trees of several levels, and one goes on for four thousand events.
GENERATED = (
    [(seed, 50) for seed in range(1, 91)] + [(seed, 120) for seed in range(91, 103)] + [(seed, 500) for seed in range(103, 106)] + [(106, 4000)]
)


def generated(seed, count):
    return Session(seed, count, 0)


def refused_lines():
    """A session with each line that is refused when it is read."""
    session = Session(0, 0, 2)
    for line, refusal in MALFORMED_LINES:
        session.add(line, refusal)
    return session


def worked_sessions():
    """The cases of ft_tests_cases that are sessions of plain lines, with what each writes."""
    folder = os.path.join(ROOT, 'crates', 'ft_tests_cases')
    given = read_bytes(os.path.join(folder, 'stdin'))
    wanted = read_bytes(os.path.join(folder, 'stdout'))
    for name, text in re.findall(rb'^case ([^\n]*)\nwords session\ninput\n(.*?)^end\n', given, re.M | re.S):
        found = re.search(rb'^case ' + re.escape(name) + rb'\nstatus [01]\n(.*?)\n(?=case |\Z)', wanted, re.M | re.S)
        if len(text) < 100_000:
            yield name, text, found[1]


def read_bytes(path):
    with open(path, 'rb') as file:
        return file.read()


def hash_of(report):
    value = 0
    for byte in report:
        value = (31 * value + byte) % 2**32
    return value


def cases():
    """The lines of stdin and of stdout."""
    given, wanted = [], []
    for name, text, report in worked_sessions():
        given.append(b'case ' + name + b'\nhash\ninput\n' + text + b'end\n')
        refused, views = (len(re.findall(word, report, re.M)) for word in (rb'^line ', rb'^client '))
        count = text.count(b'\n')
        wanted.append(b'case %s\nlines %d refused %d views %d followed\nreport %d bytes hash %d\n' % (name, count, refused, views, len(report), hash_of(report)))
    given.append(b'case a line that is too long\nhash\nlong\ninput\n{"client":"A","do":"start"}\n{"client":"A","do":"show"}\nend\n')
    report = (b'line 1 refused 16 LineTooLong\nclient "A" offline seq 0 min 0 pending 0\ntext ""\n'
              b'refused 1\nskipped 0\nother 0\n')
    wanted.append(b'case a line that is too long\nlines 3 refused 1 views 1 followed\nreport %d bytes hash %d\n' % (len(report), hash_of(report)))
    drawn = [(f'seed {seed}', generated(seed, count)) for seed, count in GENERATED]
    for name, session in [('each line that is refused when it is read', refused_lines())] + drawn:
        given.append(f'case {name}\ninput\n'.encode() + session.text() + b'end\n')
        wanted.append(f'case {name}\n{session.told()} followed\n'.encode())
    return b'\n'.join(given), b''.join(wanted)


def write_cases():
    folder = os.path.join(ROOT, 'crates', 'ft_beside')
    for name, text in zip(('stdin', 'stdout'), cases()):
        with open(os.path.join(folder, name), 'wb') as file:
            file.write(text)


def write_covered():
    words, refusals = {}, {}
    for seed, count in GENERATED:
        for _, word, refusal in generated(seed, count).lines:
            words[word] = words.get(word, 0) + 1
            if refusal:
                refusals[refusal] = refusals.get(refusal, 0) + 1
    print('events', *(f'{word} {words[word]}' for word in sorted(words)))
    print('refused', *(f'{number} {refusals[number]}' for number in sorted(refusals)))


def main(words):
    if words == ['--cases']:
        return write_cases()
    if words == ['--covered']:
        return write_covered()
    is_told = words[:1] == ['--told']
    try:
        seed, count, clients, *more = [int(word) for word in words[is_told:]] + [60, 0][len(words) - is_told - 1:]
    except (ValueError, IndexError):
        return usage()
    if more or not (0 <= seed < SEED_LIMIT and 0 <= count <= EVENT_LIMIT and 0 <= clients < NAME_LIMIT):
        return usage()
    session = Session(seed, count, clients)
    if is_told:
        print(session.told())
    else:
        write_session(session)


def write_session(session):
    try:
        sys.stdout.buffer.write(session.text())
        sys.stdout.flush()
    except BrokenPipeError:
        os.dup2(os.open(os.devnull, os.O_WRONLY), sys.stdout.fileno())
        sys.exit(1)


def usage():
    print(__doc__, file=sys.stderr)
    sys.exit(2)


if __name__ == '__main__':
    main(sys.argv[1:])
