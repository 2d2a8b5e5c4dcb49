#!/usr/bin/env python3
"""Plays shapes of work that could be dear, each at n, 2n and 4n, and tells how their cost grows.

    bench/shapes.py [--only WORD]... [--times K] VEMIKTAG

A shape is a command of the program and the lines of its input, made for a size. For each the processor seconds at the three sizes are told, the
greatest memory at the largest one, and the exponent: by how many powers of two the time rose over the last doubling, without what an empty run
takes. 1.0 is linear, 2.0 is square. A run that takes over a minute of a processor or ends with another status than 0 or 1 is told as such, and the sizes behind it
are left out. With --times K all sizes are K times as large; with --only those shapes are played whose names have one of the words.
The status is 1 where an exponent is above 1.3 or a run ended otherwise.
"""
import argparse
import collections
import json
import math
import os
import random
import resource
import signal
import subprocess
import sys
import tempfile

SECONDS = 60                    # that a run may take
STEEP = 1.3                     # an exponent above it is told
SHORT = 0.02                    # seconds below which no exponent is told

Shape = collections.namedtuple('Shape', 'name size command lines')
SHAPES = []


def shape(size, command='session'):
    """Notes a shape by a function that makes its lines for a size."""
    def note(make):
        SHAPES.append(Shape(make.__name__, size, command, make))
        return make
    return note


# ---- lines

def line(value):
    return json.dumps(value, separators=(',', ':'))


def event(word, **fields):
    return line({'do': word, **fields})


def edit(client, op, address='text'):
    return event('edit', client=client, address=address, op=op)


def insert(pos, seg, props=None):
    return {'type': 0, 'pos1': pos, 'seg': {'text': seg, 'props': props} if props else seg}


def remove(pos1, pos2):
    return {'type': 1, 'pos1': pos1, 'pos2': pos2}


def annotate(pos1, pos2, props):
    return {'type': 2, 'pos1': pos1, 'pos2': pos2, 'props': props}


def group(ops):
    return {'type': 3, 'ops': ops}


def add(name, start, end, label='c'):
    return {'interval': 'add', 'label': label, 'id': name, 'start': start, 'end': end}


def change(name, start, end, label='c'):
    return {'interval': 'change', 'label': label, 'id': name, 'start': start, 'end': end}


def delete(name, label='c'):
    return {'interval': 'delete', 'label': label, 'id': name}


def splice_in(target, pos, count):
    return {'target': target, 'type': 0, 'pos1': pos, 'count': count}


def splice_out(target, pos1, pos2):
    return {'target': target, 'type': 1, 'pos1': pos1, 'pos2': pos2}


def cell(row, col, value):
    return {'type': 'set', 'row': row, 'col': col, 'value': value}


def started(*clients):
    """Clients that are online, and know of each other."""
    for client in clients:
        yield event('start', client=client)
        yield event('connect', client=client)
    yield from shared(*clients)


def shared(*clients):
    """All that is unsent is sent, and everybody takes all of it."""
    for client in clients:
        yield event('ticket', client=client, count='all')
    for client in clients:
        yield event('deliver', client=client, count='all')


def sent_again(client):
    """The client loses its connection and comes back: what is pending is sent again, and taken."""
    yield event('drop', client=client)
    yield event('connect', client=client)
    yield from shared(client)


def message(number, op, client='X', reference=0, minimum=0, address='text', own=1):
    return line({'sequenceNumber': number, 'minimumSequenceNumber': minimum, 'clientSequenceNumber': own, 'referenceSequenceNumber': reference,
                 'type': 'op', 'clientId': client, 'contents': {'address': address, 'contents': op}})


def noop(number, minimum=0):
    return line({'sequenceNumber': number, 'minimumSequenceNumber': minimum, 'clientSequenceNumber': 1, 'referenceSequenceNumber': minimum,
                 'type': 'noop', 'clientId': 'X', 'contents': None})


def summary(text=(), rows=(), cols=(), cells=(), intervals=(), conns=(), count=0, seq=0, low=0):
    return line({'version': 2, 'seq': seq, 'min': low, 'skipped': 0, 'other': 0, 'conns': list(conns), 'count': count, 'text': list(text),
                 'rows': list(rows), 'cols': list(cols), 'intervals': list(intervals), 'cells': list(cells)})


# ---- intervals

@shape(10000)
def pending_interval_adds(n):
    """Intervals that are added, none of them sent."""
    yield from started('A')
    yield edit('A', insert(0, 'abcdefgh'))
    for i in range(n):
        yield edit('A', add(f'i{i}', i % 8, 7))


@shape(2500)
def pending_cursor(n):
    """A cursor that is kept as an interval, and changed after each key; nothing is sent."""
    yield from started('A')
    yield edit('A', insert(0, 'a'))
    yield edit('A', add('cursor', 0, 0))
    for i in range(n):
        yield edit('A', insert(i + 1, 'b'))
        yield edit('A', change('cursor', i + 1, i + 1))


@shape(5000)
def labels(n):
    """An interval in each of n collections."""
    yield from started('A')
    yield edit('A', insert(0, 'abcdefgh'))
    for i in range(n):
        yield edit('A', add('i', 0, 7, label=f'l{i}'))
        if i % 16 == 15:
            yield from shared('A')
    yield from shared('A')


@shape(5000)
def labels_emptied(n):
    """Collections that are filled and emptied one after another."""
    yield from started('A')
    yield edit('A', insert(0, 'abcdefgh'))
    for i in range(n):
        yield edit('A', add('i', 0, 7, label=f'l{i}'))
        yield edit('A', delete('i', label=f'l{i}'))
        if i % 16 == 15:
            yield from shared('A')
    yield from shared('A')


@shape(12000, 'load')
def interval_deletions(n):
    """Intervals of a summary that are deleted."""
    yield summary(text=[[{'t': 'a' * 10000}]], count=10000, intervals=[['c', f'i{i:07}', i % 9000, i % 9000 + 5, {}] for i in range(n)])
    for i in range(n):
        yield message(i + 1, delete(f'i{i:07}'), reference=i)


@shape(2500)
def backspaced_under_an_interval(n):
    """A text with one interval is backspaced by somebody else, and all of it comes at once."""
    yield from started('A', 'B')
    yield edit('A', insert(0, 'a' * n))
    yield edit('A', add('i', n - 1, n - 1))
    yield from shared('A', 'B')
    for i in range(n):
        yield edit('B', remove(n - 1 - i, n - i))
    yield from shared('B', 'A')


# ---- ranges

@shape(5000)
def deleted_forwards(n):
    """Characters that are deleted forwards, offline."""
    yield from started('A')
    yield edit('A', insert(0, 'a' * (n + 1)))
    yield from shared('A')
    for _ in range(n):
        yield edit('A', remove(0, 1))


@shape(2500)
def annotated_over_tombstones(n):
    """A character behind ever more deleted ones is annotated, offline."""
    yield from started('A')
    yield edit('A', insert(0, 'a' * (n + 1)))
    yield from shared('A')
    for i in range(n):
        yield edit('A', remove(0, 1))
        yield edit('A', annotate(0, 1, {'k': i}))


@shape(5000)
def one_removal_in_many_pieces(n):
    """One removal, before which somebody else inserts between all its characters."""
    yield from started('A', 'B')
    yield edit('A', insert(0, 'a' * n))
    yield from shared('A', 'B')
    yield edit('B', remove(0, n))
    for i in range(n):
        yield edit('A', insert(2 * i, 'b'))
    yield from shared('A', 'B')


# ---- tables

@shape(1, 'load')
def removed_rows_of_a_table(n):
    """2^50 rows of a table of one cell are removed, and go by compaction."""
    yield summary(rows=[{'n': n << 50}], cols=[{'n': 1}], cells=[[0, 0, 1]], conns=['X'])
    yield message(1, splice_out('rows', 1, n << 50), address='grid')
    for i in range(2, 40):
        yield noop(i, minimum=i - 1)


@shape(5000)
def cell_writes_sent_again(n):
    """Writes to cells of a table of as many rows, offline; then a reconnection."""
    side = n // 4
    yield from started('A')
    yield edit('A', splice_in('cols', 0, 4), 'grid')
    for i in range(side):
        yield edit('A', splice_in('rows', i // 2, 1), 'grid')
    yield from shared('A')
    for i in range(n):
        yield edit('A', cell(i % side, i % 4, i), 'grid')
    yield from sent_again('A')


@shape(20000)
def writes_to_one_cell(n):
    """Writes to one cell, sent and taken all at once."""
    yield from started('A')
    yield edit('A', splice_in('rows', 0, 1), 'grid')
    yield edit('A', splice_in('cols', 0, 1), 'grid')
    for i in range(n):
        yield edit('A', cell(0, 0, i), 'grid')
    yield from shared('A')


@shape(5000)
def splices_of_a_large_table(n):
    """Splices in and out of a table of 10^6 rows and columns, offline, and a reconnection."""
    yield from started('A')
    yield edit('A', splice_in('rows', 0, 1000000), 'grid')
    yield edit('A', splice_in('cols', 0, 1000000), 'grid')
    yield from shared('A')
    chance = random.Random(1)
    for i in range(n):
        target = ('rows', 'cols')[i % 2]
        at = chance.randrange(900000)
        yield edit('A', splice_in(target, at, 3) if i % 4 < 2 else splice_out(target, at, at + 3), 'grid')
    yield from sent_again('A')


@shape(10000)
def splices_online(n):
    """Rows that are put in one by one, each sent and taken."""
    yield from started('A')
    for i in range(n):
        yield edit('A', splice_in('rows', i // 2, 1), 'grid')
        yield event('ticket', client='A')
        yield event('deliver', client='A')


# ---- what is pending

@shape(5000)
def keys_sent_again(n):
    """Keys at one cursor, offline, and a reconnection."""
    yield from started('A')
    for i in range(n):
        yield edit('A', insert(i, 'a'))
    yield from sent_again('A')


@shape(5000)
def keys_at_random_places_sent_again(n):
    """Keys at random places, offline, and a reconnection."""
    yield from started('A')
    yield edit('A', insert(0, 'abcdefgh' * 1000))
    yield from shared('A')
    chance = random.Random(1)
    for i in range(n):
        yield edit('A', insert(chance.randrange(8000 + i), 'a'))
    yield from sent_again('A')


@shape(2000)
def keys_of_one_character(n):
    """Properties of one character, each with a key of its own, offline."""
    yield from started('A')
    yield edit('A', insert(0, 'a'))
    yield from shared('A')
    for i in range(n):
        yield edit('A', annotate(0, 1, {f'k{i}': 1}))


@shape(5000)
def cuts_of_a_pending_text(n):
    """A pending text, into which more is put at random places."""
    yield from started('A')
    yield edit('A', insert(0, 'a' * n))
    chance = random.Random(1)
    for i in range(n):
        yield edit('A', insert(chance.randrange(n + i), 'b'))


@shape(2500)
def two_wide_windows(n):
    """Two clients with n unsent keys each at one place."""
    yield from started('A', 'B')
    for i in range(n):
        yield edit('A', insert(i, 'a'))
        yield edit('B', insert(i, 'b'))
    yield from shared('A', 'B')


@shape(2500)
def messages_at_the_head_of_a_pending_run(n):
    """A run of pending keys, at whose head messages of somebody else insert."""
    yield from started('A', 'B')
    for i in range(n):
        yield edit('A', insert(i, 'a'))
    for i in range(n):
        yield edit('B', insert(0, 'b'))
    yield event('ticket', client='B', count='all')
    yield event('deliver', client='A', count='all')


@shape(10000)
def submits_with_an_old_reference(n):
    """Drafts of a guest, all with one old reference number."""
    yield from started('A')
    yield event('guest', guest='G')
    for i in range(n):
        yield event('submit', guest='G', message=line({'clientSequenceNumber': i + 1, 'referenceSequenceNumber': 2, 'type': 'op',
                                                       'contents': {'address': 'text', 'contents': insert(i, 'a')}}))
    yield event('deliver', client='A', count='all')


@shape(250)
def sixteen_clients_sent_again(n):
    """Sixteen clients with n keys each, offline, that reconnect in turn."""
    clients = [f'C{i:02}' for i in range(16)]
    yield from started(*clients)
    for client in clients:
        yield event('drop', client=client)
        for i in range(n):
            yield edit(client, insert(i, 'a'))
    for i, client in enumerate(clients):
        yield event('connect', client=client)
        yield from shared(*clients[:i + 1])


@shape(5000)
def floor_held_by_another(n):
    """Insertions and removals at one place while another client holds the floor."""
    yield from started('A', 'B')
    for _ in range(n):
        yield edit('A', insert(0, 'a'))
        yield edit('A', remove(0, 1))
        yield event('ticket', client='A', count='all')
        yield event('deliver', client='A', count='all')


# ---- properties

@shape(100000, 'log')
def large_value_on_many_leaves(n):
    """A value of n bytes on a text of 250 leaves."""
    number = 0
    for i in range(250):
        number += 1
        yield message(number, insert(i, 'a', {'own': i}), reference=number - 1)
    yield message(number + 1, annotate(0, 250, {'k': 'x' * n}), reference=number)


@shape(250, 'log')
def keys_on_many_leaves(n):
    """Messages with a key each on a text of 250 leaves."""
    number = 0
    for i in range(250):
        number += 1
        yield message(number, insert(i, 'a'), reference=number - 1, client=f'X{i % 2}')
    for i in range(n):
        number += 1
        yield message(number, annotate(0, 250, {f'k{i}': 1}), reference=number - 1)


@shape(1000, 'log')
def large_sets_of_keys(n):
    """Ten messages of n keys each on 100 characters of their own leaves."""
    number = 0
    for i in range(100):
        number += 1
        yield message(number, insert(i, 'a'), reference=number - 1, client=f'X{i % 2}')
    for i in range(10):
        number += 1
        yield message(number, annotate(0, 100, {f'k{i}-{j}': 1 for j in range(n)}), reference=number - 1)


@shape(250)
def pending_annotations_of_many_leaves(n):
    """Annotations of a text of 200 leaves that are pending, then sent and taken."""
    yield from started('A', 'B')
    for i in range(200):
        yield edit('AB'[i % 2], insert(0, 'a'))
        yield from shared('A', 'B')
    for i in range(n):
        yield edit('A', annotate(0, 200, {'k': i}))
    yield from shared('A')


@shape(250)
def group_of_annotations(n):
    """One group of n annotations of a text of 200 leaves."""
    yield from started('A', 'B')
    for i in range(200):
        yield edit('AB'[i % 2], insert(0, 'a'))
        yield from shared('A', 'B')
    yield edit('A', group([annotate(0, 200, {'k': i}) for i in range(n)]))
    yield from shared('A')


# ---- stamps and summaries

@shape(5000, 'load')
def removals_of_one_segment(n):
    """A segment with n removals."""
    removals = [[i + 1, i + 1] for i in range(n)]
    yield summary(text=[[{'t': 'a' * 100, 'r': removals}]], count=100, conns=[f'X{i}' for i in range(n)], seq=n)


@shape(250, 'log')
def removals_of_one_text(n):
    """Removals of 400 characters by n connections that don't see each other's, and one that does."""
    yield message(1, insert(0, 'a' * 400))
    for i in range(n):
        yield message(i + 2, remove(0, 400), client=f'X{i}', reference=1)
    for i in range(400):
        yield message(n + 2 + i, insert(i, 'b'), client='Y', reference=1, own=i + 1)


@shape(100000, 'load')
def rows_of_one(n):
    """Rows in runs of one."""
    yield summary(rows=[{'n': 1}] * n)


@shape(50000, 'load')
def segments_of_one(n):
    """Markers, each a segment."""
    chunks = [[{'m': 1}] * min(10000, n - i) for i in range(0, n, 10000)]
    yield summary(text=chunks, count=n)


@shape(50000, 'load')
def intervals_of_a_summary(n):
    """Intervals that are read."""
    yield summary(text=[[{'t': 'a' * 10000}]], count=10000, intervals=[['c', f'i{i:07}', i % 9000, i % 9000 + 5, {}] for i in range(n)])


# ---- the rest

@shape(100000)
def bad_lines(n):
    """Lines that are no events."""
    for _ in range(n):
        yield '{"do":"no"}'


@shape(100000)
def short_lines(n):
    """Lines that are no JSON."""
    for _ in range(n):
        yield 'x'


# ---- runs

Run = collections.namedtuple('Run', 'seconds mebibytes status')


def limit():
    """Ends a run behind so many processor seconds."""
    resource.setrlimit(resource.RLIMIT_CPU, (SECONDS, SECONDS))


def run(program, command, given):
    """Runs the program on an input."""
    child = subprocess.Popen([program, command], stdin=given, stdout=subprocess.DEVNULL, stderr=subprocess.DEVNULL, preexec_fn=limit)
    _, status, used = os.wait4(child.pid, 0)
    child.returncode = os.waitstatus_to_exitcode(status)
    return Run(used.ru_utime + used.ru_stime, used.ru_maxrss / 1024, child.returncode)


def played(program, shape, size):
    """Plays a shape at a size."""
    with tempfile.TemporaryFile() as given:
        for text in shape.lines(size):
            given.write(text.encode() + b'\n')
        given.seek(0)
        return run(program, shape.command, given)


def exponent(empty, runs):
    """By how many powers of two the time rose over the last doubling."""
    if len(runs) < 3 or runs[-1].status < 0:
        return None
    times = [max(it.seconds - empty, 0.0) for it in runs]
    return math.log2(times[2] / times[1]) if times[1] > SHORT else 1.0


def main():
    reader = argparse.ArgumentParser(description=__doc__.split('\n')[0])
    reader.add_argument('--only', action='append', default=[])
    reader.add_argument('--times', type=float, default=1)
    reader.add_argument('program')
    given = reader.parse_args()
    with tempfile.TemporaryFile() as nothing:
        empty = min(run(given.program, 'session', nothing).seconds for _ in range(3))
    bad = 0
    print(f'| {"Shape":40} | {"n":>7} | {"n":>6} | {"2n":>6} | {"4n":>6} | MiB | exponent |')
    print('|---|---|---|---|---|---|---|')
    for it in SHAPES:
        if given.only and not any(word in it.name for word in given.only):
            continue
        size = max(1, round(it.size * given.times))
        runs = []
        for factor in (1, 2, 4):
            runs.append(played(given.program, it, size * factor))
            if runs[-1].status not in (0, 1):
                break
        steep = exponent(empty, runs)
        last = runs[-1]
        told = 'over a minute' if last.status in (-signal.SIGKILL, -signal.SIGXCPU) else f'status {last.status}' if last.status not in (0, 1) else f'{steep:.2f}'
        bad += steep is None or steep > STEEP
        cells = [f'{r.seconds:6.2f}' for r in runs] + ['      '] * (3 - len(runs))
        print(f'| {it.name.replace("_", " "):40} | {size:7} | {" | ".join(cells)} | {last.mebibytes:3.0f} | {told} |', flush=True)
    return 1 if bad else 0


if __name__ == '__main__':
    sys.exit(main())
