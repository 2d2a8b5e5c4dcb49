#!/usr/bin/env python3
"""The cases that the engine for the web is compared in, with what the native library makes of them.

    examples/web/cases.py REPORT [COUNT] > cases.json

REPORT is the program of examples/embed/report.c. The cases are the worked sessions of crates/ft_tests_cases and of examples/, COUNT
pseudo-random ones (2,000 without a number), half of them of tools/sessions.py and half as `vemiktag gen` makes them, and one of the latter with
20,000 edits, by which is told how fast the engine is. The worked logs of crates/ft_tests_cases are there too, with the report that stands beside
them, and what the two editors of examples/embed show.

An input stands as a string with a character for each byte, a report as its text. Only the standard library is used.
"""
import json
import os
import re
import subprocess
import sys

HERE = os.path.dirname(os.path.abspath(__file__))
TOP = os.path.dirname(os.path.dirname(HERE))
sys.path.insert(0, os.path.join(TOP, 'tools'))
sys.dont_write_bytecode = True

import sessions                             # noqa: E402

LONGEST_LINE = 1_048_576                    # a longer one is refused by the program, and by a client isn't


# ---- sessions as `vemiktag gen` makes them

class Generated:
    """The session of so many clients with so many edits from this seed."""

    def __init__(self, clients, edits, seed):
        self.draws, self.lines, self.length, self.intervals, self.left = sessions.Draws(seed), [], 0, 0, edits
        self.clients = [f'c{number}' for number in range(1, clients + 1)]
        self.open()
        number = 0
        while self.left:
            self.round(number)
            number += 1
        self.each('show')

    def event(self, client, do, **fields):
        self.lines.append(sessions.line_of({'client': client, 'do': do, **fields}))

    def edit(self, client, op, address='text'):
        self.event(client, 'edit', address=address, op=op)

    def each(self, *words, of=None):
        for client in self.clients if of is None else of:
            for do in words:
                self.event(client, do, **({'count': 'all'} if do in ('ticket', 'deliver') else {}))

    def open(self):
        self.each('start', 'connect')
        self.each('deliver')
        for target in ('rows', 'cols'):
            self.edit('c1', {'type': 0, 'target': target, 'pos1': 0, 'count': 4}, 'grid')
        self.each('ticket', of=['c1'])
        self.each('deliver')

    def round(self, number):
        dropped = [self.draws.of(self.clients)] if number % 8 == 7 else []
        remover = self.draws.of(self.clients)
        self.each('drop', of=dropped)
        agreed = self.length
        for client in self.clients:
            before, self.length = self.length, agreed
            share = min(self.left, self.draws.below(3) + 1)
            self.left -= share
            for _ in range(share):
                self.type(client, client == remover)
            self.length += before - agreed
        self.each('ticket', of=[client for client in self.clients if client not in dropped])
        self.each('connect', 'deliver', 'ticket', of=dropped)
        self.each('deliver')
        if number % 16 == 15:
            self.each('noop', 'ticket')
            self.each('deliver')
            self.each('compact')

    def type(self, client, removes):
        kind = self.draws.below(10)
        if kind == 8:
            return self.write_cell(client)
        if self.length and kind in (5, 6) and removes:
            return self.remove(client)
        if self.length and kind == 7:
            return self.annotate(client)
        if self.length and kind == 9:
            return self.add_interval(client)
        return self.insert(client)

    def insert(self, client):
        place, count = self.draws.below(self.length + 1), self.draws.below(3) + 1
        self.edit(client, {'type': 0, 'pos1': place, 'seg': ''.join(chr(97 + self.draws.below(26)) for _ in range(count))})
        self.length += count

    def remove(self, client):
        start = self.draws.below(self.length)
        count = self.draws.below(min(3, self.length - start)) + 1
        self.edit(client, {'type': 1, 'pos1': start, 'pos2': start + count})
        self.length -= count

    def annotate(self, client):
        start = self.draws.below(self.length)
        self.edit(client, {'type': 2, 'pos1': start, 'pos2': start + 1, 'props': {'k': self.draws.below(4)}})

    def write_cell(self, client):
        row, col = self.draws.below(4), self.draws.below(4)
        self.edit(client, {'type': 'set', 'row': row, 'col': col, 'value': self.draws.below(1000)}, 'grid')

    def add_interval(self, client):
        place = self.draws.below(self.length)
        self.edit(client, {'interval': 'add', 'label': 'notes', 'id': f'i{self.intervals}', 'start': place, 'end': place})
        self.intervals += 1

    def text(self):
        return ''.join(line + '\n' for line in self.lines).encode()


# ---- cases

def read_bytes(*path):
    with open(os.path.join(TOP, *path), 'rb') as file:
        return file.read()


def expanded(line):
    """The input that a line in front of a case's own input stands for."""
    word, first, *others = line.split(b' ', 3)
    if word == b'repeat':
        return bytes([int(first)]) * int(others[0])
    if word == b'times':
        return b''.join(others[1].replace(b'#', b'%d' % n).replace(b'~', b'\n') for n in range(int(first), int(others[0]) + 1))
    return b''                              # how much is read at a time


def worked(command):
    """The cases of ft_tests_cases with this command that say nothing but their input, of which there isn't too much for a page: the name, the
    input and the report."""
    given, wanted = (read_bytes('crates', 'ft_tests_cases', name) for name in ('stdin', 'stdout'))
    form = rb'^case ([^\n]*)\nwords ' + command + rb'\n((?:(?:piece|repeat|times) [^\n]*\n)*)input\n(.*?)^(end|end-without-lf)\n'
    for name, said, own, end in re.findall(form, given, re.M | re.S):
        text = b''.join(map(expanded, said.splitlines())) + (own if end == b'end' else own[:-1])
        told = re.search(rb'^case ' + re.escape(name) + rb'\nstatus [01]\n(.*?)\n(?=case |\Z)', wanted, re.M | re.S)
        if told and len(text) < 4_000_000:
            yield name.decode(), text, told[1]


def expect_generated():
    """What is generated here is what the worked cases of `gen` have."""
    for words, told in re.findall(rb'^words gen (\d+ \d+ \d+)\ninput\nend\n()', read_bytes('crates', 'ft_tests_cases', 'stdin'), re.M):
        clients, edits, seed = map(int, words.split())
        if clients in range(1, 17) and edits <= 100 and seed < 2**64:
            lines = Generated(clients, edits, seed).text()
            assert b'\nstatus 0\n' + lines + b'\n' in read_bytes('crates', 'ft_tests_cases', 'stdout'), words


def drawn(count):
    """Pseudo-random sessions, by turns of the one and of the other kind."""
    for seed in range(1, count // 2 + 1):
        yield f'seed {seed}', sessions.Session(seed, 60, 0).text()
        yield f'gen {seed % 5 + 1} {seed % 120} {seed}', Generated(seed % 5 + 1, seed % 120, seed).text()


def main():
    program, count = sys.argv[1], int(sys.argv[2]) if len(sys.argv) > 2 else 2000
    expect_generated()

    def native(text):
        return subprocess.run([program], input=text, stdout=subprocess.PIPE, check=False).stdout

    def case(name, text, told):
        return {'name': name, 'input': text.decode('latin-1'), 'report': told.decode()}

    cases = []
    for name, text, told in worked(b'session'):
        assert native(text) == told, name
        cases.append(case(name, text, told))
    for name in ('tea_at_five', 'readme_history'):
        text = read_bytes('examples', f'{name}.session')
        cases.append(case(name, text, native(text)))
    cases += [case(name, text, native(text)) for name, text in drawn(count)]
    logs = [{'command': word, **case(name, text, told)} for word in ('log', 'load') for name, text, told in worked(word.encode())
            if all(len(line) <= LONGEST_LINE for line in text.split(b'\n'))]
    long = Generated(3, 20000, 1).text()
    story = read_bytes('examples', 'embed', 'editors.told').decode()
    json.dump({'sessions': cases, 'logs': logs, 'long': case('gen 3 20000 1', long, native(long)), 'story': story}, sys.stdout)


if __name__ == '__main__':
    main()
