#!/usr/bin/env python3
"""Refuses the allocations of a built program one after another.

    bench/refused.py [--on] [--most N] VEMIKTAG CASES [WORD..]

CASES is crates/ft_tests_cases, or a folder with a folder of each case: `args` with a word a line, and `stdin` (or `stdin.repeat` with a
byte and a count). Of ft_tests_cases those are run that a program can be given: without failing reads and writes, and once. With WORDs only the
cases with one of them in their names are run.

A case is run once as it is, and then once for each allocation that the program asked for, which is refused: malloc, calloc, realloc and
their like answer nothing. Such a run must end with status 5 and have written the beginning of the report, or with 7 where it could not
read its arguments, or end as if nothing had been refused. With --on all allocations behind it are refused too. With --most N at most N of a case's allocations are, spread evenly over all.

Each run that ends otherwise is told, and the counts last; the status is then 1. The program is a built one, which takes its memory of
the C library; one that `rt try` makes brings its own, and nothing would be refused. bench/refused.c is compiled by `cc` for it.
"""
import collections
import os
import re
import struct
import subprocess
import sys
import tempfile

HERE = os.path.dirname(os.path.abspath(__file__))
SECONDS = 120                   # that a run may take
NO_MEMORY = 5                   # the status
NO_ARGUMENTS = 7                # that of a run which could not read its arguments, and wrote nothing

Case = collections.namedtuple('Case', 'name words given')


# ---- cases

def read_bytes(*path):
    with open(os.path.join(*path), 'rb') as file:
        return file.read()


def repeated(text):
    byte, count = text.split()
    return bytes([int(byte)]) * int(count)


def folder_case(folder, name):
    at = os.path.join(folder, name)
    if os.path.exists(os.path.join(at, 'stdin.repeat')):
        given = repeated(read_bytes(at, 'stdin.repeat'))
    else:
        given = read_bytes(at, 'stdin')
    return Case(name, read_bytes(at, 'args').decode().splitlines(), given)


def told_cases(text):
    """The cases of ft_tests_cases that say nothing but their words and their input."""
    form = rb'^case ([^\n]*)\n((?:(?!input$|case )[^\n]*\n)*)input\n(.*?)^(end|end-without-lf)\n'
    for name, said, given, end in re.findall(form, text, re.M | re.S):
        said = dict(line.split(b' ', 1) for line in said.splitlines() if b' ' in line)
        words = said.pop(b'words', None)
        said.pop(b'piece', None)                    # how much is read at a time is the system's
        if end != b'end':
            given = given[:-1]
        if b'repeat' in said:
            given = repeated(said.pop(b'repeat')) + given
        if words is not None and not said:
            yield Case(name.decode(), words.decode().split(), given)


def cases_of(folder):
    if os.path.isfile(os.path.join(folder, 'stdin')):
        return list(told_cases(read_bytes(folder, 'stdin')))
    return [folder_case(folder, name) for name in sorted(os.listdir(folder)) if os.path.isfile(os.path.join(folder, name, 'args'))]


# ---- runs

class Runs:
    """Runs a program with the allocations refused that are named."""

    def __init__(self, program, room, refuses_on):
        self.program, self.refuses_on = os.path.abspath(program), refuses_on
        self.shim, self.count = os.path.join(room, 'refused.so'), os.path.join(room, 'count')
        subprocess.run(['cc', '-O2', '-shared', '-fPIC', '-o', self.shim, os.path.join(HERE, 'refused.c')], check=True)

    def run(self, case, number):
        """The status and the output, and how many allocations there were. The status is less than 0 for a signal, and none for a run without end."""
        with open(self.count, 'wb') as file:
            file.write(bytes(8))
        said = dict(os.environ, LD_PRELOAD=self.shim, REFUSED_AT=str(number), REFUSED_COUNT=self.count)
        if self.refuses_on:
            said['REFUSED_ON'] = '1'
        try:
            ran = subprocess.run([self.program, *case.words], input=case.given, stdout=subprocess.PIPE, stderr=subprocess.DEVNULL, env=said, timeout=SECONDS)
        except subprocess.TimeoutExpired:
            return None, b'', 0
        return ran.returncode, ran.stdout, struct.unpack('=Q', read_bytes(self.count))[0]


def numbers_of(count, most):
    """Which allocations are refused."""
    if most is None or count <= most:
        return range(1, count + 1)
    return sorted({1 + i * (count - 1) // max(1, most - 1) for i in range(most)})


def fault_of(ran, whole):
    """What is wrong with a run of which an allocation was refused, beside one of which none was."""
    status, output, _ = ran
    if status is None:
        return f'no end in {SECONDS} s'
    if (status, output) == whole[:2]:
        return None
    if (status, output) == (NO_ARGUMENTS, b''):
        return None
    if status != NO_MEMORY:
        return f'ended by signal {-status}' if status < 0 else f'status {status}, wanted {NO_MEMORY} or, as it is, {whole[0]}'
    if not whole[1].startswith(output):
        place = next(i for i, byte in enumerate(output) if whole[1][i:i + 1] != bytes([byte]))
        return f'status {NO_MEMORY}, and other bytes from {place} on'
    return None


def tried(runs, case, most):
    """How many allocations the case has, and of those that were refused how many ended with the status, as it is, and otherwise."""
    whole = runs.run(case, 0)
    count = whole[2]
    ended = collections.Counter()
    for number in numbers_of(count, most):
        ran = runs.run(case, number)
        fault = fault_of(ran, whole)
        if fault:
            print(f'{case.name}: allocation {number} of {count}: {fault}')
        ended['faulty' if fault else 'with status' if ran[0] in (NO_MEMORY, NO_ARGUMENTS) else 'as it is'] += 1
    return count, ended


def main(words):
    refuses_on, most = '--on' in words, None
    words = [word for word in words if word != '--on']
    if words[:1] == ['--most'] and len(words) > 1 and words[1].isdigit():
        most, words = int(words[1]), words[2:]
    if len(words) < 2 or words[0].startswith('-'):
        sys.exit(__doc__)
    cases = [case for case in cases_of(words[1]) if not words[2:] or any(word in case.name for word in words[2:])]
    whole, ended = 0, collections.Counter()
    with tempfile.TemporaryDirectory() as room:
        runs = Runs(words[0], room, refuses_on)
        for case in cases:
            count, told = tried(runs, case, most)
            whole += count
            ended += told
    if not whole:
        sys.exit('no allocation was seen: does the program take its memory of the C library?')
    print(f'{len(cases)} cases, {whole} allocations, {sum(ended.values())} of them refused: {ended["with status"]} ended with status {NO_MEMORY} or {NO_ARGUMENTS} and'
          f' the beginning of the report, {ended["as it is"]} as if none had been refused, {ended["faulty"]} otherwise')
    sys.exit(ended['faulty'] > 0)


if __name__ == '__main__':
    main(sys.argv[1:])
