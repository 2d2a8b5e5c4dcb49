#!/usr/bin/env python3
"""Tries every wrong body of the crates that it is given (none: of all), and the harmless twin of each.

    bench/wrong_bodies.sh [--jobs N] [NAME..]

A wrong body is an edit that must be refused: one that the gate tries too (crates/NAME/must-fail/*.edit), or one that is tried only here
(crates/NAME/wrong/*.edit). Its twin (crates/NAME/wrong/*.twin) is an edit of the same place that changes nothing, and must be accepted: else the
refusal of the wrong body tells nothing. So a crate is checked with all its twins in place, and then with each wrong body in the place of its twin.

It works on a copy, over the libraries that `rt ci` left in this checkout: run it behind that. A function is proved by the contracts of those that it
calls, so an edit of a body is tried on the functions of its file and those that they call alone; one of a constant, or of a file of `specs` or `proofs`, on
the whole crate. A line for each wrong body says what refused it, a file and a goal. The last line counts; the status is 0 where each wrong body was refused,
by more than a name that it took away, and each twin accepted.
"""
import collections
import concurrent.futures
import os
import re
import shutil
import subprocess
import sys
import tempfile

TOP = os.path.dirname(os.path.dirname(os.path.abspath(__file__)))
TOLD = re.compile(r'(note: )?\S+:\d+:\d+:')                                       # a line of the checker that tells of a place
PART = re.compile(r'\bonly=(\d+) proved=(\d+)')                                   # the last line of a check of some functions
STALE = re.compile(r'(note: )?(\./)?proofs/.*(has no field|is not in scope|has no `|was not admitted)')

Change = collections.namedtuple('Change', 'file old new')
Tried = collections.namedtuple('Tried', 'crate body is_good said')


def printed(*words):
    """What a command prints."""
    return subprocess.run(words, stdout=subprocess.PIPE, text=True, check=True).stdout


KIT = os.path.dirname(printed('rt', 'doc').split()[-1])


def listed():
    """The libraries on which each crate of the repository stands, by its name."""
    found = {}
    with open(os.path.join(TOP, 'crates.txt'), encoding='utf-8') as lines:
        for line in lines:
            name, colon, needs = line.split('#')[0].partition(':')
            if colon:
                found[name.split()[0]] = needs.split()
    return found


def changes_of(path):
    """The changes of an edit, in order."""
    file, old, found = None, None, []
    with open(path, encoding='utf-8') as lines:
        for line in lines:
            word, _, text = line.rstrip('\n').partition(': ')
            if word == 'file':
                file = text
            elif word == 'old':
                old = text
            elif word == 'new':
                found.append(Change(file, old, text))
    return found


def edits(folder, ending):
    """The changes of each edit in a folder, by name."""
    names = sorted(os.listdir(folder)) if os.path.isdir(folder) else []
    return {name[:-len(ending)]: changes_of(os.path.join(folder, name)) for name in names if name.endswith(ending)}


def put(folder, change):
    """Changes a text that stands once in a file of a crate."""
    path = os.path.join(folder, change.file)
    with open(path, encoding='utf-8') as it:
        text = it.read()
    if text.count(change.old) != 1:
        raise ValueError(f'{change.file} has {text.count(change.old)} times: {change.old}')
    with open(path, 'w', encoding='utf-8') as it:
        it.write(text.replace(change.old, change.new))


def library(name):
    """The library of a crate that `rt ci` left."""
    return os.path.join(TOP, 'crates', name, 'out', 'rlib', f'{name}.rlib')


def below(name, crates):
    """The crates of the repository on which this one stands, near or far."""
    found, ahead = [], [name]
    while ahead:
        for it in crates[ahead.pop()]:
            if it in crates and it not in found:
                found.append(it)
                ahead.append(it)
    return found


def checker(name, crates):
    """The words that check a crate in its folder."""
    root = 'src/main.rt' if os.path.exists(os.path.join(TOP, 'crates', name, 'src', 'main.rt')) else 'src/lib.rt'
    words = [f'{KIT}/bin/rattle', 'check', '--crate-name', name, root, '--extern', f'std={KIT}/rlibs/std.rlib', '-L', f'dependency={KIT}/rlibs']
    for it in crates[name]:
        words += ['--extern', f'{it}={library(it)}' if it in crates else f'{it}={KIT}/rlibs/{it}.rlib']
    for it in below(name, crates):
        words += ['-L', f'dependency={os.path.dirname(library(it))}']
    words += ['--antt-project', f'{KIT}/rattle/logic/antt-project.json', '--logic-built', f'{KIT}/logic_built']
    return words + ['--links', f'{name}=', '--jobs', '1', '--incremental', 'out/incremental']


def scope(changes):
    """The words by which a check tries no more than what the changes can break."""
    words = []
    for it in changes:
        module = re.fullmatch(r'src/(.+)\.rt', it.file)
        if not module or module[1] in ('lib', 'main') or 'const ' in it.old:
            return []
        words += ['--only', module[1].replace('/', '::')]
    return words


def refuser(lines):
    """What refuses a body: the file and the goal of the first line that tells of one."""
    place = re.search(r'(src|proofs)/[^:]+', lines[0])
    goal = re.search(r'\(`([^`]+)`\)', lines[0]) or re.search(r'error: `([^`]+)`', lines[0])
    return f'{place[0]}, {goal[1]}' if place and goal else lines[0][:160]


def judged(status, output):
    """Whether a check refused a body for what it does, and what is said of that."""
    told = [it for it in output.split('\n') if TOLD.match(it) and (': error' in it or it.startswith('note: ')) and 'large solution' not in it]
    by_clause = [it for it in told if not STALE.match(it)]
    if status == 0:
        return False, 'NOT REFUSED'
    part = PART.search(output)
    is_open = 'logic=not-proved' in output or (part and part[1] != part[2])
    if status != 1 or not is_open or re.search(r'\berror\[[\w-]+\]', output):
        return False, 'NOT TRIED: ' + ' '.join(output.split('\n')[-3:])[:300]
    return (True, refuser(by_clause)) if by_clause else (False, 'refused only by a name that it took away')


class Crate:
    """A copy of a crate, in which it is tried."""

    def __init__(self, name, crates, room):
        self.name, self.words, self.folder = name, checker(name, crates), os.path.join(room, 'crates', name)
        source = os.path.join(TOP, 'crates', name)
        shutil.copytree(source, self.folder, ignore=shutil.ignore_patterns('out'))
        os.makedirs(os.path.join(self.folder, 'out'))
        beside = os.path.join(source, 'wrong')
        self.bodies = {**edits(os.path.join(source, 'must-fail'), '.edit'), **edits(beside, '.edit')}
        self.twins = edits(beside, '.twin')
        self.placed = {}

    def check(self, changes):
        """Checks the crate as it stands with these changes, over what its checks before proved."""
        ran = subprocess.run(self.words + scope(changes), cwd=self.folder, stdin=subprocess.DEVNULL, stdout=subprocess.PIPE, stderr=subprocess.STDOUT, text=True, errors='replace')
        return ran.returncode, ran.stdout

    def restore(self, source):
        """Puts the sources back as they were kept."""
        shutil.rmtree(f'{self.folder}/src')
        shutil.copytree(source, f'{self.folder}/src')

    def tried(self, body, source):
        """Tries a wrong body in the place of its twin."""
        try:
            for it in self.bodies[body]:
                put(self.folder, Change(it.file, self.placed.get((it.file, it.old), it.old), it.new))
            is_good, said = judged(*self.check(self.bodies[body]))
        except ValueError as fault:
            is_good, said = False, f'NOT TRIED: {fault}'
        self.restore(source)
        return Tried(self.name, body, is_good, said)

    def place(self, twins):
        """Puts these twins in, and tells what refuses the crate with them: None where it is proved."""
        changes = [it for twin in twins for it in self.twins[twin]]
        try:
            for it in changes:
                put(self.folder, it)
            status, output = self.check(changes)
        except ValueError as fault:
            return str(fault)
        if status != 0:
            told = [it for it in output.split('\n') if TOLD.match(it) and (': error' in it or it.startswith('note: '))]
            return refuser(told or [output[-300:]])
        self.placed.update({(it.file, it.old): it.new for it in changes})
        return None

    def twins_tried(self, source):
        """Puts all twins in at once, or one after another those that are accepted; the others are told."""
        if self.place(self.twins) is None:
            return []
        self.restore(source)
        refused = []
        for twin in self.twins:
            before = f'{self.folder}/src.before'
            shutil.copytree(f'{self.folder}/src', before)
            said = self.place([twin])
            if said is not None:
                refused.append(Tried(self.name, twin, False, f'its twin is refused: {said}'))
                self.restore(before)
            shutil.rmtree(before)
        return refused

    def all_tried(self):
        """Tries the twins, and then each wrong body."""
        found = [Tried(self.name, body, False, 'has no twin') for body in self.bodies if body not in self.twins]
        source, with_twins = f'{self.folder}/src.plain', f'{self.folder}/src.twins'
        shutil.copytree(f'{self.folder}/src', source)
        found += self.twins_tried(source)
        shutil.copytree(f'{self.folder}/src', with_twins)
        return found + [self.tried(body, with_twins) for body in self.bodies]


def tell(name, crates):
    """Tries a crate, and prints what came of it."""
    with tempfile.TemporaryDirectory() as room:
        found = Crate(name, crates, room).all_tried()
    for it in found:
        print(f'{it.crate} {it.body}: {it.said}', flush=True)
    return found


def main(words):
    crates = listed()
    jobs = int(words.pop(words.index('--jobs') + 1)) if '--jobs' in words else os.cpu_count()
    has_bodies = lambda name: any(os.path.isdir(os.path.join(TOP, 'crates', name, it)) for it in ('must-fail', 'wrong'))
    names = [it for it in words if it != '--jobs'] or [it for it in crates if has_bodies(it)]
    missing = sorted({it for name in names for it in below(name, crates) if not os.path.exists(library(it))})
    if missing:
        sys.exit(f'no library of {", ".join(missing)}: run rt ci here first')
    with concurrent.futures.ThreadPoolExecutor(jobs) as pool:
        found = [it for one in pool.map(lambda name: tell(name, crates), names) for it in one]
    good = sum(it.is_good for it in found)
    print(f'{good} wrong bodies of {len(names)} crates refused, {len(found) - good} others')
    return 0 if good and good == len(found) else 1


if __name__ == '__main__':
    sys.exit(main(sys.argv[1:]))
