#!/usr/bin/env python3
"""Tries the scripts beside it with a built program.

    tools/try.py VEMIKTAG

`history.py` on repositories that are drawn, with branches of several authors and merges both ways; `view.py` with numbers that a browser's
numbers don't hold, and with what isn't there; `sessions.py` at its bounds and beyond. Only the standard library and git are used."""

import os
import random
import subprocess
import sys
import tempfile

TOOLS = os.path.dirname(os.path.abspath(__file__))
EXAMPLES = os.path.join(os.path.dirname(TOOLS), 'examples')
AUTHORS = ('ann', 'bob', 'cy')
WORDS = 'alpha beta gamma delta epsilon zeta eta theta'.split()
LARGE = (9007199254740993, 18446744073709551615)


def run(script, *words, status=0):
    """What a script writes, which ends with this status and no traceback."""
    found = subprocess.run([sys.executable, os.path.join(TOOLS, script), *words], stdout=subprocess.PIPE, stderr=subprocess.PIPE, check=False)
    if found.returncode != status or b'Traceback' in found.stderr:
        sys.exit(f'{script} {" ".join(words)} ended with {found.returncode}\n{found.stderr.decode()}')
    return found.stdout.decode(errors='replace')


class Repository:
    """A repository with a file that is changed at random."""

    def __init__(self, folder, seed):
        self.folder, self.path, self.draw, self.clock = folder, os.path.join(folder, 'file'), random.Random(seed), 1700000000
        self.git('init', '-q', '-b', 'main')
        for name in ('user.name', 'user.email'):
            self.git('config', name, 'somebody')
        self.write([self.line() for _ in range(30)])
        self.commit()
        for number in range(8):
            self.branch(f'branch{number}')

    def git(self, *words, may_fail=False):
        self.clock += 60
        date = f'{self.clock} +0000'
        given = dict(os.environ, GIT_AUTHOR_DATE=date, GIT_COMMITTER_DATE=date, GIT_AUTHOR_NAME=self.draw.choice(AUTHORS))
        subprocess.run(['git', '-C', self.folder, *words], check=not may_fail, stdout=subprocess.PIPE, stderr=subprocess.PIPE, env=given)

    def line(self):
        return ' '.join(self.draw.choice(WORDS) for _ in range(self.draw.randint(1, 8)))

    def read(self):
        with open(self.path, encoding='utf-8') as file:
            return file.read().split('\n')

    def write(self, lines):
        with open(self.path, 'w', encoding='utf-8') as file:
            file.write('\n'.join(lines))

    def change(self):
        """Lines come, go, and get another word."""
        lines = self.read()
        for _ in range(self.draw.randint(1, 4)):
            place, kind = self.draw.randrange(len(lines)), self.draw.random()
            if kind < 0.5 or len(lines) < 2:
                lines.insert(place, self.line())
            elif kind < 0.65:
                del lines[place]
            else:
                lines[place] = ' '.join(self.draw.choice((word, word, self.draw.choice(WORDS))) for word in lines[place].split(' '))
        self.write(lines)

    def commit(self):
        self.change()
        self.git('add', 'file')
        self.git('commit', '-q', '--allow-empty', '-m', 'a change')

    def merge(self, other):
        """Both sides of a conflict stay, and now and then something else is changed."""
        self.git('merge', '-q', '--no-commit', '--no-ff', other, may_fail=True)
        self.write([line for line in self.read() if not line.startswith(('<<<<<<<', '=======', '>>>>>>>'))])
        if self.draw.random() < 0.3:
            self.change()
        self.git('add', 'file')
        self.git('commit', '-q', '--allow-empty', '-m', 'a merge', may_fail=True)

    def branch(self, name):
        self.git('checkout', '-q', '-b', name)
        for _ in range(self.draw.randint(1, 3)):
            self.commit()
        self.git('checkout', '-q', 'main')
        for _ in range(self.draw.randint(0, 3)):
            self.commit()
        if self.draw.random() < 0.4:
            self.git('checkout', '-q', name)
            self.merge('main')
            self.commit()
            self.git('checkout', '-q', 'main')
            self.commit()
        self.merge(name)


def try_history(program, folder):
    for seed in range(3):
        place = os.path.join(folder, str(seed))
        os.mkdir(place)
        repository = Repository(place, seed)
        told = run('history.py', '--check', program, repository.path)
        print('history.py:', told.splitlines()[0])
    run('history.py', '--check', os.path.join(folder, 'none'), repository.path, status=1)
    run('history.py', os.path.join(folder, 'none', 'file'), status=1)
    run('history.py', status=2)


def try_view(program, folder):
    session = os.path.join(folder, 'session')
    with open(session, 'w', encoding='utf-8') as file:
        file.write('{"client":"ana","do":"start"}\n')
        for target in ('rows', 'cols'):
            file.write('{"address":"grid","client":"ana","do":"edit","op":{"target":"%s","type":0,"pos1":0,"count":1}}\n' % target)
        file.write('{"address":"grid","client":"ana","do":"edit","op":{"type":"set","row":0,"col":0,"value":%d}}\n' % LARGE[0])
        file.write('{"address":"text","client":"ana","do":"edit","op":{"type":0,"pos1":0,"seg":{"text":"a","props":{"n":%d}}}}\n' % LARGE[1])
        file.write('{"client":"ana","do":"show"}\n')
    page = run('view.py', '--program', program, session)
    assert f'"cells":[[0,0,"{LARGE[0]}"]]' in page, 'a cell is a text'
    assert f'"props":[[0,1,"{{\\"n\\":{LARGE[1]}}}",false]]' in page, 'properties are one'
    example, report = (os.path.join(EXAMPLES, 'readme_history.' + kind) for kind in ('session', 'report'))
    run('view.py', '--report', report, example)
    for words in (['--report', report, session], ['--report', os.path.join(folder, 'none'), session], ['--report', example, example], ['--program', folder, session],
                  [os.path.join(folder, 'none')]):
        run('view.py', *words, status=1)
    run('view.py', '--report', report, status=2)
    print('view.py: numbers are exact, and what is wanting is told')


def try_sessions():
    assert run('sessions.py', '0', '0', '0') and run('sessions.py', str(2**64 - 1), '60', '15')
    assert run('sessions.py', '--told', '7', '300', '5') == 'lines 332 refused 58 views 17\n'
    for words in ([], ['-1'], [str(2**64)], ['1', '-1'], ['1', '100001'], ['1', '2', '16'], ['1', '2', '3', '4'], ['one']):
        run('sessions.py', *words, status=2)
    print('sessions.py: within its bounds, and refused beyond')


def main(words):
    if len(words) != 1:
        print(__doc__, file=sys.stderr)
        sys.exit(2)
    program = os.path.abspath(words[0])
    with tempfile.TemporaryDirectory() as folder:
        try_sessions()
        try_view(program, folder)
        try_history(program, folder)


if __name__ == '__main__':
    main(sys.argv[1:])
