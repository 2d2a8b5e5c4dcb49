#!/usr/bin/env python3
"""The git history of a file as a session.

    tools/history.py FILE                       writes the session, an event a line
    tools/history.py --check VEMIKTAG FILE      runs it, and compares the text with the file's last version and the blame with `git blame`

Each author is a client. A commit is an edit of its author's: where git finds changed lines, the characters that difflib finds
changed in their words. A branch that another one takes in whole is typed offline, from where it begins on, and sent where it is merged;
where the merged text isn't that of the merge's version, its author edits it to be. What can't be played so, such as a branch of
several merges into others, becomes a part of the merge's edit, which is told on standard error. At the end the last author's
client shows the text, how many characters each connection inserted, and who inserted each of them.

The file has its present name throughout, and is UTF-8. A session has at most 16 clients: where there are more authors, those of the
fewest commits are one client, "others".
"""
import collections
import difflib
import json
import os
import re
import subprocess
import sys
import tempfile

CLIENT_LIMIT = 16
OTHERS = 'others'
LONGEST_TEXT = 400_000          # of an insertion in one line of the session, in bytes


def line_of(value):
    """The one spelling of a value: keys rise, and no spaces stand between."""
    return json.dumps(value, ensure_ascii=False, separators=(',', ':'), sort_keys=True)


# ---- git

def git(*words, ends=(0,)):
    found = subprocess.run(['git', *words], stdout=subprocess.PIPE, stderr=subprocess.PIPE)
    if found.returncode not in ends:
        sys.exit(found.stderr.decode(errors='replace').strip() or f'git {words[0]} failed')
    return found.stdout


class Commit:
    def __init__(self, name, parents, author):
        self.name, self.parents, self.author = name, parents, author
        self.text = ''


def commits_of(path):
    """The commits that changed the file, parents before children."""
    found = collections.OrderedDict()
    lines = git('log', '--topo-order', '--reverse', '--parents', '--format=%H%x00%P%x00%aN', 'HEAD', '--', path).decode().splitlines()
    for line in lines:
        name, parents, author = line.split('\0')
        found[name] = Commit(name, parents.split(), author)
    for commit in found.values():
        commit.parents = [parent for parent in commit.parents if parent in found]
        commit.text = text_of(commit.name, path)
    return found


def text_of(name, path):
    """The file in a commit, empty where it isn't there."""
    if not git('ls-tree', name, '--', path):
        return ''
    try:
        return git('cat-file', 'blob', f'{name}:./{path}').decode()
    except UnicodeDecodeError:
        sys.exit(f'{path} is no UTF-8 in {name}')


def changed_lines(old, new):
    """Where git finds other lines: (from, to, from, to) in the lines of both texts."""
    if old == new:
        return []
    with tempfile.TemporaryDirectory() as folder:
        names = [os.path.join(folder, name) for name in ('old', 'new')]
        for name, text in zip(names, (old, new)):
            with open(name, 'wb') as file:
                file.write(text.encode())
        shown = git('diff', '--no-index', '-U0', '--no-color', '--no-ext-diff', '--text', *names, ends=(0, 1)).decode(errors='replace')
    found = []
    for match in re.finditer(r'^@@ -(\d+)(?:,(\d+))? \+(\d+)(?:,(\d+))? @@', shown, re.M):
        start, count, new_start, new_count = (1 if part is None else int(part) for part in match.groups())
        start, new_start = start - (count > 0), new_start - (new_count > 0)
        found.append((start, start + count, new_start, new_start + new_count))
    return found


# ---- from versions to edits

def lines_of(text):
    """The lines of a text, each with its LF."""
    return re.findall(r'[^\n]*\n|[^\n]+', text)


def changes_of(old, new):
    """The changes of characters that make one text the other: (place in the old one, how many are taken away, what is put in)."""
    old_lines, new_lines = lines_of(old), lines_of(new)
    places = [0]
    for line in old_lines:
        places.append(places[-1] + len(line))
    for start, end, new_start, new_end in changed_lines(old, new):
        before, after = ''.join(old_lines[start:end]), ''.join(new_lines[new_start:new_end])
        for place, count, text in changed_characters(before, after):
            yield places[start] + place, count, text


def changed_characters(before, after):
    """The changes of characters between changed lines: of words that took the place of others, but for what both begin and end with."""
    before_words, after_words = (re.findall(r'\w+|[^\w]', text) for text in (before, after))
    places = [0]
    for word in before_words:
        places.append(places[-1] + len(word))
    for kind, i, j, k, m in difflib.SequenceMatcher(None, before_words, after_words, autojunk=False).get_opcodes():
        if kind == 'equal':
            continue
        old, new = ''.join(before_words[i:j]), ''.join(after_words[k:m])
        start = len(os.path.commonprefix([old, new]))
        end = len(os.path.commonprefix([old[start:][::-1], new[start:][::-1]]))
        yield places[i] + start, len(old) - start - end, new[start:len(new) - end]


def edits_of(old, new):
    """The operations that make one text the other, few enough in each that its line is short."""
    ops, size, shift = [], 0, 0
    for place, count, text in changes_of(old, new):
        if count:
            ops.append({'pos1': place + shift, 'pos2': place + shift + count, 'type': 1})
        for start in range(0, len(text), LONGEST_TEXT // 4):
            piece = text[start:start + LONGEST_TEXT // 4]
            if size > LONGEST_TEXT:
                yield grouped(ops)
                ops, size = [], 0
            ops.append({'pos1': place + shift + start, 'seg': piece, 'type': 0})
            size += len(line_of(piece).encode())
        size += 100
        shift += len(text) - count
    if ops:
        yield grouped(ops)


def grouped(ops):
    return ops[0] if len(ops) == 1 else {'ops': ops, 'type': 3}


# ---- lines of work

class Branch:
    """Commits beside the main line: from which of its commits they begin, and which takes them in."""

    def __init__(self, commits, fork, merge):
        self.commits, self.fork, self.merge = commits, fork, merge
        self.client = None

    def author(self):
        authors = []
        for commit in self.commits:
            if commit.author not in authors:
                authors.append(commit.author)
        return ', '.join(authors)


def main_line(commits):
    """The first parents of the newest commit, oldest first."""
    found, commit = [], next(reversed(commits.values()))
    while True:
        found.append(commit)
        if not commit.parents:
            return found[::-1]
        commit = commits[commit.parents[0]]


def branches_of(commits, main):
    """The branches that one client can play offline."""
    place = {commit.name: i for i, commit in enumerate(main)}
    children = collections.defaultdict(list)
    for commit in commits.values():
        for parent in commit.parents:
            children[parent].append(commit)
    taken, found = set(), []
    for merge in main:
        for tip in merge.parents[1:]:
            chain, name = [], tip
            while name is not None and name not in place:
                chain.append(commits[name])
                name = next(iter(commits[name].parents), None)
            chain.reverse()
            if chain and is_playable(chain, place, place[merge.name], children, taken):
                taken.update(commit.name for commit in chain)
                found.append(Branch(chain, -1 if name is None else place[name], place[merge.name]))
    return found


def is_playable(chain, place, merge, children, taken):
    """Whether each commit stands in this branch alone, and takes in nothing but earlier commits of the main line."""
    for i, commit in enumerate(chain):
        follows = [child for child in children[commit.name] if i + 1 == len(chain) or child is not chain[i + 1]]
        wanted = 1 if i + 1 == len(chain) else 0
        takes_in_main = all(place.get(parent, merge) < merge for parent in commit.parents[1:])
        if commit.name in taken or len(follows) != wanted or not takes_in_main:
            return False
    return True


# ---- what an offline client has

class Run:
    """Characters that came together: of the pending stage that puts them in, 0 where messages did; and what takes them away."""
    __slots__ = ('text', 'stage', 'removal', 'is_gone')

    def __init__(self, text, stage, removal=0, is_gone=False):
        self.text, self.stage = text, stage
        self.removal = removal                      # the pending stage that removes them, 0 for none
        self.is_gone = is_gone                      # whether a message removed them

    def is_shown(self):
        return not self.removal and not self.is_gone

    def is_told(self):
        """Whether messages alone show them."""
        return not self.stage and not self.is_gone

    def is_before(self, stage):
        """Whether they are shown by the messages and the pending stages before this one."""
        return not self.is_gone and self.stage < stage and not 0 < self.removal < stage


class Offline:
    """The text of a client that edits offline, as runs. They are as many as edits, however long the text is."""

    def __init__(self, text):
        self.runs = [Run(text, 0)]
        self.stages = []                            # of each its operation
        self.edits = []                             # of each its commit and its stages

    def shown(self):
        return ''.join(run.text for run in self.runs if run.is_shown())

    def edit(self, commit, op):
        """Takes an edit of its own."""
        first = len(self.stages) + 1
        for sub in sub_operations(op):
            self.stages.append(sub)
            stage = len(self.stages)
            if sub['type'] == 0:
                self.runs.insert(self.place(sub['pos1'], Run.is_shown), Run(sub['seg'], stage))
            else:
                for run in self.covered(sub, Run.is_shown):
                    run.removal = stage
        self.edits.append((commit, range(first, len(self.stages) + 1)))

    def take(self, op):
        """Takes an operation of a message, which stands behind all that is pending where it is put in."""
        for sub in sub_operations(op):
            if sub['type'] == 0:
                place = self.place(sub['pos1'], Run.is_told)
                while place < len(self.runs) and self.runs[place].stage:
                    place += 1
                self.runs.insert(place, Run(sub['seg'], 0))
            else:
                for run in self.covered(sub, Run.is_told):
                    run.is_gone = True

    def place(self, count, is_seen):
        """The place directly behind so many characters of the runs that are seen; a run is cut there if need be."""
        if count == 0:
            return 0
        for place, run in enumerate(self.runs):
            if is_seen(run) and count <= len(run.text):
                if count < len(run.text):
                    self.runs.insert(place + 1, Run(run.text[count:], run.stage, run.removal, run.is_gone))
                    run.text = run.text[:count]
                return place + 1
            count -= len(run.text) if is_seen(run) else 0
        raise AssertionError('a place beyond the text')

    def covered(self, op, is_seen):
        """The runs that a removal covers."""
        self.place(op['pos2'], is_seen)
        left = op['pos2'] - op['pos1']
        for run in self.runs[self.place(op['pos1'], is_seen):]:
            if left and is_seen(run):
                left -= len(run.text)
                yield run

    def sent_again(self):
        """What is pending as it is sent once the client is online: of each edit that is left its commit and its operation."""
        for commit, stages in self.edits:
            ops = [op for stage in stages for op in self.pieces(stage)]
            if ops:
                yield commit, grouped(ops)

    def pieces(self, stage):
        """The operations of a stage, in what is shown before it."""
        op, place, spans = self.stages[stage - 1], 0, []
        for run in self.runs:
            if run.stage == stage:
                return [dict(op, pos1=place)]
            if run.is_before(stage):
                if run.removal == stage:
                    spans.append((place, place + len(run.text)))
                place += len(run.text)
        return list(removals(spans))


def removals(spans):
    """The removals of these spans of a text, one after another; spans side by side are one."""
    lowered, joined = 0, []
    for start, end in spans:
        if joined and joined[-1][1] == start:
            joined[-1][1] = end
        else:
            joined.append([start, end])
    for start, end in joined:
        yield {'pos1': start - lowered, 'pos2': end - lowered, 'type': 1}
        lowered += end - start


def sub_operations(op):
    return op['ops'] if op['type'] == 3 else [op]


def applied(text, op):
    """The text after an operation."""
    for sub in sub_operations(op):
        text = text[:sub['pos1']] + sub.get('seg', '') + text[sub.get('pos2', sub['pos1']):]
    return text


class Client:
    """A client of the session: what it has while it is offline, the number of its last message, and what it has to send."""

    def __init__(self):
        self.offline, self.number, self.unsent = Offline(''), 0, []


class History:
    """The session of a history. Each message refers to the one before it, so the text of all messages is one string, and what a merge comes to
    is known by what the client of the branch has."""

    def __init__(self, path):
        self.path = path
        self.commits = commits_of(path)
        if not self.commits:
            sys.exit(f'no commit has {path}')
        self.main = main_line(self.commits)
        self.branches = branches_of(self.commits, self.main)
        self.has_branches = bool(self.branches)
        self.clients, self.log, self.text = {}, [], ''      # the log has the operation of each message, None of one that has none
        self.lines, self.by_number = [], {}
        self.names = self.named()
        self.numbers = []                           # of each commit of the main line the number of the log behind it
        self.play()

    # ---- clients

    def named(self):
        """The client of each author."""
        counts = collections.Counter(commit.author for commit in self.main)
        for branch in self.branches:
            counts[branch.author()] += len(branch.commits)
        names = [author for author, _ in counts.most_common()]
        if len(names) <= CLIENT_LIMIT:
            return {author: author for author in names}
        tell(f'{len(names) - CLIENT_LIMIT + 1} authors of few commits are the client "{OTHERS}"')
        return {author: author if i < CLIENT_LIMIT - 1 else OTHERS for i, author in enumerate(names)}

    def is_free(self, name, branch):
        """Whether a client has nothing else to do while a branch is typed."""
        span = range(branch.fork + 1, branch.merge)
        is_main = any(self.names[self.main[i].author] == name for i in span if i < len(self.main))
        return not is_main and all(other.client != name or other.merge <= branch.fork or branch.merge <= other.fork for other in self.branches)

    def give_clients(self):
        """Gives each branch a client that is free, one more of its author's if need be, while there are names."""
        used = set(self.names.values())
        for branch in list(self.branches):
            author, count = self.names[branch.author()], 1
            name = author
            while not self.is_free(name, branch):
                count += 1
                name = f'{author} ({count})'
            if name not in used and len(used) == CLIENT_LIMIT:
                tell(f'{len(branch.commits)} commits before {self.main[branch.merge].name[:9]} are a part of its edit: there is no client for them')
                self.branches.remove(branch)
                continue
            used.add(name)
            branch.client = name

    # ---- events

    def take(self, **event):
        self.lines.append(line_of(event))

    def start(self, name):
        if name not in self.clients:
            self.take(client=name, do='start')
            self.clients[name] = Client()

    def connect(self, name):
        """The client is there, connected, and has all messages."""
        self.start(name)
        client = self.clients[name]
        if client.offline is not None:
            self.join(name)
        if client.number < len(self.log):
            self.take(client=name, count='all', do='deliver')
            self.deliver(client, len(self.log))
        if client.offline is not None:
            client.unsent = list(client.offline.sent_again())
            client.offline = None

    def join(self, name):
        self.take(client=name, do='connect')
        self.log.append(None)

    def deliver(self, client, number):
        """The client has the messages up to this number."""
        if client.offline is not None:
            for op in filter(None, self.log[client.number:number]):
                client.offline.take(op)
        client.number = number

    def drop(self, name):
        """The client is offline, with the text of all messages but its leave if it was online."""
        client = self.clients[name]
        self.take(client=name, do='drop')
        if client.offline is None:
            client.offline = Offline(self.text)
        self.log.append(None)

    def edit(self, name, commit, old, new):
        client = self.clients[name]
        for op in edits_of(old, new):
            self.take(address='text', client=name, do='edit', op=op)
            if client.offline is None:
                client.unsent.append((commit, op))
            else:
                client.offline.edit(commit, op)

    def send(self, name):
        """Sends what is pending, and notes whose commit each message is."""
        client = self.clients[name]
        if not client.unsent:
            return
        for commit, op in client.unsent:
            self.log.append(op)
            self.by_number[len(self.log)] = commit
            self.text = applied(self.text, op)
        client.unsent = []
        self.take(client=name, count='all', do='ticket')

    # ---- the course of the history

    def play(self):
        self.give_clients()
        for place, commit in enumerate(self.main):
            self.play_main(place, commit)
            for branch in self.branches:
                if branch.fork == place:
                    self.connect(branch.client)
                    self.drop(branch.client)
        last = self.names[self.main[-1].author]
        self.connect(last)
        self.take(client=last, do='show')
        self.take(client=last, do='authors')
        self.take(client=last, do='blame', end=len(self.main[-1].text), start=0)
        self.last = last

    def play_main(self, place, commit):
        merged = [branch for branch in self.branches if branch.merge == place]
        for branch in merged:
            self.play_branch(branch)
        name = self.names[commit.author]
        self.connect(name)
        old = self.main[place - 1].text if place else ''
        if merged:
            old = self.text
        if len(commit.parents) > 1:
            self.tell_merge(commit, merged, old)
        self.edit(name, commit, old, commit.text)
        self.send(name)
        self.numbers.append(len(self.log))

    def play_branch(self, branch):
        name = branch.client
        self.start(name)
        for commit in branch.commits:
            old = self.taken_in(branch, commit)
            self.edit(name, commit, old, commit.text)
        self.connect(name)
        self.send(name)

    def taken_in(self, branch, commit):
        """The text before a commit of a branch, where it takes in what the main line had."""
        numbers = [self.numbers[self.main.index(self.commits[parent])] for parent in commit.parents[1:]]
        client = self.clients[branch.client]
        if numbers and max(numbers) > client.number:
            self.join(branch.client)
            self.take(client=branch.client, count=max(numbers) - client.number, do='deliver')
            self.deliver(client, max(numbers))
            self.drop(branch.client)
        return client.offline.shown()

    def tell_merge(self, commit, merged, text):
        played = sum(len(branch.commits) for branch in merged)
        if not played:
            tell(f'merge {commit.name[:9]}: what it takes in is its edit')
        elif text != commit.text:
            tell(f'merge {commit.name[:9]}: {played} commits of others are joined, and its version differs, so it edits')


def tell(text):
    print(text, file=sys.stderr)


# ---- comparison

def report_of(program, given):
    try:
        found = subprocess.run([program, 'session'], input=given, stdout=subprocess.PIPE)
    except OSError as fault:
        sys.exit(f'{program}: {fault.strerror}')
    if found.returncode not in (0, 1):
        sys.exit(f'{program} ended with status {found.returncode}')
    return found.stdout.decode()


def check(program, path):
    history = History(path)
    text = history.main[-1].text
    given = ''.join(line + '\n' for line in history.lines).encode()
    report = report_of(program, given).splitlines()
    shown = [json.loads(line[5:]) for line in report if line.startswith('text ')]
    is_equal = shown == [text] and not any(line.startswith('line ') for line in report)
    print(f'{len(history.lines)} events of {len(history.commits)} commits; the text', 'is that of the last version' if is_equal else 'DIFFERS')
    runs = [json.loads(line) for line in report if line.startswith('{"by"') and '"end"' in line]
    by_character = []
    for run in runs:
        by_character += [history.by_number[run['seq']]] * (run['end'] - run['start'])
    counts, differing = compared(history, by_character, text, path)
    print(', '.join(f'{count} {name}' for name, count in counts.items() if count) or 'no lines')
    for number, line in differing:
        print(f'line {number} DIFFERS: {line}')
    return is_equal and not differing


def compared(history, by_character, text, path):
    """How the blame of each line compares with that of git."""
    names = re.findall(r'^([0-9a-f]{40}) \d+ (\d+)', git('blame', '--line-porcelain', 'HEAD', '--', path).decode(), re.M)
    order = {name: i for i, name in enumerate(history.commits)}
    kinds = ('lines of one commit, which git names', 'of several, of which git names the newest', "by a merge's edit",
             'of which git names a later commit, which changed the line and put in none of its characters')
    counts, differing, place = collections.OrderedDict((name, 0) for name in kinds), [], 0
    for (name, number), line in zip(names, lines_of(text)):
        inserted = {commit.name for commit in by_character[place:place + len(line)]}
        place += len(line)
        newest = max(inserted, key=order.get, default=None)
        if name == newest:
            counts[kinds[len(inserted) > 1]] += 1
        elif newest and len(history.commits[newest].parents) > 1:
            counts[kinds[2]] += 1
        elif is_made_by(history, history.commits.get(name), line):
            counts[kinds[3]] += 1
        else:
            differing.append((number, line.rstrip('\n')))
    return counts, differing


def is_made_by(history, commit, line):
    """Whether git finds the line among those that the commit changed."""
    if commit is None:
        return False
    old = history.commits[commit.parents[0]].text if commit.parents else ''
    lines = lines_of(commit.text)
    return any(line in lines[start:end] for _, _, start, end in changed_lines(old, commit.text))


def main(words):
    if len(words) == 3 and words[0] == '--check':
        program, path = os.path.abspath(words[1]), words[2]
    elif len(words) == 1 and not words[0].startswith('-'):
        program, path = None, words[0]
    else:
        print(__doc__, file=sys.stderr)
        sys.exit(2)
    try:
        os.chdir(os.path.dirname(os.path.abspath(path)))
        path = os.path.basename(path)
        if program:
            sys.exit(not check(program, path))
        sys.stdout.buffer.write(''.join(line + '\n' for line in History(path).lines).encode())
        sys.stdout.flush()
    except BrokenPipeError:
        os.dup2(os.open(os.devnull, os.O_WRONLY), sys.stdout.fileno())
        sys.exit(1)
    except OSError as fault:
        sys.exit(f'{fault.filename or "standard output"}: {fault.strerror}')


if __name__ == '__main__':
    main(sys.argv[1:])
