#!/usr/bin/env python3
"""A page to look at a session.

    tools/view.py SESSION > page.html                          asks crates/vemiktag/out/vemiktag
    tools/view.py --program VEMIKTAG SESSION > page.html       asks this program
    tools/view.py --report REPORT SESSION > page.html          has what `vemiktag session <SESSION` wrote, and asks no program

The page is one file without any outside resource. It has each client's timeline against the sequence numbers (edits, what is pending,
messages sent and processed, drops, joins and refused lines), and at each event the clients' views: the text with its authors in colour,
its properties and intervals, and the table. The arrow keys go from event to event and from client to client.

A program is asked after each event for the client's unsent messages, its view and its blame, by more lines in the session, and at the end
for all messages. From a report alone the page has the views that it shows, and counts in between what the events say of links and
numbers: the minimum is that of the last view, and how many messages a client sends again after a reconnection is a guess, which the next
view corrects.

The status is 0 where the page is written, 2 where the words are none of these, and 1 where a file can't be read, the program doesn't run or
the report isn't one of the session; then a line on standard error says why.

Only the standard library is used.
"""
import json
import os
import re
import subprocess
import sys

ROOT = os.path.dirname(os.path.dirname(os.path.abspath(__file__)))
PROGRAM = os.path.join(ROOT, 'crates', 'vemiktag', 'out', 'vemiktag')
PAGE = os.path.join(ROOT, 'tools', 'view.html')
COUNTS = re.compile(r'(refused \d+\nskipped \d+\nother \d+\n)?')    # at the end of a report, if it is whole
LONGEST_LINE = 400              # of what is told of a line or a message, in characters
CHANGING = ('start', 'connect', 'drop', 'edit', 'noop', 'ticket', 'deliver', 'offer')
WRITES = {'queue': 'draft', 'history': 'message', 'blame': 'blame', 'authors': 'author', 'overlap': 'overlap', 'summary': 'summary'}


def line_of(value):
    return json.dumps(value, ensure_ascii=False, separators=(',', ':'), sort_keys=True)


# ---- the session

class Event:
    """A line of the session."""

    def __init__(self, number, line):
        self.number, self.line = number, line
        try:
            value = json.loads(line)
        except (ValueError, RecursionError):
            value = None
        self.value = value if isinstance(value, dict) else {}
        self.word = self.text_of('do')
        self.name = self.text_of('client') or self.text_of('guest')

    def text_of(self, key):
        value = self.value.get(key)
        return value if isinstance(value, str) else None


def events_of(data):
    lines = data.decode(errors='surrogateescape').split('\n')
    return [Event(number, line) for number, line in enumerate(lines, 1) if line.strip(' \t\r')]


def questions_of(event, length):
    """The lines that are asked behind an event, given how many elements the client then shows."""
    if event.name is None:
        return []
    show = {'client': event.name, 'do': 'show'}
    if event.word not in CHANGING:
        return [show] if event.word in WRITES else []
    asked = [{'client': event.name, 'do': 'queue'}]
    if length:
        asked.append({'client': event.name, 'do': 'blame', 'end': length, 'start': 0})
    return asked + [show]


# ---- the report

def kind_of(line):
    """What a line of the report belongs to."""
    if line[:1] == '[':
        return 'overlap'
    if line[:1] != '{':
        word = line.split(' ', 1)[0]
        return word if word in ('client', 'line') else 'shown' if word in SHOWN else 'count'
    value = json.loads(line)
    for key, kind in (('version', 'summary'), ('sequenceNumber', 'message'), ('type', 'draft'), ('start', 'blame'), ('count', 'author')):
        if key in value:
            return kind
    return 'count'


class Answer:
    """What an event wrote: its refusal, or its lines."""

    def __init__(self, refused, lines):
        self.refused, self.lines = refused, lines


class Report:
    def __init__(self, text):
        self.lines = text.split('\n')
        self.kinds = [kind_of(line) for line in self.lines]
        self.place = 0

    def take_while(self, kind):
        start = self.place
        while self.place < len(self.lines) and self.kinds[self.place] == kind and not self.begins_anew(start, kind):
            self.place += 1
        return self.lines[start:self.place]

    def begins_anew(self, start, kind):
        """Whether the first message of a history stands here behind those of another."""
        return kind == 'message' and self.place > start and json.loads(self.lines[self.place])['sequenceNumber'] == 1

    def answer(self, number, word):
        """What the event of a line wrote, which stands next in the report."""
        line = self.lines[self.place] if self.place < len(self.lines) else ''
        before = f'line {number} refused '
        if line.startswith(before):
            self.place += 1
            return Answer(line[len(before):], [])
        if word == 'show' and self.kinds[self.place:self.place + 1] == ['client']:
            self.place += 1
            return Answer(None, [line] + self.take_while('shown'))
        if word == 'summary' and self.kinds[self.place:self.place + 1] == ['summary']:
            self.place += 1
            return Answer(None, [line])
        return Answer(None, self.take_while(WRITES[word]) if word in WRITES else [])


def values_of(text):
    """The JSON values of a line, with a space between them."""
    found, place, decoder = [], 0, json.JSONDecoder()
    while place < len(text):
        value, place = decoder.raw_decode(text, place)
        found.append(value)
        place += 1
    return found


def add_text(view, values):
    view['text'] = values[0]


def add_size(view, values):
    view['rows'], view['cols'] = values


def add_props(view, values):
    start, end, props = values
    view['props'].append([start, end, line_of(props), props.get('bold') is True])


def add_interval(view, values):
    *where, props = values
    view['intervals'].append([*where, line_of(props) if props else ''])


def add_cell(view, values):
    row, col, value = values
    view['cells'].append([row, col, value if isinstance(value, str) else line_of(value)])


# Values are texts here: a browser's numbers are exact to 2^53 alone.
SHOWN = {
    'text': add_text,
    'marker': lambda view, values: view['markers'].append([values[0], line_of(values[1])]),
    'props': add_props,
    'interval': add_interval,
    'rows': add_size,
    'cell': add_cell,
}


def view_of(lines):
    """What the lines of a view show."""
    view = {'text': '', 'markers': [], 'props': [], 'intervals': [], 'rows': 0, 'cols': 0, 'cells': []}
    for line in lines:
        word, rest = line.split(' ', 1)
        SHOWN[word](view, values_of(rest.replace(' cols ', ' ') if word == 'rows' else rest))
    return view


def length_of(view):
    return len(view['text']) + len(view['markers'])


def head_of(line):
    """The link, number, minimum and pending edits of the first line of a view."""
    _, end = json.JSONDecoder().raw_decode(line, len('client '))
    link, _, number, _, minimum, _, pending = line[end + 1:].split(' ')
    return link, int(number), int(minimum), int(pending)


# ---- what an event is, in words

def told_value(value):
    text = line_of(value)
    return text if len(text) <= 60 else text[:57] + '..'


def told_op(op):
    try:
        return OPERATIONS[kind_of_op(op)](op)
    except (KeyError, TypeError, AttributeError):
        return told_value(op)


def kind_of_op(op):
    if 'interval' in op:
        return 'interval'
    return (('rows or columns ' if 'target' in op else '') + str(op['type']))


def told_insertion(op):
    segment = op['seg']
    if isinstance(segment, dict):
        segment = segment.get('text', segment)
    return f'{"a marker" if isinstance(segment, dict) else told_value(segment)} inserted at {op["pos1"]}'


def told_interval(op):
    ends = f' on {op["start"]} to {op["end"]}' if 'start' in op else ''
    return f'{op["interval"]} interval {op["label"]} {op["id"]}{ends}' + (f' {told_value(op["props"])}' if op.get('props') else '')


def told_annotation(op):
    return f'{op["pos1"]} to {op["pos2"]} get ' + ' and '.join(told_value(op[key]) for key in ('props', 'adjust') if op.get(key))


OPERATIONS = {
    '0': told_insertion,
    '1': lambda op: f'{op["pos1"]} to {op["pos2"]} removed',
    '2': told_annotation,
    '3': lambda op: f'group of {len(op["ops"])}: ' + '; '.join(told_op(sub) for sub in op['ops']),
    'set': lambda op: f'cell {op["row"]} {op["col"]} is {told_value(op["value"])}',
    'interval': told_interval,
    'rows or columns 0': lambda op: f'{op["count"]} {op["target"]} inserted at {op["pos1"]}',
    'rows or columns 1': lambda op: f'{op["target"]} {op["pos1"]} to {op["pos2"]} removed',
}


def told_count(event):
    count = event.value.get('count', 1)
    return 'all' if count == 'all' else str(count)


EVENTS = {
    'start': lambda event: 'starts' + (f' from {event.value["from"]}' if 'from' in event.value else ''),
    'connect': lambda event: 'connects',
    'drop': lambda event: 'loses its connection',
    'edit': lambda event: told_op(event.value['op']) if 'op' in event.value else 'edits',
    'ticket': lambda event: f'sends {told_count(event)}',
    'deliver': lambda event: f'processes {told_count(event)}',
    'noop': lambda event: 'queues a noop',
    'show': lambda event: 'is shown',
    'offer': lambda event: 'is offered a message',
    'guest': lambda event: 'comes as a guest',
    'submit': lambda event: 'submits a draft',
    'part': lambda event: 'leaves',
    'compact': lambda event: 'forgets what nobody can refer to',
}


def told_event(event):
    told = EVENTS.get(event.word, lambda event: event.word or 'no event')(event)
    return cut(told if event.name is None else f'{event.name}: {told}')


def told_message(message):
    contents = message.get('contents')
    if message['type'] != 'op' or not isinstance(contents, dict):
        return message['type']
    if 'address' not in contents:
        return cut(told_op(contents))
    if contents['address'] in ('text', 'grid'):
        return cut(told_op(contents.get('contents')))
    return cut(f'to {told_value(contents["address"])}')


def cut(text):
    return text if len(text) <= LONGEST_LINE else text[:LONGEST_LINE - 2] + '..'


# ---- the course of the session

class Client:
    def __init__(self, is_guest, number):
        self.is_guest, self.number, self.minimum = is_guest, number, 0
        self.link, self.joined_at = 'offline', 0
        self.pending = self.unsent = 0
        self.view = None


class Course:
    """What the events come to, one after another: the log's number, and of each client its link, its numbers and its view."""

    def __init__(self):
        self.clients = {}
        self.log = []                               # of each message who sent it, and whether it is an operation
        self.views, self.view_places = [], {}
        self.points, self.messages = [], []

    def take(self, event, answer, asked):
        """Takes an event with what it wrote, and what was asked behind it."""
        before = len(self.log)
        client = self.clients.get(event.name)
        unsent = client.unsent if client else 0
        if answer.refused is None:
            getattr(self, 'take_' + (event.word or ''), self.take_nothing)(event)
            if event.word == 'history':
                self.messages = [json.loads(line) for line in answer.lines]
        for word, found in [(event.word, answer)] + asked:
            if word == 'show' and found.refused is None and found.lines:
                self.see(event.name, found.lines, [other.lines for other_word, other in asked if other_word == 'blame'])
        drafts = [found.lines for word, found in asked if word == 'queue' and found.refused is None]
        if drafts and event.name in self.clients:
            self.clients[event.name].unsent = len(drafts[0])
            if event.word == 'ticket' and answer.refused is None:
                self.log[before:] = [(event.name, True)] * (unsent - len(drafts[0]))
        self.points.append(self.point(event, answer, range(before, len(self.log))))

    def point(self, event, answer, numbers):
        client = self.clients.get(event.name)
        state = None
        if client and not client.is_guest:
            state = [client.link, client.number, client.minimum, client.pending, client.unsent, client.view]
        return {'line': event.number, 'text': cut(event.line), 'told': told_event(event), 'word': event.word, 'who': event.name,
                'refused': answer.refused, 'wrote': [cut(line) for line in answer.lines], 'log': len(self.log), 'state': state,
                'cells': 'grid' == event.value.get('address'), 'sent': [number + 1 for number in numbers]}

    # ---- what a view says

    def see(self, name, lines, blames):
        client = self.clients.get(name)
        if client is None:
            return
        client.link, client.number, client.minimum, client.pending = head_of(lines[0])
        while len(self.log) < client.number:
            self.log.append((None, False))
        view = view_of(lines[1:])
        runs = [json.loads(line) for line in (blames[0] if blames else [])]
        view['blame'] = [[run['start'], run['end'], run['by'], run['seq']] for run in runs]
        if not runs and client.view is not None and self.views[client.view] == dict(view, blame=self.views[client.view]['blame']):
            return                                  # it is as it was, and its authors are known
        key = line_of(view)
        if key not in self.view_places:
            self.view_places[key] = len(self.views)
            self.views.append(view)
        client.view = self.view_places[key]

    # ---- what the events say

    def take_nothing(self, event):
        pass

    def take_start(self, event):
        other = self.clients.get(event.text_of('from'))
        client = self.clients[event.name] = Client(False, other.number if other else 0)
        client.view = other.view if other else None

    def take_guest(self, event):
        self.clients[event.name] = Client(True, 0)
        self.log.append((event.name, False))

    def take_connect(self, event):
        self.log.append((event.name, False))
        client = self.clients[event.name]
        client.link, client.joined_at = 'joining', len(self.log)

    def take_drop(self, event):
        self.log.append((event.name, False))
        client = self.clients[event.name]
        client.link, client.unsent = 'offline', 0

    def take_edit(self, event):
        client = self.clients[event.name]
        client.pending += 1
        client.unsent += client.link == 'online'

    def take_noop(self, event):
        self.clients[event.name].unsent += 1

    def take_ticket(self, event):
        client = self.clients[event.name]
        count = event.value.get('count', 1)
        count = client.unsent if count == 'all' else min(count, client.unsent)
        client.unsent -= count
        self.log += [(event.name, True)] * count

    def take_deliver(self, event):
        client = self.clients[event.name]
        count = event.value.get('count', 1)
        last = len(self.log) if count == 'all' else client.number + count
        own = sum(name == event.name and is_edit for name, is_edit in self.log[client.number:last])
        client.pending = max(0, client.pending - own)
        client.number = last
        if client.link == 'joining' and client.joined_at <= last:
            client.link, client.unsent = 'online', client.pending

    def take_offer(self, event):
        self.take_deliver(Event(event.number, line_of({'client': event.name, 'do': 'deliver'})))

    def take_submit(self, event):
        self.log.append((event.name, True))

    take_part = take_submit

    # ---- the data of the page

    def data(self, title):
        senders = {number: name for point in self.points for number in point['sent'] for name in [point['who']]}
        told = {message['sequenceNumber']: message for message in self.messages}
        messages = []
        for number in range(1, len(self.log) + 1):
            message = told.get(number)
            messages.append([senders.get(number), told_message(message) if message else ''])
        names = [[name, client.is_guest] for name, client in self.clients.items()]
        return {'title': title, 'names': names, 'points': self.points, 'views': self.views, 'messages': messages}


# ---- asking

def run(program, lines):
    try:
        given = ''.join(line + '\n' for line in lines).encode(errors='surrogateescape')
        found = subprocess.run([program, 'session'], input=given, stdout=subprocess.PIPE)
    except OSError as fault:
        sys.exit(f'{program}: {fault.strerror}')
    if found.returncode > 1:
        sys.exit(f'{program} ended with status {found.returncode}')
    return found.stdout.decode()


def asked_lines(events, lengths):
    """The lines of the session with those that are asked, and to which event each belongs; of the last one, to none."""
    found = []
    for event, length in zip(events, lengths):
        found.append((event, event.word, event.line))
        found += [(event, question['do'], line_of(question)) for question in questions_of(event, length)]
    return found + [(None, 'history', '{"do":"history"}')]


def answers_of(lines, report):
    """Of each event what it wrote, and the words and answers of what was asked behind it."""
    found, last = [], None
    for number, (event, word, _) in enumerate(lines, 1):
        answer = report.answer(number, word)
        if event is None:
            return found, answer
        if event is last:
            found[-1][2].append((word, answer))
        else:
            found.append((event, answer, []))
        last = event
    return found, None


def asked_course(program, events):
    lengths = [0] * len(events)
    for _ in range(2):                              # the first answers tell how long each text is
        lines = asked_lines(events, lengths)
        found, messages = answers_of(lines, Report(run(program, [line for _, _, line in lines])))
        lengths = [length_shown(asked) for _, _, asked in found]
    course = Course()
    for event, answer, asked in found:
        course.take(event, answer, asked)
    course.messages = [json.loads(line) for line in messages.lines]
    return course


def length_shown(asked):
    return next((length_of(view_of(answer.lines[1:])) for word, answer in asked if word == 'show' and answer.lines), 0)


def told_course(events, text):
    report, course, answers = Report(text), Course(), []
    for event in events:
        answers.append(report.answer(event.number, event.word))
    if not COUNTS.fullmatch('\n'.join(report.lines[report.place:])):
        raise ValueError('lines are left that no event wrote')
    for place, (event, answer) in enumerate(zip(events, answers)):
        course.take(event, answer, blame_of(events, answers, place))
    return course


def blame_of(events, answers, place):
    """The blame of a whole text that a session asks for directly behind its view."""
    for event, answer in zip(events[place + 1:place + 3], answers[place + 1:place + 3]):
        if events[place].word == 'show' and event.word == 'blame' and event.name == events[place].name and event.value.get('start') == 0:
            return [('blame', answer)]
    return []


# ---- the page

def page_of(data):
    with open(PAGE, encoding='utf-8') as file:
        page = file.read()
    return page.replace('@DATA@', json.dumps(data, separators=(',', ':')).replace('<', '\\u003c'))


def course_of(events, program, report):
    """The course of the session, by its report where there is one, and else by asking the program."""
    if report is None:
        return asked_course(program, events)
    with open(report, encoding='utf-8') as file:
        text = file.read()
    try:
        return told_course(events, text)
    except (ValueError, LookupError):
        sys.exit(f'{report} is no report of this session')


def main(words):
    program, report = PROGRAM, None
    if len(words) == 3 and words[0] == '--program':
        program = words[1]
    elif len(words) == 3 and words[0] == '--report':
        report = words[1]
    elif len(words) != 1 or words[0].startswith('-'):
        print(__doc__, file=sys.stderr)
        sys.exit(2)
    try:
        with open(words[-1], 'rb') as file:
            events = events_of(file.read())
        page = page_of(course_of(events, program, report).data(os.path.basename(words[-1])))
        sys.stdout.buffer.write(page.encode())
        sys.stdout.flush()
    except UnicodeDecodeError:
        sys.exit(f'{report} is no UTF-8')
    except BrokenPipeError:
        os.dup2(os.open(os.devnull, os.O_WRONLY), sys.stdout.fileno())
        sys.exit(1)
    except OSError as fault:
        sys.exit(f'{fault.filename or "standard output"}: {fault.strerror}')


if __name__ == '__main__':
    main(sys.argv[1:])
