"""session.py: reads the events of a session from standard input, and writes what each of them writes as soon as it is heard.
Ends with 1 where something was refused."""

import sys

import vemiktag

with vemiktag.Session() as session:
    for event in sys.stdin.buffer:
        sys.stdout.buffer.write(session.line(event.rstrip(b"\n"))[0])
    told, done = session.end()
    sys.stdout.buffer.write(told)
sys.exit(0 if done else 1)
