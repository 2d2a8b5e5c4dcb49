"""report.py: reads a session from standard input, and writes its report. Ends with 1 where something was refused."""

import sys

import vemiktag

told, done = vemiktag.report(sys.stdin.buffer.read())
sys.stdout.buffer.write(told)
sys.exit(0 if done else 1)
