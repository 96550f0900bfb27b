#!/usr/bin/env python3
"""Writes the example log of docs/RULES.md, a table and eleven events, to standard output.

    python3 outside/write_example.py > example.log

For a log of your own, copy this file in its folder, and change the table and the events in the copy. Nothing is refused here: a table
or an event that breaks a rule is written as it stands, and replay answers it. Only the numbers have to fit their bytes, and there are no
more than 32 jobs and 8 resources.
"""

import sys

sys.dont_write_bytecode = True

from tagged_model import make_table, table_bytes, write_event

# The stack size; the units of each resource; then the jobs, numbered from 0, each with its level, its frame, and its need of each
# resource.
TABLE = make_table(90, [4], [(10, 40, [4]), (20, 30, [3]), (30, 20, [1])])

# "arrive", "finish" and "release_all" name a job; "acquire" and "release" a job, a resource and an amount.
EVENTS = [
    ("arrive", 0),
    ("acquire", 0, 0, 2),
    ("arrive", 1),
    ("arrive", 2),
    ("acquire", 2, 0, 1),
    ("finish", 2),
    ("release", 2, 0, 1),
    ("finish", 2),
    ("release", 0, 0, 1),
    ("acquire", 1, 0, 3),
    ("arrive", 0),
]


def event_bytes(event):
    """An event's bytes, of which there are at most seven."""
    _, data = write_event(event, 7)
    return data


def log_bytes(table, events):
    """A log: the bytes of its table, then those of each event."""
    return table_bytes(table) + b"".join(event_bytes(event) for event in events)


if __name__ == "__main__":
    sys.stdout.buffer.write(log_bytes(TABLE, EVENTS))
