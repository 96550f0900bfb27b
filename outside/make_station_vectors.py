#!/usr/bin/env python3
"""Makes the vectors of the scheduler: crates/station_vectors/stdin, and the answers that the model expects in stdout beside it.

    python3 outside/make_station_vectors.py             rewrites both files and counts sequences, states, events and answers
    python3 outside/make_station_vectors.py --check     exits with 1 if the files differ from what the model makes

The input is a sequence of records: a byte for the kind, a length in two bytes, and that many bytes. Numbers have the high byte first.
One state and one stack memory are kept; each record changes them.

    1      fresh state    length of the stack memory (4), then a table as its arrays hold it: size (2), resource count (1), 8 units (2 each),
                          job count (1), then 32 times level (1), frame (2), 8 needs (2 each). The state becomes that table's fresh
                          state, the memory a new one.
    2      table by hand  the same without the length; its arrays and counts are stored into the state, whose stack and waiting jobs stay
    3      state by hand  depth (1), then 32 times job (1), 8 held (2 each); waiting count (1), then 32 jobs (1 each); stored into the
                          state, whose table stays. The memory is given its pattern again.
    4      memory         length (4) of a new memory
    5      ceiling        resource (1) whose ceiling is asked for
    11-15  (hex) event    in its tagged form; it is applied

A new memory has the pattern 1, 2, .. 251, 1, 2, .. After each line the running job's frame is filled, by way of `running_frame`, with
the byte 1 + n mod 255, where n counts the lines since the memory was given its pattern. So no byte of it is zero that no start has cleared.

The output has a line for each record. A reader that is refused gives `r` and the number.

    FIRST RUNNING CEILING WAITING WORD LENGTH DIGEST

    FIRST      of an event the answer, 0 or the refusal's number, and the job started or '-'; else `fresh` and 0 or the refusal's number,
               `table` or `state` and `well` or `ill` for a state that is well formed or not, `memory -`, `ceiling` and the ceiling asked for
    RUNNING    the running job or '-'; then the system ceiling, the number waiting, the waiting word
    LENGTH     the running job's frame's length
    DIGEST     before the frame is filled

The digest is the 32-bit FNV-1a over the state as in the records 1 to 3 (the table from its size on, then depth, stack, waiting count
and waiting jobs), then over all of the memory.
"""

import copy
import random
import sys
from collections import Counter
from functools import lru_cache
from pathlib import Path

sys.dont_write_bytecode = True

import station_model as model
import tagged_model
from choosing import REFUSALS, TEMPERS, acquires, inactive_jobs, next_event, random_table, refused_event
from station_model import Started, State, started_jobs, top
from tagged_model import JOB_PLACES, RESOURCE_PLACES, Job, Table, make_table, two
from vectors import STATION, STATION_LOG, digest, full_table, held_table, limit_tables, rewrite_or_check, sized

FOLDER = Path(__file__).resolve().parent.parent / "crates" / "station_vectors"
SEED = 20261127
FRESH, TABLE, STATE, MEMORY, CEILING = 1, 2, 3, 4, 5
EVENTS_OF_A_SEQUENCE = 100
# A sequence over a large memory is shorter, so that no more than so many bytes of it are gone over.
BYTES_OF_A_SEQUENCE = 1_000_000


# The lines.


def held_jobs(state):
    """The stack and the waiting jobs as their arrays hold them."""
    data = bytes([state.depth])
    data += b"".join(bytes([started.job]) + b"".join(two(held) for held in started.held) for started in state.stack)
    return data + bytes([state.waiting_count]) + bytes(state.waiting)


# A table and a state mostly stay for some lines.
digest_of_state = lru_cache(64)(digest)


def said(reading, as_word=False):
    """What a reader says: its value, '-' for none, or the refusal."""
    kind, value = reading
    if kind == "refused":
        return f"r{value}"
    if value is None:
        return "-"
    return f"{value:08x}" if as_word else str(value)


class Station:
    """A state and its memory, to which records are given one by one; and the vectors that they make."""

    def __init__(self):
        self.state = State()
        self.memory = bytearray()
        self.lines_since = 0
        self.vectors = []

    def fresh(self, table, memory_length=None):
        length = table.size if memory_length is None else memory_length
        answer, self.state = model.fresh_state(copy.deepcopy(table))
        self.lend(length)
        self.add(FRESH, length.to_bytes(4, "big") + held_table(table), f"fresh {answer}")

    def hold_table(self, table):
        self.state.table = copy.deepcopy(table)
        self.add(TABLE, held_table(table), f"table {self.well()}")

    def hold_state(self, state):
        """Stores the stack and the waiting jobs of a state."""
        held = copy.deepcopy(state)
        held.table, self.state = self.state.table, held
        self.lend(len(self.memory))
        self.add(STATE, held_jobs(state), f"state {self.well()}")

    def hold(self, state):
        """Stores a whole state, and lends a memory of its stack size."""
        self.hold_table(state.table)
        self.lend_memory(state.table.size)
        self.hold_state(state)

    def lend(self, length):
        self.memory = bytearray((bytes(range(1, 252)) * (length // 251 + 1))[:length])
        self.lines_since = 0

    def lend_memory(self, length):
        self.lend(length)
        self.add(MEMORY, length.to_bytes(4, "big"), "memory -")

    def ask(self, resource):
        (answer,) = model.readings(self.state, (model.ceiling, [resource]))
        self.add(CEILING, bytes([resource]), f"ceiling {said(answer)}")

    def well(self):
        return "well" if model.is_well_formed(self.state) else "ill"

    def apply(self, event):
        field = tagged_model.write_event(event, 7)[1]
        answer, started = model.apply(self.state, self.memory, event)
        self.add(field[0], field[3:], f"{answer} {'-' if started is None else started}")

    def add(self, kind, record, first):
        """Adds a record and its line, then fills the frame."""
        state, memory = self.state, self.memory
        running, system, number, word = model.readings(
            state, (model.running, []), (model.system_ceiling, []), (model.number_waiting, []), (model.waiting_word, [])
        )
        start, end = model.running_frame(state, len(memory))
        all_bytes = digest(memory, digest_of_state(held_jobs(state), digest_of_state(held_table(state.table))))
        readers = f"{said(running)} {said(system)} {said(number)} {said(word, as_word=True)}"
        memory[start:end] = bytes([1 + self.lines_since % 255]) * (end - start)
        self.lines_since += 1
        self.vectors.append((kind, record, f"{first} {readers} {end - start} {all_bytes:08x}"))


# Sequences from a fresh state.


def ask_each(station):
    """Asks for the ceiling of each resource, of the one after them, and of 255."""
    for resource in [*range(min(station.state.table.resource_count, RESOURCE_PLACES) + 1), 255]:
        station.ask(resource)


def play(rng, station, temper, count):
    """Applies events that are chosen for the states that they meet, and asks for a ceiling now and then."""
    for _ in range(min(count, max(20, BYTES_OF_A_SEQUENCE // max(1, len(station.memory))))):
        station.apply(next_event(rng, station.state, temper))
        if rng.random() < 0.1:
            station.ask(rng.randint(0, station.state.table.resource_count))


def sequences(rng, station):
    """How many sequences were added."""
    station.fresh(STATION)
    for event in STATION_LOG:
        station.apply(event)
    tables = [STATION] * 12 + limit_tables() + [random_table(rng) for _ in range(180)]
    for place, table in enumerate(tables):
        station.fresh(table)
        play(rng, station, TEMPERS[place % len(TEMPERS)], EVENTS_OF_A_SEQUENCE)
    return 1 + len(tables)


# States made by hand.


def make_state(table, started, waiting):
    """The state with these started jobs, each a pair of the job and what it holds, and these waiting."""
    state = State(table=copy.deepcopy(table))
    model.put_started(state, [Started(job, held + [0] * (RESOURCE_PLACES - len(held))) for job, held in started])
    model.put_waiting(state, list(waiting))
    return state


# Six jobs, two of them at one level, and three resources; two bytes more than the worst stack.
HAND_TABLE = sized(
    make_table(
        1,
        [4, 2, 6],
        [(10, 5, [4, 1, 3]), (20, 7, [3, 2, 0]), (20, 6, [0, 2, 6]), (30, 3, [1, 1, 2]), (40, 4, [1, 0, 6]), (50, 2, [0, 2, 1])],
    ),
    2,
)
# Three started jobs, and two waiting.
HAND_STATE = make_state(HAND_TABLE, [(0, [2, 0, 1]), (1, [1, 1, 0]), (3, [0, 0, 2])], [4, 2])

# 32 jobs, job 0 the lowest, each with a frame and a need of its own; and 32 at one level.
STAIRS = sized(make_table(1, [32, 1], [(10 + 5 * j, 1 + j % 7, [1 + j % 3, j % 2]) for j in range(JOB_PLACES)]))
FLAT = sized(make_table(1, [32], [(77, 1 + j % 9, [1]) for j in range(JOB_PLACES)]), 5)


def never_reached():
    """Well-formed states that no events lead to, or that few lead to."""
    station, hand, stairs, flat = STATION, HAND_TABLE, STAIRS, FLAT
    every = range(JOB_PLACES)
    return [
        HAND_STATE,
        # 18: units are held that the running job still needs.
        make_state(station, [(0, [3]), (1, [0])], []),
        make_state(station, [(0, [4]), (1, [0])], [2]),
        make_state(station, [(0, [2]), (1, [2])], []),
        make_state(station, [(0, [4]), (2, [0])], []),
        make_state(hand, [(0, [4, 1, 3]), (1, [0, 1, 0]), (3, [0, 0, 2]), (4, [0, 0, 1])], [5]),
        # Jobs wait while nothing runs.
        make_state(station, [], [0]),
        make_state(station, [], [2, 1, 0]),
        make_state(hand, [], [5, 2, 1]),
        make_state(flat, [], reversed(every)),
        make_state(flat, [], [*every][:31]),
        make_state(stairs, [], reversed(every)),
        # The head is due to start, and its test was not made; the one behind it too.
        make_state(station, [(0, [0])], [2, 1]),
        make_state(hand, [(0, [0, 0, 0]), (2, [0, 0, 1])], [5, 4, 3]),
        make_state(hand, [(1, [3, 2, 0])], [5]),
        # Equal levels wait in either order; the waiting have the level of the running job, or stand below it.
        make_state(hand, [(0, [0, 0, 3])], [1, 2]),
        make_state(hand, [(0, [0, 0, 3])], [2, 1]),
        make_state(hand, [(2, [0, 0, 0])], [1, 0]),
        make_state(hand, [(5, [0, 2, 1])], [4, 3, 2, 1, 0]),
        # All units are held, each job holds its need.
        make_state(hand, [(0, [4, 1, 3]), (3, [0, 1, 2])], []),
        make_state(hand, [(2, [0, 2, 6])], [1]),
        # Every job is on the stack; half of them; one among those that wait.
        make_state(stairs, [(j, [1, 0]) for j in every], []),
        make_state(stairs, [(j, [0, int(j == 31)]) for j in every], []),
        make_state(stairs, [(j, [1, 0]) for j in range(0, 32, 2)], range(31, 0, -2)),
        make_state(stairs, [(30, [1, 0])], [31] + [*range(29, 0, -1)]),
        make_state(flat, [(16, [1])], [j for j in every if j not in (3, 16)]),
        make_state(full_table(), [(2, [0] * 8), (31, [1, 2, 0, 10, 100, 0, 999, 1000])], [30, 7]),
        make_state(full_table(), [], []),
    ]


def random_state(rng):
    """A well-formed state."""
    table = random_table(rng)
    state = make_state(table, [], [])
    jobs = rng.sample(range(table.job_count), rng.randint(0, table.job_count))
    below, started = 0, []
    for job in sorted(jobs[: rng.randint(0, len(jobs))], key=lambda job: table.jobs[job].level):
        if table.jobs[job].level > below:
            below = table.jobs[job].level
            held = []
            for r in range(table.resource_count):
                free = table.units[r] - sum(other[1][r] for other in started)
                most = min(table.jobs[job].needs[r], free)
                held.append(rng.choice([0, most, rng.randint(0, most)]))
            started.append((job, held))
    on_stack = [job for job, _ in started]
    waiting = sorted((job for job in jobs if job not in on_stack), key=lambda job: -table.jobs[job].level)
    return make_state(table, started, waiting[: rng.choice([len(waiting), len(waiting), 1])])


def lacks_units(state):
    """Does the running job need more of a resource than is free, so that 18 may be answered?"""
    running, resources = top(state), range(state.table.resource_count)
    needs = state.table.jobs[running.job].needs if running else []
    return running is not None and any(needs[r] - running.held[r] > model.free_units(state, r) for r in resources)


def random_states(rng, count, wanted):
    """So many well-formed states that are as wanted."""
    states = []
    while len(states) < count:
        state = random_state(rng)
        if wanted(state):
            states.append(state)
    return states


def hand_made(rng, station):
    """How many well-formed states were added. Each is met first by events that are refused, and so is asked for 18 many times."""
    states = never_reached() + random_states(rng, 60, lambda state: True) + random_states(rng, 40, lacks_units)
    for place, state in enumerate(states):
        assert model.is_well_formed(state)
        station.hold(state)
        ask_each(station)
        for number in REFUSALS:
            for event in (refused_event(rng, station.state, model.ABOVE_FREE), refused_event(rng, station.state, number)):
                if event:
                    station.apply(event)
        # An acquire makes no start test, even where the head is due to start.
        for name, job, resource, _ in list(acquires(rng, station.state)):
            station.apply((name, job, resource, 1))
        play(rng, station, TEMPERS[place % len(TEMPERS)], 16)
    return len(states)


# States that break one part of the sentence.


def changed(state, change):
    state = copy.deepcopy(state)
    change(state)
    return state


def broken_tables():
    """Tables that can't be written, inside of a state: counts (2), values and what stands past the counts (4), the worst stack (5)."""
    changes = [lambda table, n=n: setattr(table, "resource_count", n) for n in (9, 10, 255)]
    changes += [lambda table, n=n: setattr(table, "job_count", n) for n in (0, 33, 34, 255)]
    changes += [lambda table: setattr(table, "size", 0)]
    changes += [lambda table, n=n, r=r: table.units.__setitem__(r, n) for r in (0, 2) for n in (0, 1001, 65535)]
    changes += [lambda table, r=r: table.units.__setitem__(r, 1) for r in (3, 7)]
    for j in (0, 5):
        changes += [lambda table, j=j: setattr(table.jobs[j], "level", 0), lambda table, j=j: setattr(table.jobs[j], "frame", 0)]
        changes += [lambda table, j=j, r=r: table.jobs[j].needs.__setitem__(r, 7) for r in (0, 2)]
        changes += [lambda table, j=j, r=r: table.jobs[j].needs.__setitem__(r, 1) for r in (3, 7)]
    for j in (6, 31):
        changes += [lambda table, j=j: setattr(table.jobs[j], "level", 1), lambda table, j=j: setattr(table.jobs[j], "frame", 1)]
        changes += [lambda table, j=j: table.jobs[j].needs.__setitem__(0, 1), lambda table, j=j: table.jobs.__setitem__(j, Job(1, 1))]
    changes += [lambda table: setattr(table, "size", table.size - 3), lambda table: setattr(table, "size", 1)]
    changes += [lambda table: setattr(table.jobs[4], "frame", table.jobs[4].frame + 3)]
    for table_change in changes:
        yield changed(HAND_STATE, lambda state: table_change(state.table))


def broken_counts():
    """Counts above the arrays, these full and not."""
    full_stack = make_state(STAIRS, [(j, [0, 0]) for j in range(JOB_PLACES)], [])
    all_wait = make_state(STAIRS, [], range(31, -1, -1))
    for n in (33, 34, 64, 128, 255):
        for state in (full_stack, HAND_STATE, make_state(STATION, [], [])):
            yield changed(state, lambda state: setattr(state, "depth", n))
        for state in (all_wait, HAND_STATE, make_state(STATION, [], [])):
            yield changed(state, lambda state: setattr(state, "waiting_count", n))


def past_the_counts():
    """An entry past a count that is not zero: on the stack, among its held units, among the waiting."""
    empty = make_state(HAND_TABLE, [], [])
    for state in (HAND_STATE, empty):
        for place in sorted({state.depth, state.depth + 1, 15, 30, 31}):
            for job in (1, 5, 255):
                yield changed(state, lambda state: setattr(state.stack[place], "job", job))
            for r in (0, 2, 3, 7):
                yield changed(state, lambda state: state.stack[place].held.__setitem__(r, 1))
        for place in sorted({state.waiting_count, state.waiting_count + 1, 15, 30, 31}):
            for job in (1, 5, 255):
                yield changed(state, lambda state: state.waiting.__setitem__(place, job))
    for place in range(HAND_STATE.depth):
        for r in range(HAND_TABLE.resource_count, RESOURCE_PLACES):
            yield changed(HAND_STATE, lambda state: state.stack[place].held.__setitem__(r, 1))
    bare = make_state(make_table(9, [], [(1, 9, [])]), [(0, [])], [])
    yield changed(bare, lambda state: state.stack[0].held.__setitem__(0, 1))


def broken_jobs():
    """Jobs that aren't listed; jobs that stand twice."""
    for job in (6, 7, 31, 32, 33, 127, 128, 255):
        yield make_state(HAND_TABLE, [(job, [])], [])
        yield make_state(HAND_TABLE, [(job, []), (3, [])], [2])
        yield make_state(HAND_TABLE, [(0, []), (job, [])], [2])
        yield make_state(HAND_TABLE, [], [job])
        yield make_state(HAND_TABLE, [(0, [])], [4, 2, job])
        yield make_state(HAND_TABLE, [(0, [])], [job, 4, 2])
    for job in (0, 3, 5):
        yield make_state(HAND_TABLE, [(job, []), (job, [])], [])
    yield make_state(HAND_TABLE, [(0, []), (3, []), (0, [])], [])
    yield make_state(HAND_TABLE, [], [2, 2])
    yield make_state(HAND_TABLE, [(0, [])], [4, 2, 1, 2])
    yield make_state(HAND_TABLE, [(3, [])], [5, 0, 0])
    yield make_state(HAND_TABLE, [(3, [])], [3])
    yield make_state(HAND_TABLE, [(0, []), (2, []), (5, [])], [4, 2])
    yield make_state(HAND_TABLE, [(0, []), (2, []), (5, [])], [5, 1])
    yield make_state(HAND_TABLE, [(0, []), (2, []), (5, [])], [1, 0])
    yield make_state(FLAT, [(31, [])], range(JOB_PLACES))
    yield make_state(FLAT, [], [*range(31), 30])


def broken_orders():
    """Levels that are equal or fall up the stack; levels that rise among the waiting."""
    for started in ([1, 2], [2, 1], [3, 0], [0, 1, 2], [0, 2, 1, 5], [0, 3, 1], [1, 0, 3, 5], [0, 1, 3, 5, 4]):
        yield make_state(HAND_TABLE, [(job, []) for job in started], [])
    for waiting in ([2, 3], [0, 1], [4, 2, 5], [5, 4, 2, 3], [5, 4, 3, 2, 0, 1], [3, 4, 2]):
        yield make_state(HAND_TABLE, [], waiting)
    every = [*range(JOB_PLACES)]
    yield make_state(STAIRS, [(j, []) for j in every[:30] + [31, 30]], [])
    yield make_state(STAIRS, [], every[:1:-1] + [0, 1])
    yield make_state(STAIRS, [], [30, 31] + every[29::-1])


def broken_holdings():
    """Held above the need, at each place of the stack; held above the units in sum, each job within its need."""
    for place, started in enumerate(started_jobs(HAND_STATE)):
        for r in range(HAND_TABLE.resource_count):
            need = HAND_TABLE.jobs[started.job].needs[r]
            for held in (need + 1, 65535):
                yield changed(HAND_STATE, lambda state: state.stack[place].held.__setitem__(r, held))
    yield make_state(HAND_TABLE, [(0, [2]), (1, [3])], [])
    yield make_state(HAND_TABLE, [(0, [0, 1]), (1, [0, 1]), (3, [0, 1])], [])
    yield make_state(HAND_TABLE, [(0, [0, 0, 1]), (4, [0, 0, 6])], [])
    yield make_state(HAND_TABLE, [(2, [0, 0, 6]), (3, [0, 0, 1])], [5])
    yield make_state(HAND_TABLE, [(0, [4, 1, 3]), (1, [3, 2, 0])], [])
    yield make_state(STAIRS, [(j, [1 + j % 3]) for j in range(JOB_PLACES)], [])
    # So much in sum that it is more than two bytes hold.
    wide = sized(make_table(1, [3, 1000], [(1 + j, 1, [0, 1000]) for j in range(JOB_PLACES)]))
    yield make_state(wide, [(j, [0, 500]) for j in range(3)], [])
    yield make_state(wide, [(j, [0, 1000]) for j in range(JOB_PLACES)], [])
    yield changed(make_state(wide, [(j, [0, 0]) for j in range(JOB_PLACES)], []), lambda state: hold_each(state, [2048] * 32))
    yield changed(make_state(wide, [(j, [0, 0]) for j in range(JOB_PLACES)], []), lambda state: hold_each(state, [65535, 1] + [0] * 30))


def hold_each(state, held):
    """Each started job holds so many units of resource 1."""
    for started, units in zip(state.stack, held):
        started.held[1] = units


def broken_states():
    for groups in (broken_tables, broken_counts, past_the_counts, broken_jobs, broken_orders, broken_holdings):
        yield from groups()


def some_of_each(state):
    """An event of each kind, of the running job and of an inactive one if the state has them, and an event of an unlisted job."""
    running = top(state).job if top(state) else 0
    inactive = next(iter(inactive_jobs(state)), 0)
    return [("arrive", inactive), ("acquire", running, 0, 1), ("release", running, 0, 1), ("release_all", running), ("finish", running), ("arrive", 255)]


def broken(station):
    """How many states break which part. Each is met by events with the right memory, and one with a memory too short (10 before 11)."""
    parts = Counter()
    for place, state in enumerate(broken_states()):
        parts[model.first_broken_part(state).__name__] += 1
        if station.state.table != state.table:
            station.hold_table(state.table)
        if len(station.memory) != state.table.size:
            station.lend_memory(state.table.size)
        station.hold_state(state)
        events = some_of_each(state)
        for event in events if place % 3 == 0 else [events[place % 6], events[(place + 1) % 6]]:
            station.apply(event)
        if place % 8 == 0:
            ask_each(station)
            station.lend_memory(state.table.size + 1)
            station.apply(events[place % 5])
            station.apply(events[5])
    return parts


def refused_tables(station):
    """Fresh states that are refused, with 2, 4 and 5; the state of zeros that is handed back takes events."""
    for state in broken_tables():
        station.fresh(state.table)
        station.apply(("arrive", 0))
    station.fresh(Table())
    station.apply(("finish", 0))


# Memories of the wrong length.


def wrong_memories(rng, station):
    for state in (make_state(STATION, [], []), make_state(STATION, [(0, [2])], [1]), HAND_STATE, make_state(STAIRS, [(3, [1])], [5])):
        size = state.table.size
        station.hold(state)
        play(rng, station, TEMPERS[3], 4)
        for length in (size - 1, size + 1, 0, 1, 2 * size, size + 65536):
            station.lend_memory(length)
            for event in some_of_each(station.state):
                station.apply(event)
        # The state went through all of it as it was.
        station.lend_memory(size)
        play(rng, station, TEMPERS[3], 12)
    for length in (0, 89, 91, 65535):
        station.fresh(STATION, length)
        for event in STATION_LOG[:3] + [("arrive", 3), ("finish", 255)]:
            station.apply(event)
        station.lend_memory(90)
        for event in STATION_LOG:
            station.apply(event)


# All of them.


def print_counts(vectors, sequences, events_of_them, well_formed, broken_by_part):
    print(f"sequences from a fresh state: {sequences}, of {events_of_them} events")
    print(f"states by hand: {well_formed} well-formed, {sum(broken_by_part.values())} broken")
    print("broken by part: " + ", ".join(f"{name} {count}" for name, count in broken_by_part.items()))
    events = [line.split()[:2] for kind, _, line in vectors if kind > CEILING]
    answers = Counter(int(answer) for answer, _ in events)
    kinds = Counter(kind for kind, _, _ in vectors)
    fresh = Counter(line.split()[1] for kind, _, line in vectors if kind == FRESH)
    print(f"events: {len(events)}; starts: {sum(started != '-' for _, started in events)}")
    print("answers: " + ", ".join(f"{answer}: {count}" for answer, count in sorted(answers.items())))
    print("fresh states: " + ", ".join(f"{answer}: {count}" for answer, count in sorted(fresh.items())))
    print(f"tables by hand: {kinds[TABLE]}; states by hand: {kinds[STATE]}; memories: {kinds[MEMORY]}; ceilings: {kinds[CEILING]}")
    print(f"vectors: {len(vectors)}")


def check_model_by_the_paper():
    """The rules' own log, before anything is made from the model."""
    rows = [
        "0 0 0 10 0 00000000", "0 - 0 20 0 00000000", "0 - 0 20 1 00000002", "0 2 2 30 1 00000002", "0 - 2 30 1 00000002",
        "20 - 2 30 1 00000002", "0 - 2 30 1 00000002", "0 - 0 20 1 00000002", "0 1 1 20 0 00000000", "0 - 1 30 0 00000000",
        "13 - 1 30 0 00000000",
    ]  # fmt: skip
    station = Station()
    station.fresh(STATION)
    for event, row in zip(STATION_LOG, rows, strict=True):
        station.apply(event)
        assert station.vectors[-1][2].startswith(row + " ")
    assert [model.ceiling_with(STATION, 0, free) for free in (4, 3, 2, 1, 0)] == [0, 10, 20, 20, 30]
    assert model.fresh_state(make_table(89, [4], [(10, 40, [4]), (20, 30, [3]), (30, 20, [1])]))[0] == 5


def main():
    check_model_by_the_paper()
    station, rng = Station(), random.Random(SEED)
    count = sequences(rng, station)
    events = sum(kind > CEILING for kind, _, _ in station.vectors)
    well_formed = hand_made(rng, station)
    broken_by_part = broken(station)
    refused_tables(station)
    wrong_memories(rng, station)
    return rewrite_or_check(FOLDER, station.vectors, lambda vectors: print_counts(vectors, count, events, well_formed, broken_by_part))


if __name__ == "__main__":
    sys.exit(main())
