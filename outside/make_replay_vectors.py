#!/usr/bin/env python3
"""Makes the vectors of replay: crates/replay_vectors/stdin, and the outputs that the model expects in stdout beside it; and those two
files of crates/replay, the example log and its lines.

    python3 outside/make_replay_vectors.py             rewrites the four files and counts the logs by kind and outcome
    python3 outside/make_replay_vectors.py --check     exits with 1 if the files differ from what the model makes

The input is a sequence of records: a byte for the kind, a length in two bytes, and that many bytes. Numbers have the high byte first.

    1  log                         the log
    2  log and buffer              length of the buffer (4), then the log
    3  long log                    length of the log (4), length of its front (2), its front, and what follows the front again and again
    4  long log and buffer         length of the buffer (4), then as 3

The buffer of a log of the kinds 1 and 3 has 12 bytes for each byte of the log, 65,536 of them at most, and 96 besides. A shorter one is
refused with 6; one for a log that is too long is refused only if it is shorter than 96, since its output is one line.

The output for each record is one of these; a text of more than 2,000 bytes is given as the second.

    N bytes; rest kept                      and the text, of N bytes
    N bytes; rest kept; digest DIGEST       and the text's first and last line
    refused 6; buffer kept

The digest is the 32-bit FNV-1a over the text. Each byte of a buffer is EE before the replay: 'rest kept' says that those behind the text
still are, 'buffer kept' that all are.
"""

import random
import sys
from collections import Counter
from pathlib import Path

sys.dont_write_bytecode = True

import replay_model
import station_model
import write_example
from choosing import REFUSALS, TEMPERS, acquires, next_event, random_table, refused_event, releases
from replay_model import MOST_BYTES
from station_model import top
from tagged_model import EVENT_TAG, make_field, make_table, table_bytes, two, write_event
from vectors import STATION, STATION_LOG, damaged, digest, full_table, joined, limit_tables, rewrite_or_check, sized, split_fields, with_byte

CRATES = Path(__file__).resolve().parent.parent / "crates"
SEED = 20261128
LOG, LOG_AND_BUFFER, LONG_LOG, LONG_LOG_AND_BUFFER = 1, 2, 3, 4
KIND_NAMES = {LOG: "logs", LOG_AND_BUFFER: "logs and buffers", LONG_LOG: "long logs", LONG_LOG_AND_BUFFER: "long logs and buffers"}
# A longer text is given by its digest and its ends.
LONGEST_WHOLE = 2000


# The vectors: (kind, bytes of the record, expected lines).

# What the model prints for each log.
texts = {}


def text_of(log):
    if log not in texts:
        texts[log] = replay_model.replay(log)
    return texts[log]


def buffer_length(log):
    """The length of the buffer of a log whose record gives none."""
    return 12 * min(len(log), MOST_BYTES) + 96


def least_buffer(log):
    """The length of the shortest buffer that isn't refused."""
    return 96 if len(log) > MOST_BYTES else buffer_length(log)


def expected(log, buffer):
    if buffer < least_buffer(log):
        return "refused 6; buffer kept"
    text = text_of(log)
    head = f"{len(text)} bytes; rest kept"
    lines = text.splitlines()
    if len(text) > LONGEST_WHOLE:
        return "\n".join([f"{head}; digest {digest(text.encode()):08x}", lines[0], lines[-1]])
    return "\n".join([head, *lines])


def replays(log):
    return LOG, log, expected(log, buffer_length(log))


def replays_into(log, buffer):
    return LOG_AND_BUFFER, four(buffer) + log, expected(log, buffer)


def long_log(length, front, again):
    return (front + again * (length // len(again) + 1))[:length]


def long_record(length, front, again):
    return four(length) + two(len(front)) + front + again


def replays_long(length, front, again):
    log = long_log(length, front, again)
    return LONG_LOG, long_record(length, front, again), expected(log, buffer_length(log))


def replays_long_into(length, front, again, buffer):
    log = long_log(length, front, again)
    return LONG_LOG_AND_BUFFER, four(buffer) + long_record(length, front, again), expected(log, buffer)


def four(n):
    return n.to_bytes(4, "big")


# Logs.


def event_bytes(event):
    return write_event(event, 7)[1]


def events_bytes(events):
    return b"".join(event_bytes(event) for event in events)


def log_bytes(table, events):
    return table_bytes(table) + events_bytes(events)


STATION_BYTES = table_bytes(STATION)
STATION_LOG_BYTES = log_bytes(STATION, STATION_LOG)


class Run:
    """Events that are applied to a table's fresh state as they are chosen; the largest number of started jobs is kept."""

    def __init__(self, table):
        self.table = table
        _, self.state = station_model.fresh_state(table)
        self.memory = bytearray(table.size)
        self.events = []
        self.deepest = 0

    def apply(self, *events):
        for event in events:
            station_model.apply(self.state, self.memory, event)
            self.events.append(event)
            self.deepest = max(self.deepest, self.state.depth)

    def play(self, rng, temper, count):
        for _ in range(count):
            self.apply(next_event(rng, self.state, temper))

    def log(self):
        return log_bytes(self.table, self.events)


# 32 jobs, job 0 the lowest; and 32 at one level.
STAIRS = sized(make_table(1, [32, 1], [(10 + 5 * j, 1 + j % 7, [1 + j % 3, j % 2]) for j in range(32)]))
FLAT = sized(make_table(1, [32], [(77, 1 + j % 9, [1]) for j in range(32)]), 5)
# All needs are met at once, so that every job starts over those below it, whatever it holds.
AMPLE = sized(make_table(1, [32, 1000], [(1 + j, 1 + j, [1, 31]) for j in range(32)]))


def tables():
    return [*limit_tables(), STAIRS, FLAT, AMPLE]


# Whole logs.


def paper_logs():
    smaller = STATION_LOG_BYTES[:7] + two(89) + STATION_LOG_BYTES[9:]
    return [replays(log) for log in (STATION_LOG_BYTES, smaller, b"", STATION_BYTES)]


def random_logs(rng):
    """Logs from a fresh state: most of them short, some with many events."""
    for place in range(330):
        run = Run(STATION if place % 15 == 0 else random_table(rng))
        run.play(rng, TEMPERS[place % len(TEMPERS)], rng.choice([10, 25, 40, 60, 60, 75, 200]))
        yield replays(run.log())


def limit_logs(rng):
    """Tables at every limit: alone, and with events."""
    for place, table in enumerate(tables()):
        yield replays(table_bytes(table))
        for temper in (TEMPERS[place % len(TEMPERS)], TEMPERS[4]):
            run = Run(table)
            run.play(rng, temper, 45)
            yield replays(run.log())


def orders(table):
    """The jobs in table order and against it, by rising and by falling level."""
    jobs = [*range(table.job_count)]
    rising = sorted(jobs, key=lambda job: table.jobs[job].level)
    return {tuple(order): None for order in (jobs, jobs[::-1], rising, rising[::-1])}


def give_back(rng, run):
    """The running job gives back all that it holds: at once, or each resource by itself."""
    if rng.random() < 0.5:
        run.apply(("release_all", top(run.state).job))
    while any(top(run.state).held):
        run.apply(next(releases(rng, run.state)))


def whole_run(rng, table, order, takes):
    """Each job arrives, and twice; the running job takes what it may. Then the running job gives back and finishes, until none is left."""
    run = Run(table)
    for job in order:
        run.apply(("arrive", job))
        if takes:
            run.apply(*acquires(rng, run.state))
    run.apply(("arrive", order[0]), ("finish", order[-1]))
    while top(run.state):
        give_back(rng, run) if any(top(run.state).held) else run.apply(("finish", top(run.state).job))
    return run


def whole_runs(rng):
    """Such runs of each table; the deepest has as many started jobs as there are jobs."""
    runs = [whole_run(rng, table, order, takes) for table in tables() for order in orders(table) for takes in (False, True)]
    assert max(run.deepest for run in runs) == 32
    return [replays(run.log()) for run in runs]


def refused_logs(rng):
    """Each refusal number in the midst of a log, several times."""
    for number in REFUSALS:
        for place, table in enumerate([STATION, full_table(), STAIRS, FLAT] + [random_table(rng) for _ in range(4)]):
            run = Run(table)
            for _ in range(6):
                run.play(rng, TEMPERS[place % 4], 5)
                event = refused_event(rng, run.state, number)
                run.apply(*([event] if event else []))
            yield replays(run.log())


# Tables that are refused.


def bad_fields(tag, value):
    """A field with one thing wrong with it: tag (2), length (3), cut (1), value (4)."""
    yield make_field(9, value)
    yield make_field(0x11, value)
    yield make_field(tag, value + b"\x01")
    yield bytes([tag]) + two(len(value) + 256) + value
    for zeros in (bytes(len(value)), b"\xff" * len(value)):
        if value and tag != 4:
            yield make_field(tag, zeros)
    if tag == 4:
        yield make_field(tag, b"\x00" + value[1:])
        yield make_field(tag, value[:1] + two(0) + value[3:])
        yield make_field(tag, value[:-2] + two(1001))


def refused_tables():
    """A bad field at each place of a table, with events behind; the table cut at that field; a worst stack above the stack size."""
    events = events_bytes(STATION_LOG[:4])
    wide = make_table(200, [4, 1000], [(1, 60, [4, 1000]), (2, 70, [0, 1])])
    for table in (STATION, wide):
        fields = split_fields(table_bytes(table))
        for place, (tag, value) in enumerate(fields):
            before, behind = joined(fields[:place]), joined(fields[place + 1 :])
            for bad in bad_fields(tag, value):
                yield replays(before + bad + behind + events)
            for cut in range(1, len(make_field(tag, value)), 3):
                yield replays(before + make_field(tag, value)[:cut])
            # The field is missing, or stands twice.
            yield replays(before + behind + events)
            yield replays(before + make_field(tag, value) * 2 + behind + events)
    for table in tables()[:12] + [STAIRS]:
        for below in (1, 2, 300):
            if table.size > below:
                yield replays(log_bytes(shrunk(table, below), STATION_LOG[:3]))
                yield replays(table_bytes(shrunk(table, below)))


def shrunk(table, below):
    """The table with a stack size so far below its worst stack."""
    fields = split_fields(table_bytes(sized(make_copy(table))))
    size = max(1, int.from_bytes(fields[1][1], "big") - below)
    return make_copy(table, size)


def make_copy(table, size=1):
    jobs = [(job.level, job.frame, job.needs) for job in table.jobs[: table.job_count]]
    return make_table(size, table.units[: table.resource_count], jobs)


# Events that can't be read.


def bad_events():
    """Bytes that are no event: cut (1), a tag that can't stand here (2), a wrong length (3)."""
    for event in (("arrive", 1), ("acquire", 0, 0, 1), ("release", 0, 0, 1), ("finish", 0), ("release_all", 0)):
        data = event_bytes(event)
        yield data[:-1]
        yield data[:2]
        for length in (0, 2, 3, 5, 256 + len(data) - 3):
            yield data[:1] + two(length) + data[3:]
    yield b"\x11"
    for tag in (0x00, 0x01, 0x04, 0x05, 0x10, 0x16, 0x91, 0xFF):
        yield make_field(tag, b"\x01")
        yield make_field(tag, b"\x01\x00\x00\x01")
        yield bytes([tag])
    yield make_field(0x05, b"")
    yield bytes([0x16, 0, 9])
    yield STATION_BYTES


def refused_events():
    """Such bytes behind some events, with nothing and with an event behind them."""
    for place, bad in enumerate(bad_events()):
        for count in (0, 1 + place % 7, 11):
            yield replays(log_bytes(STATION, STATION_LOG[:count]) + bad)
        yield replays(log_bytes(STATION, STATION_LOG[: place % 11]) + bad + event_bytes(("arrive", 2)))
    run = Run(STAIRS)
    run.apply(*[("arrive", job) for job in range(32)])
    for bad in list(bad_events())[::9]:
        yield replays(run.log() + bad + event_bytes(("finish", 31)))


# Damage.

# A log with each kind of event, some of them refused, and two resources.
DAMAGED_TABLE = make_table(60, [3, 300], [(9, 30, [3, 1]), (12, 20, [1, 300]), (12, 30, [0, 2])])
DAMAGED_EVENTS = [
    ("arrive", 0), ("acquire", 0, 0, 3), ("acquire", 0, 1, 1), ("arrive", 1), ("arrive", 2), ("finish", 0), ("release", 0, 1, 1),
    ("release_all", 0), ("acquire", 1, 1, 300), ("release_all", 2), ("release_all", 1), ("finish", 1), ("finish", 2), ("arrive", 3),
]  # fmt: skip
DAMAGED_LOG = log_bytes(DAMAGED_TABLE, DAMAGED_EVENTS)


def truncated_logs():
    return [replays(log[:length]) for log in (DAMAGED_LOG, STATION_LOG_BYTES) for length in range(len(log) + 1)]


def changed_logs(rng):
    for place, byte in enumerate(DAMAGED_LOG):
        yield replays(with_byte(DAMAGED_LOG, place, byte ^ (1 << place % 8)))
        yield replays(with_byte(DAMAGED_LOG, place, rng.choice([byte ^ 1, (byte + 1) % 256, (byte - 1) % 256, rng.randrange(256)])))


def damaged_logs(rng):
    """Random damage: of whole logs, and of their events alone."""
    for place in range(240):
        run = Run(random_table(rng) if place % 3 else STATION)
        run.play(rng, TEMPERS[place % len(TEMPERS)], rng.choice([5, 20, 40]))
        table, events = table_bytes(run.table), events_bytes(run.events)
        yield replays(damaged(rng, table + events) if place % 4 == 0 else table + damaged(rng, events))
    for _ in range(30):
        yield replays(rng.randbytes(rng.randint(1, 40)))
        yield replays(STATION_BYTES + rng.randbytes(rng.randint(1, 20)))
        yield replays(STATION_BYTES + b"".join(make_field(tag, rng.randbytes(1)) for tag in rng.choices(sorted(EVENT_TAG.values()), k=5)))


# Logs at and about 65,536 bytes.


def padding(length):
    """Events of so many bytes, 18 or more: of four bytes and of seven."""
    sevens = next(n for n in range(4) if (length - 7 * n) % 4 == 0)
    return event_bytes(("arrive", 0)) * ((length - 7 * sevens) // 4) + event_bytes(("acquire", 0, 0, 1)) * sevens


def whole_front(table, again):
    """The table and so many bytes of events that, events behind them again and again, a log of 65,536 bytes ends in a whole one."""
    front = table_bytes(table)
    return front + padding(18 + (MOST_BYTES - len(front) - 18) % len(again))


def long_parts(rng):
    """Fronts, each with the events that follow it again and again, so that a log of 65,536 bytes ends in a whole event."""
    parts = [(STATION, events_bytes(STATION_LOG))]
    for table, count in ((STATION, 250), (DAMAGED_TABLE, 2000), (STAIRS, 500)):
        run = Run(table)
        run.play(rng, TEMPERS[count % len(TEMPERS)], count)
        parts.append((table, events_bytes(run.events)))
    return [(whole_front(table, again), again) for table, again in parts]


def long_logs(rng):
    """How the longest logs end: in a whole event, within one, one byte above what is replayed; far above."""
    parts = long_parts(rng)
    for front, again in parts:
        assert outcome(text_of(long_log(MOST_BYTES, front, again))) == "read to the end"
        for length in (MOST_BYTES, MOST_BYTES + 1):
            yield replays_long(length, front, again)
    front, again = parts[0]
    for length in (MOST_BYTES - 1, MOST_BYTES - 4, MOST_BYTES + 2, MOST_BYTES + 3, 70_000, 131_072, 200_000):
        yield replays_long(length, front, again)
    # The last event is cut: four of its bytes stand, or one.
    for count in (1, 3):
        longer = front + event_bytes(("release", 0, 0, 1)) * count
        assert outcome(text_of(long_log(MOST_BYTES, longer, again))) == "events refused 1"
        yield replays_long(MOST_BYTES, longer, again)
    # Neither a table nor an event stands where one is due.
    for length in (MOST_BYTES - 1, MOST_BYTES, MOST_BYTES + 1, 100_000):
        yield replays_long(length, b"", b"\x00")
        yield replays_long(length, STATION_BYTES, b"\x00")
    # The shortest events: each job is started and finished anew; each line is one of the longest.
    again = events_bytes([("arrive", 2), ("finish", 2)])
    yield replays_long(MOST_BYTES, whole_front(STATION, again), again)
    again = event_bytes(("arrive", 31))
    yield replays_long(MOST_BYTES, whole_front(FLAT, again) + events_bytes([("arrive", job) for job in range(1, 32)]), again)


# Buffers.


def short_buffers():
    """Buffers that are too short by one byte, by more, and of no length at all; those that are just long enough; longer ones."""
    cut = STATION_LOG_BYTES[:-1]
    smaller = STATION_BYTES[:7] + two(89) + STATION_BYTES[9:]
    stairs = log_bytes(STAIRS, [("arrive", job) for job in range(32)])
    for log in (b"", b"\x01", STATION_BYTES, smaller, STATION_LOG_BYTES, cut, DAMAGED_LOG, table_bytes(full_table()), stairs):
        least = least_buffer(log)
        for buffer in (least - 1, least, least + 1, least + 1000):
            yield replays_into(log, buffer)
    for log in (b"", STATION_BYTES, STATION_LOG_BYTES):
        for buffer in (0, 1, 48, 95, len(text_of(log))):
            yield replays_into(log, buffer)
    front, again = whole_front(STATION, events_bytes(STATION_LOG)), events_bytes(STATION_LOG)
    for length in (MOST_BYTES, MOST_BYTES + 1):
        least = least_buffer(long_log(length, front, again))
        for buffer in (0, 95, least - 1, least, least + 1):
            yield replays_long_into(length, front, again, buffer)


# All of them.


def all_vectors():
    rng = random.Random(SEED)
    groups = [
        paper_logs(), random_logs(rng), limit_logs(rng), whole_runs(rng), refused_logs(rng),
        refused_tables(), refused_events(), truncated_logs(), changed_logs(rng), damaged_logs(rng), long_logs(rng), short_buffers(),
    ]  # fmt: skip
    # Each vector once, where it stands first.
    return list(dict.fromkeys(vector for group in groups for vector in group))


def outcome(text):
    """How a log ended: too long, refused with a number as a table or among its events, or read to its end."""
    words = text.splitlines()[-1].split()
    if words[0] == "input":
        return "too long"
    return " ".join(words[:3]) if words[1] == "refused" else "read to the end"


def answers_of(of_texts):
    """How often each answer stands in the lines of events."""
    return Counter(int(line.split()[1]) for text in of_texts for line in text.splitlines() if line[0].isdigit())


def check_every_outcome():
    """Among the logs are all ways to end and all answers."""
    tables = {f"table refused {number}" for number in range(1, 6)}
    events = {f"events refused {number}" for number in range(1, 4)}
    assert {outcome(text) for text in texts.values()} == {"too long", "read to the end"} | tables | events
    assert set(answers_of(texts.values())) == {0, *REFUSALS}


def counted(counter):
    return ", ".join(f"{name}: {count}" for name, count in sorted(counter.items()))


def print_counts(vectors):
    kinds = Counter(KIND_NAMES[kind] for kind, _, _ in vectors)
    refused = sum(lines.startswith("refused") for _, _, lines in vectors)
    by_digest = sum("digest" in lines for _, _, lines in vectors)
    print(f"vectors: {len(vectors)} ({counted(kinds)})")
    print(f"buffers too short: {refused}; texts given by a digest: {by_digest}")
    print(f"different logs: {len(texts)} ({counted(Counter(outcome(text) for text in texts.values()))})")
    events = [line.split()[1:] for text in texts.values() for line in text.splitlines() if line[0].isdigit()]
    starts = sum(started != "-" for _, started, *_ in events)
    print(f"events: {len(events)}; starts: {starts}; most waiting: {max(int(event[4]) for event in events)}")
    print(f"answers: {counted(answers_of(texts.values()))}")


def check_model_by_the_paper():
    """The rules' own example, before anything is made from the model."""
    rows = [
        "table jobs 3 resources 1 worst 90",
        "1 0 0 0 10 0 00000000", "2 0 - 0 20 0 00000000", "3 0 - 0 20 1 00000002", "4 0 2 2 30 1 00000002", "5 0 - 2 30 1 00000002",
        "6 20 - 2 30 1 00000002", "7 0 - 2 30 1 00000002", "8 0 - 0 20 1 00000002", "9 0 1 1 20 0 00000000", "10 0 - 1 30 0 00000000",
        "11 13 - 1 30 0 00000000",
    ]  # fmt: skip
    example = write_example.log_bytes(write_example.TABLE, write_example.EVENTS)
    assert example == STATION_LOG_BYTES
    assert replay_model.replay(example).splitlines() == rows
    assert replay_model.replay(example[:7] + two(89) + example[9:]) == "table refused 5 at 41\n"
    assert replay_model.replay(b"") == "table refused 1 at 0\n"
    assert replay_model.replay(bytes(MOST_BYTES + 1)) == "input too long\n"


def main():
    check_model_by_the_paper()
    example = [(CRATES / "replay" / "stdin", STATION_LOG_BYTES), (CRATES / "replay" / "stdout", text_of(STATION_LOG_BYTES).encode())]
    vectors = all_vectors()
    check_every_outcome()
    return rewrite_or_check(CRATES / "replay_vectors", vectors, print_counts, example)


if __name__ == "__main__":
    sys.exit(main())
