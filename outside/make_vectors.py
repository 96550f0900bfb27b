#!/usr/bin/env python3
"""Makes the vectors of the tagged form: crates/tagged_vectors/stdin, and the answers that the model expects in stdout beside it.

    python3 outside/make_vectors.py             rewrites both files and counts the vectors by kind and outcome
    python3 outside/make_vectors.py --check     exits with 1 if the files differ from what the model makes

The input is a sequence of records: a byte for the kind, a length in two bytes, and that many bytes. Numbers have the high byte first.

    1  read a table     the input
    2  write a table    buffer length (2), size (2), resource count (1), 8 units (2 each), job count (1), then 32 times level (1),
                        frame (2), 8 needs (2 each)
    3  read an event    place (2), then the input
    4  write an event   buffer length (2), event 0 to 4 (arrive, acquire, release, finish, release all), job (1), resource (1),
                        amount (2)

The output has a line for each record. The parts of a line are parted by '; '.

    1  took N; size S; units U U ..; job LEVEL FRAME NEED NEED ..; job ..; rest zeros
       refused C at P; table zeros
    2  bytes HEX; rest kept; worst W; judged 0
       refused C; buffer kept; worst W; judged J           where W may be 'refused C'
    3  took arrive JOB; next N                             or acquire JOB RESOURCE AMOUNT, release .., finish JOB, release all JOB
       refused C at P
    4  bytes HEX; rest kept
       refused C; buffer kept

'rest zeros' says that the entries past the counts are zero, 'table zeros' that all of the table handed back is. Each byte of a buffer
is EE before the write: 'rest kept' says that those behind the written ones still are, 'buffer kept' that all are. 'judged' is 0 for a
table that could be written, else the refusal's number.
"""

import copy
import random
import sys
from collections import Counter
from pathlib import Path

sys.dont_write_bytecode = True

import tagged_model as model
from tagged_model import make_field, make_table, two
from vectors import (
    STATION, damaged, full_table, held_table, joined, limit_tables, rewrite_or_check, sized, split_fields, with_byte,
)  # fmt: skip

FOLDER = Path(__file__).resolve().parent.parent / "crates" / "tagged_vectors"
SEED = 20261126
READ_TABLE, WRITE_TABLE, READ_EVENT, WRITE_EVENT = 1, 2, 3, 4
KIND_NAMES = {READ_TABLE: "read a table", WRITE_TABLE: "write a table", READ_EVENT: "read an event", WRITE_EVENT: "write an event"}

# The rules' table of 41 bytes, as docs/RULES.md prints it.
STATION_BYTES = bytes.fromhex(
    "01 00 01 01 02 00 02 00 5A 03 00 02 00 04 04 00 05 0A 00 28 00 04 04 00 05 14 00 1E 00 03 04 00 05 1E 00 14 00 01 05 00 00"
)


# The vectors: lists of (kind, bytes of the record, expected line).


def numbers(values):
    return "".join(f" {value}" for value in values)


def table_text(table):
    resources = table.resource_count
    parts = [f"size {table.size}", "units" + numbers(table.units[:resources])]
    parts += [f"job {job.level} {job.frame}" + numbers(job.needs[:resources]) for job in table.jobs[: table.job_count]]
    return "; ".join(parts)


def reads_table(data):
    answer = model.read_table(data)
    if answer[0] == "took":
        line = f"took {answer[1]}; {table_text(answer[2])}; rest zeros"
    else:
        line = f"refused {answer[1]} at {answer[2]}; table zeros"
    return READ_TABLE, data, line


def written_text(answer):
    if answer[0] == "bytes":
        return f"bytes {answer[1].hex()}; rest kept"
    return f"refused {answer[1]}; buffer kept"


def writes_table(table, buffer_length):
    kind, worst = model.worst_stack(table)
    worst_text = f"worst {worst}" if kind == "sum" else f"worst refused {worst}"
    line = f"{written_text(model.write_table(table, buffer_length))}; {worst_text}; judged {model.judge(table)}"
    return WRITE_TABLE, two(buffer_length) + held_table(table), line


def event_text(event):
    return event[0].replace("_", " ") + numbers(event[1:])


def reads_event(data, at):
    answer = model.read_event(data, at)
    if answer[0] == "took":
        line = f"took {event_text(answer[1])}; next {answer[2]}"
    else:
        line = f"refused {answer[1]} at {answer[2]}"
    return READ_EVENT, two(at) + data, line


def writes_event(event, buffer_length):
    name, job, *units = event
    resource, amount = units or (0, 0)
    record = two(buffer_length) + bytes([model.EVENTS.index(name), job, resource]) + two(amount)
    return WRITE_EVENT, record, written_text(model.write_event(event, buffer_length))


# Tables to start from.


def sizes(*asked):
    """Those that a stack can have, each once."""
    return sorted({size for size in asked if size in model.STACK_SIZE})


def random_table(rng, most_jobs=32):
    """A table that could be written."""
    units = [rng.choice([1, 2, 4, 255, 256, 1000, rng.randint(1, 1000)]) for _ in range(rng.randint(0, 8))]
    levels = [rng.randint(1, 255) for _ in range(rng.randint(1, 6))] + [1, 255]
    jobs = []
    for _ in range(rng.randint(1, most_jobs)):
        needs = [rng.choice([0, u, rng.randint(0, u)]) for u in units]
        jobs.append((rng.choice(levels), rng.choice([1, 255, 256, rng.randint(1, 4000)]), needs))
    return sized(make_table(1, units, jobs), rng.choice([0, 0, 1, 300, 65535]))


# Reading tables.


def paper_reads():
    small = STATION_BYTES[:7] + two(89) + STATION_BYTES[9:]
    return [reads_table(data) for data in (STATION_BYTES, small, b"")]


def limit_reads():
    for table in limit_tables():
        data = model.table_bytes(table)
        yield reads_table(data)
        for behind in (b"\x00", b"\x01", data[:50], b"\x05\x00\x00", b"\x11\x00\x01\x00"):
            yield reads_table(data + behind)


def worst_reads():
    """Stack sizes one below the worst stack, and far below it, with and without bytes behind."""
    far_above = make_table(65535, [2], [(1 + j, 65535, [1]) for j in range(32)])
    for table in limit_tables() + [far_above, make_table(65535, [], [(1, 65535, []), (2, 1, [])])]:
        worst = model.sum_of_worst_frames(table.jobs[: table.job_count])
        for size in sizes(1, worst // 2, worst - 1, worst, worst + 1):
            resized = copy.deepcopy(table)
            resized.size = size
            yield reads_table(model.table_bytes(resized))
    for behind in (b"\x05", b"\x05\x00\x00", STATION_BYTES):
        yield reads_table(model.table_bytes(make_table(1, [], [(9, 2, [])])) + behind)


def truncated_reads():
    wide = model.table_bytes(make_table(50, [9, 8, 7, 6, 5, 4, 3, 1000], [(3, 20, [1] * 8), (4, 30, [0, 8, 7, 6, 5, 4, 3, 1000])]))
    return [reads_table(data[:length]) for data in (STATION_BYTES, wide) for length in range(len(data))]


def flipped_reads():
    for place in range(len(STATION_BYTES)):
        for bit in range(8):
            yield reads_table(with_byte(STATION_BYTES, place, STATION_BYTES[place] ^ (1 << bit)))


def states_of_reading():
    """Beginnings of tables, one for each thing that can have been read last."""
    version, size = make_field(1, b"\x01"), make_field(2, two(1000))
    units = make_field(3, two(4))
    job = make_field(4, b"\x05" + two(10))
    job_one = make_field(4, b"\x05" + two(10) + two(4))
    job_eight = make_field(4, b"\x05" + two(10) + two(4) * 8)
    return {
        "nothing": b"",
        "version": version,
        "size": version + size,
        "one resource": version + size + units,
        "seven resources": version + size + units * 7,
        "eight resources": version + size + units * 8,
        "a job without resources": version + size + job,
        "a job with one": version + size + units + job_one,
        "a job with eight": version + size + units * 8 + job_eight,
        "31 jobs": version + size + units + job_one * 31,
        "32 jobs": version + size + units + job_one * 32,
    }


def tag_reads():
    """Each tag behind each beginning, as a field that is good but for its tag, as one of a wrong length, and cut."""
    values = {1: b"\x01", 2: two(1000), 3: two(4), 4: b"\x06" + two(9) + two(4), 5: b""}
    others = [0, 6, 7, 8, 0x10, 0x11, 0x12, 0x13, 0x14, 0x15, 0x40, 0x7F, 0x80, 0x81, 0x84, 0x85, 0xFE, 0xFF]
    for start in states_of_reading().values():
        for tag in list(values) + others:
            value = values.get(tag, b"\x01")
            yield reads_table(start + make_field(tag, value))
            if tag in values:
                yield reads_table(start + make_field(tag, value) + make_field(5, b""))
                yield reads_table(start + make_field(tag, value + b"\x00"))
                yield reads_table(start + make_field(tag, value)[:-1])
        for cut in (b"", b"\x01", b"\x04\x00", b"\x05\x00"):
            yield reads_table(start + cut)
    for tag in range(256):
        yield reads_table(states_of_reading()["a job with one"] + make_field(tag, b""))


def length_reads():
    """Each wrong length at each field: the value as long as its length says, and the value as it was."""
    for table in (STATION, make_table(90, [4, 1000], [(10, 40, [4, 1000]), (20, 30, [3, 0])]), make_table(1, [], [(1, 1, [])])):
        fields = split_fields(model.table_bytes(table))
        for place, (tag, value) in enumerate(fields):
            before, behind = joined(fields[:place]), joined(fields[place + 1 :])
            right = len(value)
            for length in sorted({*range(10), 19, right + 255, right + 256, 256 * right, 65535} - {right}):
                if length <= 19:
                    yield reads_table(before + make_field(tag, (value + bytes(19))[:length]) + behind)
                yield reads_table(before + bytes([tag]) + two(length) + value + behind)
                yield reads_table(before + bytes([tag]) + two(length))


def value_reads():
    """Each value out of its range, at each field where it can stand; those at the edge of the range beside them."""
    values = {1: [0, 1, 2, 3, 0x81, 255], 2: [0, 1, 255, 256, 65535], 3: [0, 1, 2, 999, 1000, 1001, 1024, 32768, 65535]}
    wide = make_table(200, [1, 2, 255, 256, 257, 999, 1000, 4], [(1, 60, [0] * 8), (2, 70, [1, 2, 255, 256, 257, 999, 1000, 4]), (3, 70, [0] * 8)])
    for table in (STATION, wide):
        fields = split_fields(model.table_bytes(table))
        for place, (tag, value) in enumerate(fields):
            changed = [n.to_bytes(len(value), "big") for n in values.get(tag, [])]
            if tag == 4:
                changed += [bytes([level]) + value[1:] for level in (0, 1, 255)]
                changed += [value[:1] + two(frame) + value[3:] for frame in (0, 1, 255, 256, 65535)]
                for r in range(table.resource_count):
                    units = table.units[r]
                    for need in sorted({0, units - 1, units, units + 1, 256 * units % 65536, 65535}):
                        changed.append(value[: 3 + 2 * r] + two(need) + value[5 + 2 * r :])
            for new in changed:
                yield reads_table(joined(fields[:place] + [(tag, new)] + fields[place + 1 :]))


def first_bad_reads():
    """Two things wrong at once: the first bad field decides, and within a field the order 1, 2, 3, 1, 4."""
    fields = split_fields(STATION_BYTES)
    bad = {
        "tag": lambda tag, value: make_field(9, value),
        "length": lambda tag, value: make_field(tag, value + b"\x01"),
        "value": lambda tag, value: make_field(tag, bytes(len(value)) if tag != 3 else two(1001)),
        "two at once": lambda tag, value: make_field(9, value + b"\x00"),
        "length and value": lambda tag, value: make_field(tag, bytes(len(value) + 1)),
    }
    good = [make_field(tag, value) for tag, value in fields]
    for first in range(len(fields)):
        for name in bad:
            one = list(good)
            one[first] = bad[name](*fields[first])
            for second in range(first, len(fields)):
                for other in ("tag", "length", "value"):
                    both = list(one)
                    if second != first:
                        both[second] = bad[other](*fields[second])
                    yield reads_table(b"".join(both))
            yield reads_table(b"".join(one[: first + 1])[:-1])
    for units in (two(4), two(0)):
        zero_job = make_field(4, b"\x00" + two(0) + two(9))
        start = joined([(1, b"\x01"), (2, two(9)), (3, units)])
        yield reads_table(start + zero_job[:-1])
        yield reads_table(start + zero_job)


def order_reads():
    """Fields in another order, missing, or twice."""
    fields = split_fields(model.table_bytes(make_table(200, [4, 5], [(1, 60, [4, 5]), (2, 70, [0, 1])])))
    for i in range(len(fields)):
        yield reads_table(joined(fields[:i] + fields[i + 1 :]))
        yield reads_table(joined(fields[: i + 1] + fields[i:]))
        for j in range(i):
            swapped = list(fields)
            swapped[i], swapped[j] = swapped[j], swapped[i]
            yield reads_table(joined(swapped))


def random_reads(rng):
    for _ in range(120):
        yield reads_table(model.table_bytes(random_table(rng, 6)) + rng.randbytes(rng.choice([0, 0, 1, 9])))
    for _ in range(500):
        yield reads_table(damaged(rng, model.table_bytes(random_table(rng, 5))))
    for _ in range(60):
        yield reads_table(damaged(rng, model.table_bytes(random_table(rng, 32))))
    for _ in range(80):
        yield reads_table(rng.randbytes(rng.randint(0, 40)))
    for _ in range(80):
        yield reads_table(STATION_BYTES[: rng.choice([4, 9, 14, 22])] + rng.randbytes(rng.randint(0, 20)))


# Writing tables.


def buffers(table):
    """Buffer lengths about the table's length."""
    length = len(model.table_bytes(table))
    return sorted({0, 1, max(length - 1, 0), length, length + 1, length + 60})


def limit_writes():
    for table in limit_tables():
        for buffer_length in buffers(table):
            yield writes_table(table, buffer_length)


def changed_writes(table, change, buffer_lengths=(1000,)):
    table = copy.deepcopy(table)
    change(table)
    return [writes_table(table, buffer_length) for buffer_length in buffer_lengths]


def count_writes():
    """Counts out of range, with values out of range, a worst stack above the size and a short buffer beside them."""

    def counts(resources, jobs, size, level):
        def change(table):
            table.resource_count, table.job_count, table.size = resources, jobs, size
            table.jobs[0].level = level

        return change

    for table in (STATION, full_table()):
        for resources in (0, 1, 7, 8, 9, 10, 128, 255):
            for jobs in (0, 1, 3, 31, 32, 33, 34, 128, 255):
                yield from changed_writes(table, counts(resources, jobs, 65535, 1))
        for resources, jobs in ((9, 3), (1, 0), (1, 33), (255, 255)):
            yield from changed_writes(table, counts(resources, jobs, 0, 0), (0, 41))
            yield from changed_writes(table, counts(resources, jobs, 1, 1), (0, 41))
    yield from changed_writes(model.Table(), lambda table: None, (0, 756))


def past_count_writes():
    """Entries past a count that are not zero, one at a time, in each array."""
    for resources in (0, 1, 7):
        table = sized(make_table(1, [5] * resources, [(8, 9, [5] * resources), (9, 9, [0] * resources)]))
        for r in range(resources, 8):
            yield from changed_writes(table, lambda table: table.units.__setitem__(r, 1))
            for j in (0, 1):
                yield from changed_writes(table, lambda table: table.jobs[j].needs.__setitem__(r, 1))
    for jobs, places in ((1, range(1, 32)), (2, (2, 31)), (31, (31,))):
        table = sized(make_table(1, [5], [(8, 9, [5])] * jobs))
        for j in places:
            yield from changed_writes(table, lambda table: setattr(table.jobs[j], "level", 1))
            yield from changed_writes(table, lambda table: setattr(table.jobs[j], "frame", 256))
            for r in range(8) if j in (1, 31) else (j % 8,):
                yield from changed_writes(table, lambda table: table.jobs[j].needs.__setitem__(r, 1))
    table = sized(make_table(1, [], [(8, 9, [])]))
    table.size -= 1
    table.jobs[1] = model.Job(level=1, frame=1)
    yield writes_table(table, 0)


def value_writes():
    """Each value out of its range, and at the edges of it, with buffers of enough bytes and of none."""
    base = make_table(65535, [1, 2, 255, 256, 257, 999, 1000, 4], [(1, 60, [0] * 8), (2, 70, [1, 2, 255, 256, 257, 999, 1000, 4])])
    for size in (0, 1, 129, 130, 131, 65535):
        yield from changed_writes(base, lambda table: setattr(table, "size", size), (0, 1000))
    for r in range(8):
        for units in (0, 1, base.units[r], 1000, 1001, 65535):
            yield from changed_writes(base, lambda table: table.units.__setitem__(r, units))
    for j in (0, 1):
        for level in (0, 1, 3, 255):
            yield from changed_writes(base, lambda table: setattr(table.jobs[j], "level", level))
        for frame in (0, 1, 65535):
            yield from changed_writes(base, lambda table: setattr(table.jobs[j], "frame", frame))
        for r in range(8):
            for need in (0, base.units[r], base.units[r] + 1, 65535):
                yield from changed_writes(base, lambda table: table.jobs[j].needs.__setitem__(r, need))
    full = full_table()
    for j in (15, 31):
        yield from changed_writes(full, lambda table: setattr(table.jobs[j], "level", 0))
        yield from changed_writes(full, lambda table: setattr(table.jobs[j], "frame", 0))
        yield from changed_writes(full, lambda table: table.jobs[j].needs.__setitem__(7, 1001))


def worst_writes():
    """Worst stacks at, below and above the size, up to the largest, with short buffers beside them."""
    largest = make_table(65535, [], [(1 + j, 65535, []) for j in range(32)])
    shared = make_table(1, [], [(1 + j % 4, 100 + j * 7 % 32, []) for j in range(32)])
    rising = make_table(1, [3], [(9, 10, [0]), (9, 20, [1]), (9, 15, [2]), (8, 15, [3]), (8, 16, [0])])
    for table in (STATION, full_table(), largest, shared, rising):
        worst = model.sum_of_worst_frames(table.jobs[: table.job_count])
        for size in sizes(1, worst - 1, worst, worst + 1, 65535):
            yield from changed_writes(table, lambda table: setattr(table, "size", size), (0, 800))
    yield from changed_writes(largest, lambda table: setattr(table, "size", 0))


def random_writes(rng):
    for _ in range(120):
        table = random_table(rng)
        yield writes_table(table, rng.choice(buffers(table)))
    for _ in range(200):
        table = random_table(rng)
        for _ in range(rng.choice([1, 1, 2])):
            spoil(rng, table)
        yield writes_table(table, rng.choice([0, 40, 200, 756, 757, 1000]))


def spoil(rng, table):
    """Changes an entry, listed or not, to a value at or past an edge."""
    j, r = rng.choice([rng.randrange(32), rng.randrange(max(1, min(32, table.job_count)))]), rng.randrange(8)
    small, large = rng.choice([0, 1, 255]), rng.choice([0, 1, 255, 256, 1000, 1001, 65535])
    how = rng.randrange(7)
    if how == 0:
        table.resource_count = rng.choice([0, 1, 4, 8, 9, 255])
    elif how == 1:
        table.job_count = rng.choice([0, 1, 16, 32, 33, 255])
    elif how == 2:
        table.size = large
    elif how == 3:
        table.units[r] = large
    elif how == 4:
        table.jobs[j].level = small
    elif how == 5:
        table.jobs[j].frame = large
    else:
        table.jobs[j].needs[r] = large


# Events.


def some_events():
    events = [(name, job) for name in ("arrive", "finish", "release_all") for job in (0, 1, 31, 32, 127, 255)]
    for name in ("acquire", "release"):
        for job, resource, amount in ((0, 0, 0), (0, 0, 1), (1, 7, 1000), (31, 8, 1001), (32, 255, 255), (255, 128, 256), (2, 1, 65535)):
            events.append((name, job, resource, amount))
    return events


def event_bytes(event):
    return model.write_event(event, 7)[1]


def whole_event_reads():
    for event in some_events():
        data = event_bytes(event)
        yield reads_event(data, 0)
        yield reads_event(data + b"\x11\x00", 0)
        yield reads_event(STATION_BYTES + data + data, len(STATION_BYTES))
        yield reads_event(bytes(300) + data, 300)


def cut_event_reads():
    for event in (("arrive", 3), ("acquire", 3, 2, 258), ("release", 3, 2, 258), ("finish", 3), ("release_all", 3)):
        data = event_bytes(event)
        for length in range(len(data)):
            yield reads_event(data[:length], 0)
            yield reads_event(b"\x12\x00\x04" + data[:length], 3)


def wrong_event_reads():
    for tag in range(256):
        yield reads_event(make_field(tag, b"\x01"), 0)
        yield reads_event(make_field(tag, b"\x01\x00\x00\x01"), 0)
    for tag in (0x11, 0x12, 0x13, 0x14, 0x15):
        for length in (0, 2, 3, 5, 6, 255, 256, 257, 260, 1024, 65535):
            yield reads_event(bytes([tag]) + two(length) + bytes(min(length, 8)), 0)
            yield reads_event(bytes([tag]) + two(length), 0)
    for tag in (0x00, 0x05, 0x10, 0x16, 0xFF):
        yield reads_event(bytes([tag]) + two(65535), 0)


def place_event_reads():
    log = b"".join(event_bytes(event) for event in some_events()[::5])
    for place in list(range(len(log) + 5)) + [100, 255, 256, 1000, 32768, 65532, 65533, 65535]:
        yield reads_event(log, place)
    for place in (0, 1, 2, 65535):
        yield reads_event(b"", place)


def random_event_reads(rng):
    for _ in range(60):
        yield reads_event(rng.randbytes(rng.randint(0, 12)), rng.randint(0, 13))
    for _ in range(140):
        data = rng.randbytes(rng.randint(0, 3)) + b"".join(event_bytes(rng.choice(some_events())) for _ in range(2))
        yield reads_event(damaged(rng, data), rng.randint(0, 7))


def event_writes():
    for event in some_events():
        for buffer_length in [0, 3, 4, 6, 7, 8, 300]:
            yield writes_event(event, buffer_length)
    for event in (("arrive", 9), ("acquire", 9, 3, 513), ("release", 9, 3, 513), ("finish", 9), ("release_all", 9)):
        for buffer_length in range(0, 9):
            yield writes_event(event, buffer_length)


# All of them.


def all_vectors():
    rng = random.Random(SEED)
    groups = [
        paper_reads(), limit_reads(), worst_reads(), truncated_reads(), flipped_reads(), tag_reads(), length_reads(), value_reads(),
        first_bad_reads(), order_reads(), random_reads(rng),
        limit_writes(), count_writes(), past_count_writes(), value_writes(), worst_writes(), random_writes(rng),
        whole_event_reads(), cut_event_reads(), wrong_event_reads(), place_event_reads(), random_event_reads(rng),
        event_writes(),
    ]  # fmt: skip
    # Each vector once, where it stands first.
    return list(dict.fromkeys(vector for group in groups for vector in group))


def check_model_by_the_paper():
    """The rules' own examples, before anything is made from the model."""
    assert model.read_table(STATION_BYTES) == ("took", 41, STATION)
    assert model.worst_stack(STATION) == ("sum", 90)
    assert model.write_table(STATION, 41) == ("bytes", STATION_BYTES)
    assert model.read_table(STATION_BYTES[:7] + two(89) + STATION_BYTES[9:]) == ("refused", 5, 41)
    assert model.read_table(b"") == ("refused", 1, 0)
    assert len(model.table_bytes(full_table())) == 756


def outcome(line):
    words = line.split()
    return " ".join(words[:2]).rstrip(";") if words[0] == "refused" else "accepted"


def print_counts(vectors):
    kinds = Counter(kind for kind, _, _ in vectors)
    for kind, count in sorted(kinds.items()):
        outcomes = Counter(outcome(line) for of, _, line in vectors if of == kind)
        print(f"{KIND_NAMES[kind]}: {count}: " + ", ".join(f"{name} {n}" for name, n in sorted(outcomes.items())))
    worsts = Counter(line.split("; ")[2].split(" ")[1] == "refused" for kind, _, line in vectors if kind == WRITE_TABLE)
    print(f"worst stacks: {worsts[False]} sums, {worsts[True]} refused")
    print(f"vectors: {len(vectors)}")


def main():
    check_model_by_the_paper()
    return rewrite_or_check(FOLDER, all_vectors(), print_counts)


if __name__ == "__main__":
    sys.exit(main())
