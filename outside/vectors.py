"""What the makers of vectors share: tables to start from, the bytes of records, and writing or checking the two files.

A vector is a triple: the kind of a record, its bytes, and the line or the lines that are expected for it.
"""

import sys

import tagged_model as model
from tagged_model import make_field, make_table, two


# Tables to start from.

# The rules' table.
STATION = make_table(90, [4], [(10, 40, [4]), (20, 30, [3]), (30, 20, [1])])

# The rules' log.
STATION_LOG = [
    ("arrive", 0), ("acquire", 0, 0, 2), ("arrive", 1), ("arrive", 2), ("acquire", 2, 0, 1), ("finish", 2), ("release", 2, 0, 1),
    ("finish", 2), ("release", 0, 0, 1), ("acquire", 1, 0, 3), ("arrive", 0),
]  # fmt: skip


def sized(table, above=0):
    """The table with its worst stack, or so many bytes above it, as its size."""
    table.size = min(model.sum_of_worst_frames(table.jobs[: table.job_count]) + above, model.STACK_SIZE[-1])
    return table


def full_table():
    """The longest table: 8 resources and 32 jobs, 756 bytes."""
    units = [1, 2, 3, 10, 100, 500, 999, 1000]
    jobs = [(1 + 8 * j, 1000 + j, [units[r] if (j + r) % 3 else 0 for r in range(8)]) for j in range(32)]
    return sized(make_table(1, units, jobs))


def limit_tables():
    """Tables that could be written, at every limit."""
    tables = [STATION, full_table()]
    tables.append(make_table(1, [], [(1, 1, [])]))
    tables.append(make_table(65535, [], [(255, 65535, [])]))
    tables.append(make_table(65535, [], [(level, 1, []) for level in range(1, 33)]))
    tables.append(make_table(65535, [], [(7, 65535, [])] * 32))
    tables.append(make_table(40, [1], [(255, 40, [1]), (255, 39, [0]), (255, 1, [1])]))
    tables.append(make_table(41, [1000], [(1, 40, [1000]), (255, 1, [0]), (1, 39, [999])]))
    tables.append(make_table(2, [1] * 8, [(1, 1, [0] * 8), (2, 1, [1] * 8)]))
    tables.append(make_table(2, [1000] * 8, [(1, 1, [1000] * 8), (2, 1, [0] * 8)]))
    tables.append(make_table(65535, [1000] * 8, [(9, 2047, [1000] * 8)] * 32))
    tables.append(make_table(256, [255, 256, 257], [(128, 255, [255, 256, 257]), (127, 1, [254, 0, 256])]))
    for resources in range(0, 9):
        tables.append(sized(make_table(1, [1 + r for r in range(resources)], [(50, 70, [1 + r for r in range(resources)])])))
    for jobs in (2, 3, 31, 32):
        tables.append(sized(make_table(1, [6], [(1 + j % 5, 10 + j, [j % 7]) for j in range(jobs)])))
    return tables


# Records.


def held_table(table):
    """A table as its arrays hold it, counts and all that stands past them."""
    data = two(table.size) + bytes([table.resource_count])
    data += b"".join(two(units) for units in table.units) + bytes([table.job_count])
    for job in table.jobs:
        data += bytes([job.level]) + two(job.frame) + b"".join(two(need) for need in job.needs)
    return data


def digest(data, value=0x811C9DC5):
    """The 32-bit FNV-1a of some bytes, or of those that gave a value and then these."""
    for byte in data:
        value = ((value ^ byte) * 0x01000193) & 0xFFFFFFFF
    return value


# Fields, and damage.


def split_fields(data):
    """The fields of a table that could be written, as pairs of tag and value."""
    fields, place = [], 0
    while place < len(data):
        length = model.number(data[place + 1 : place + 3])
        fields.append((data[place], data[place + 3 : place + 3 + length]))
        place += 3 + length
    return fields


def joined(fields):
    return b"".join(make_field(tag, value) for tag, value in fields)


def with_byte(data, place, byte):
    return data[:place] + bytes([byte]) + data[place + 1 :]


def damaged(rng, data):
    for _ in range(rng.choice([1, 1, 1, 2, 3])):
        place = rng.randrange(len(data))
        how = rng.randrange(5)
        if how == 0:
            data = with_byte(data, place, data[place] ^ (1 << rng.randrange(8)))
        elif how == 1:
            data = with_byte(data, place, rng.choice([0, 1, 2, 3, 4, 5, 255, rng.randrange(256)]))
        elif how == 2:
            data = data[:place] + data[place + 1 :]
        elif how == 3:
            data = data[:place] + rng.randbytes(1) + data[place:]
        else:
            data = data[: max(place, 1)]
    return data


# The files.


def rewrite_or_check(folder, vectors, print_counts, more_files=()):
    """Rewrites `stdin` and `stdout` in a folder, and files that are given as pairs of path and bytes, and counts the vectors; with
    --check, tells whether they are what the model makes."""
    files = {
        folder / "stdin": b"".join(bytes([kind]) + two(len(record)) + record for kind, record, _ in vectors),
        folder / "stdout": "".join(line + "\n" for _, _, line in vectors).encode(),
        **dict(more_files),
    }
    if "--check" in sys.argv[1:]:
        wrong = [path for path, data in files.items() if not path.is_file() or path.read_bytes() != data]
        names = ", ".join(str(path.relative_to(folder.parent)) for path in wrong)
        print(f"differ from what the model makes: {names}" if wrong else f"the {len(files)} files are what the model makes")
        return 1 if wrong else 0
    for path, data in files.items():
        path.write_bytes(data)
    print_counts(vectors)
    return 0
