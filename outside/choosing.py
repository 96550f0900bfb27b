"""Tables and events that are chosen at random: events for the state that they meet, so that most are accepted and each refusal comes."""

import station_model as model
import tagged_model
from station_model import started_jobs, top, waiting_jobs
from tagged_model import RESOURCE_PLACES, make_table
from vectors import sized


# Events.


def started_numbers(state):
    return [started.job for started in started_jobs(state)]


def inactive_jobs(state):
    active = started_numbers(state) + waiting_jobs(state)
    return [job for job in range(state.table.job_count) if job not in active]


def some_amount(rng, most):
    return rng.choice([1, most, rng.randint(1, most)])


def acquires(rng, state):
    """An acquire that will be accepted for each resource of which one may be."""
    table, running = state.table, top(state)
    for r in range(table.resource_count if running else 0):
        most = min(table.jobs[running.job].needs[r] - running.held[r], model.free_units(state, r))
        if most > 0:
            yield "acquire", running.job, r, some_amount(rng, most)


def releases(rng, state):
    running = top(state)
    for r, held in enumerate(running.held if running else []):
        if held:
            yield "release", running.job, r, some_amount(rng, held)


def arrivals(rng, state, deep):
    """An arrival of each job that may arrive; where the stack is to be deep, of the lowest that would start, if any would."""
    jobs, ceiling = inactive_jobs(state), model.system_ceiling(state)
    starting = [job for job in jobs if model.level_of(state, job) > ceiling]
    if starting and rng.random() < deep:
        jobs = [min(starting, key=lambda job: model.level_of(state, job))]
    return [("arrive", job) for job in jobs]


def useful_event(rng, state, temper):
    """An event that is accepted, or None if there is none."""
    running = top(state)
    holds = running is not None and any(running.held)
    choices = {
        "arrive": arrivals(rng, state, temper["deep"]),
        "acquire": list(acquires(rng, state)),
        "release": list(releases(rng, state)),
        "release_all": [("release_all", running.job)] if holds else [],
        "finish": [("finish", running.job)] if running and not holds else [],
    }
    kinds = [kind for kind in choices if choices[kind]]
    if not kinds:
        return None
    return rng.choice(choices[rng.choices(kinds, [temper[kind] for kind in kinds])[0]])


TEMPERS = [
    # Jobs start one above another, and hold a little.
    {"deep": 0.95, "arrive": 6, "acquire": 2, "release": 0.7, "release_all": 0.3, "finish": 0.4},
    # The running job takes much, and the others wait.
    {"deep": 0.1, "arrive": 5, "acquire": 6, "release": 2, "release_all": 0.7, "finish": 1},
    # Jobs come and go.
    {"deep": 0.3, "arrive": 4, "acquire": 3, "release": 1, "release_all": 2, "finish": 5},
    {"deep": 0.6, "arrive": 3, "acquire": 3, "release": 3, "release_all": 1, "finish": 2},
    # Jobs start as long as there are any.
    {"deep": 1, "arrive": 30, "acquire": 1, "release": 2, "release_all": 1, "finish": 0.4},
]


def refused_event(rng, state, number):
    """An event that is refused with this number, or None if there is none."""
    for _ in range(6):
        event = maybe_refused(rng, state, number)
        if event and model.answer_of(state, state.table.size, event) == number:
            return event
    return None


def maybe_refused(rng, state, number):
    """An event that may be refused with this number, or None."""
    table = state.table
    active = started_numbers(state) + waiting_jobs(state)
    runs = top(state).job if top(state) else rng.randrange(table.job_count)
    resource = rng.randrange(table.resource_count) if table.resource_count else 0
    held = top(state).held[resource] if top(state) else 0
    need = table.jobs[runs].needs[resource]
    unlisted = rng.choice([table.resource_count, RESOURCE_PLACES, 255, rng.randint(table.resource_count, 255)])
    moves = ["acquire", "release"]
    return {
        model.NO_SUCH_JOB: lambda: any_event(rng, rng.choice([table.job_count, 32, 255, rng.randint(table.job_count, 255)]), resource),
        model.ALREADY_ACTIVE: lambda: ("arrive", rng.choice(active)) if active else None,
        model.NOT_RUNNING: lambda: any_event(rng, rng.choice(active or [runs]), rng.choice([resource, unlisted])),
        model.NO_SUCH_RESOURCE: lambda: (rng.choice(moves), runs, unlisted, rng.choice([0, 1, 65535])),
        model.AMOUNT_ZERO: lambda: (rng.choice(moves), runs, resource, 0),
        model.ABOVE_NEED: lambda: ("acquire", runs, resource, rng.choice([need - held + 1, need - held + 1, need + 1, 65535])),
        model.ABOVE_FREE: lambda: ("acquire", runs, resource, rng.choice([max(need - held, 0), model.free_units(state, resource) + 1])),
        model.ABOVE_HELD: lambda: ("release", runs, resource, rng.choice([held + 1, held + 1, need + 1, 65535])),
        model.STILL_HOLDS: lambda: ("finish", runs),
        model.HOLDS_NOTHING: lambda: ("release_all", runs),
    }[number]()


# 18 is answered in states made by hand alone.
REFUSALS = [number for number in range(model.NO_SUCH_JOB, model.HOLDS_NOTHING + 1) if number != model.ABOVE_FREE]


def any_event(rng, job, resource):
    name = rng.choice(tagged_model.EVENTS)
    return (name, job, resource, rng.choice([0, 1, 2, 1000, 65535])) if name in ("acquire", "release") else (name, job)


def random_event(rng, table):
    """An event of a job and a resource, listed or little past the last."""
    return any_event(rng, rng.randint(0, table.job_count), rng.randint(0, table.resource_count))


def next_event(rng, state, temper):
    """Mostly a useful event, sometimes one that is refused, rarely any."""
    dice = rng.random()
    event = None
    if dice < 0.25:
        event = refused_event(rng, state, rng.choice(REFUSALS))
    elif dice < 0.96:
        event = useful_event(rng, state, temper)
    return event or random_event(rng, state.table)


# Tables.


def random_levels(rng, jobs):
    """Levels of a shape: rising or falling by table order, equal, few, many."""
    steps = rng.sample(range(1, 256), jobs)
    few = [rng.randint(1, 255) for _ in range(rng.randint(2, 4))]
    return rng.choice([
        sorted(steps), sorted(steps, reverse=True), steps, [rng.randint(1, 255)] * jobs, [rng.choice(few) for _ in range(jobs)],
        [1 + j for j in range(jobs)], [255 - j for j in range(jobs)], [1 + j // 2 for j in range(jobs)],
    ])  # fmt: skip


def random_needs(rng, units, shape):
    """A job's needs of a shape: all at their limits, few, any."""
    if shape == "limit":
        return list(units)
    if shape == "few":
        return [rng.choice([0, 0, 0, 1, u]) for u in units]
    return [rng.choice([0, 1, u, rng.randint(0, u)]) for u in units]


def random_table(rng):
    """A table that could be written, mostly with a small stack."""
    jobs = rng.choice([1, 2, 3, 4, 5, 6, 8, 12, 20, 31, 32, rng.randint(1, 32)])
    units = [rng.choice([1, 1, 2, 3, 4, 8, 1000, rng.randint(1, 1000)]) for _ in range(rng.choice([0, 1, 1, 2, 3, 4, 6, 8]))]
    shape = rng.choice(["limit", "few", "few", "few", "any", "any"])
    most = rng.choice([1, 9, 30, 60])
    described = [(level, rng.randint(1, most), random_needs(rng, units, shape)) for level in random_levels(rng, jobs)]
    return sized(make_table(1, units, described), rng.choice([0, 0, 1, 17]))
