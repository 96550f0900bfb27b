"""The scheduler of a station, modelled in plain Python.

Written from docs/RULES.md alone, to give expected answers that do not come from the program under test. Each rule stands under
its sentence, in the page's words. A state is held as a station holds it, as arrays with their counts, so that a state which breaks a
rule can be given too. Tables and events are those of tagged_model.
"""

from dataclasses import dataclass, field

from tagged_model import JOB_PLACES, RESOURCE_PLACES, Refused, Table, judge

# Refusal numbers: those of states and events.

NOT_WELL_FORMED = 10  # "state not well formed"
WRONG_MEMORY_LENGTH = 11  # "stack memory's length is not the stack size"
NO_SUCH_JOB = 12  # "no such job"
ALREADY_ACTIVE = 13  # "arrive: job already waiting or started"
NOT_RUNNING = 14  # "job is not the running one"
NO_SUCH_RESOURCE = 15  # "no such resource"
AMOUNT_ZERO = 16  # "amount 0"
ABOVE_NEED = 17  # "acquire: held plus amount above the declared need"
ABOVE_FREE = 18  # "acquire: amount above the free units"
ABOVE_HELD = 19  # "releases more than it holds"
STILL_HOLDS = 20  # "finish while holding units"
HOLDS_NOTHING = 21  # "release all while holding nothing"


# A state as a station holds it. A new one is the state of zeros.


@dataclass
class Started:
    """A started job, and what it holds of each resource."""

    job: int = 0
    held: list = field(default_factory=lambda: [0] * RESOURCE_PLACES)


@dataclass
class State:
    """The table; the stack, the lowest first; the waiting jobs, the head first."""

    table: Table = field(default_factory=Table)
    stack: list = field(default_factory=lambda: [Started() for _ in range(JOB_PLACES)])
    depth: int = 0
    waiting: list = field(default_factory=lambda: [0] * JOB_PLACES)
    waiting_count: int = 0


def started_jobs(state):
    """The started jobs, each with what it holds, the lowest first."""
    return state.stack[: state.depth]


def waiting_jobs(state):
    """The waiting jobs, the head first."""
    return state.waiting[: state.waiting_count]


def put_started(state, started):
    # "Entries past a count, in a table or a state, are zero".
    state.depth = len(started)
    state.stack = started + [Started() for _ in range(JOB_PLACES - len(started))]


def put_waiting(state, waiting):
    state.waiting_count = len(waiting)
    state.waiting = waiting + [0] * (JOB_PLACES - len(waiting))


def fresh_state(table):
    """0 and the fresh state, or the refusal's number and the state of zeros."""
    # "A fresh state (nothing started, waiting or held) is made from a table that could be written; otherwise 2, 4 or 5, in that order."
    # "a refused fresh state a state of zeros".
    judged = judge(table)
    return (judged, State()) if judged else (0, State(table=table))


# The state's words.


def is_listed(table, job):
    # "Jobs 1 to 32, numbered from 0 in table order."
    return job < table.job_count


def level_of(state, job):
    return state.table.jobs[job].level


def top(state):
    """The running job with what it holds, or None."""
    # "The stack is the list of started, unfinished jobs. Its top is the running job."
    started = started_jobs(state)
    return started[-1] if started else None


def held_of(state, resource):
    return sum(started.held[resource] for started in started_jobs(state))


def free_units(state, resource):
    # "Free units of a resource: its units less all units held."
    return state.table.units[resource] - held_of(state, resource)


def ceiling_with(table, resource, free):
    # "Ceiling of a resource with v free: the largest level among the jobs whose need is greater than v, or 0 if there is none."
    jobs = table.jobs[: table.job_count]
    return max((job.level for job in jobs if job.needs[resource] > free), default=0)


# Well-formed states.


def table_could_be_written(state):
    # "its table could be written without 2, 4 or 5"
    return judge(state.table) == 0


def counts_fit(state):
    # Each of the jobs that a count counts has a place: no more than 32 are listed jobs, each once.
    return state.depth <= JOB_PLACES and state.waiting_count <= JOB_PLACES


def rest_is_zero(state):
    # "Entries past a count, in a table or a state, are zero; .. a state with 10." The held units past the resource count are such entries.
    held_past = [held for started in started_jobs(state) for held in started.held[state.table.resource_count :]]
    nothing = Started()
    return (
        all(place == nothing for place in state.stack[state.depth :])
        and not any(state.waiting[state.waiting_count :])
        and not any(held_past)
    )


def jobs_are_listed(state):
    # "started and waiting jobs are listed jobs"
    started = [started.job for started in started_jobs(state)]
    return all(is_listed(state.table, job) for job in started + waiting_jobs(state))


def jobs_stand_once(state):
    # "each once, none in both"
    jobs = [started.job for started in started_jobs(state)] + waiting_jobs(state)
    return len(set(jobs)) == len(jobs)


def levels_rise_up_the_stack(state):
    # "levels rise strictly up the stack"
    levels = [level_of(state, started.job) for started in started_jobs(state)]
    return all(below < above for below, above in zip(levels, levels[1:]))


def waiting_levels_never_rise(state):
    # "waiting levels never rise from head to tail"
    levels = [level_of(state, job) for job in waiting_jobs(state)]
    return all(sooner >= later for sooner, later in zip(levels, levels[1:]))


def none_holds_above_its_need(state):
    # "only started jobs hold units, none above its need"
    return all(
        held <= need
        for started in started_jobs(state)
        for held, need in zip(started.held, state.table.jobs[started.job].needs)
    )


def held_units_fit(state):
    # "the units held of a resource don't exceed its units"
    return all(held_of(state, r) <= state.table.units[r] for r in range(state.table.resource_count))


# "A state is well formed if:" the parts, in an order in which each may rest on those before it.
WELL_FORMED_PARTS = [
    table_could_be_written,
    counts_fit,
    rest_is_zero,
    jobs_are_listed,
    jobs_stand_once,
    levels_rise_up_the_stack,
    waiting_levels_never_rise,
    none_holds_above_its_need,
    held_units_fit,
]


def first_broken_part(state):
    """The first part of the sentence that a state breaks, or None for a well-formed state."""
    return next((part for part in WELL_FORMED_PARTS if not part(state)), None)


def is_well_formed(state):
    return first_broken_part(state) is None


# Readers, of a well-formed state. `readings` asks any state.


def ceiling(state, resource):
    # "the ceiling of an unlisted resource then gives 15"
    if resource >= state.table.resource_count:
        raise Refused(NO_SUCH_RESOURCE)
    return ceiling_with(state.table, resource, free_units(state, resource))


def system_ceiling(state):
    # "System ceiling: the largest of all resource ceilings and of the running job's level; 0 if there are neither."
    ceilings = [ceiling(state, resource) for resource in range(state.table.resource_count)]
    running_level = [level_of(state, top(state).job)] if top(state) else []
    return max(ceilings + running_level, default=0)


def running(state):
    """The running job's number, or None."""
    return top(state).job if top(state) else None


def number_waiting(state):
    return len(waiting_jobs(state))


def waiting_word(state):
    # "a waiting word of eight lower-case hex digits, bit j set if job j waits"
    return sum(1 << job for job in waiting_jobs(state))


def reading(state, reader, asked):
    try:
        return "value", reader(state, *asked)
    except Refused as refused:
        return "refused", refused.number


def readings(state, *readers):
    """What a state answers to readers, each a pair of the reader and what it is asked for: ('value', v), or ('refused', number)."""
    # "Reading a resource's ceiling, the system ceiling, the running job or the number waiting from a state that isn't well formed gives
    # 10". The waiting word is read likewise.
    if not is_well_formed(state):
        return [("refused", NOT_WELL_FORMED)] * len(readers)
    return [reading(state, reader, asked) for reader, asked in readers]


# Frames.


def frame_place(state, place):
    """Where the frame of the started job at a place of the stack starts, and where it ends."""
    # "A frame starts at the byte after the frame below it, the lowest at 0."
    frames = [state.table.jobs[started.job].frame for started in started_jobs(state)]
    start = sum(frames[:place])
    return start, start + frames[place]


def running_frame(state, memory_length):
    """The running job's frame as a part of the memory: where it starts, and where it ends."""
    # "If the state gives 10 or 11, or nothing runs, the part has length 0".
    if not is_well_formed(state) or memory_length != state.table.size or not top(state):
        return 0, 0
    return frame_place(state, state.depth - 1)


# Events.


def common_tests(state, memory_length, job):
    # "Applying an event: 10, 11, 12, then"
    yield NOT_WELL_FORMED, not is_well_formed(state)
    yield WRONG_MEMORY_LENGTH, memory_length != state.table.size
    yield NO_SUCH_JOB, not is_listed(state.table, job)


def arrive_tests(state, job):
    # "13,"
    started = [started.job for started in started_jobs(state)]
    yield ALREADY_ACTIVE, job in started or job in waiting_jobs(state)


def running_tests(state, event):
    # "or else 14, 15, 16, 17, 18, 19, 20, 21 as far as each belongs to that event."
    name, job, *units = event
    # "Only the running job acquires, releases and finishes."
    yield NOT_RUNNING, top(state) is None or job != top(state).job
    held = top(state).held
    if units:
        resource, amount = units
        yield NO_SUCH_RESOURCE, resource >= state.table.resource_count
        yield AMOUNT_ZERO, amount == 0
        if name == "acquire":
            yield ABOVE_NEED, held[resource] + amount > state.table.jobs[job].needs[resource]
            # "Acquire never consults the system ceiling. Only the free units count."
            yield ABOVE_FREE, amount > free_units(state, resource)
        else:
            yield ABOVE_HELD, amount > held[resource]
    elif name == "finish":
        yield STILL_HOLDS, any(held)
    else:
        yield HOLDS_NOTHING, not any(held)


def tests_of(state, memory_length, event):
    """The tests of an event in their order, each a refusal's number and whether it refuses."""
    yield from common_tests(state, memory_length, event[1])
    yield from arrive_tests(state, event[1]) if event[0] == "arrive" else running_tests(state, event)


def answer_of(state, memory_length, event):
    """The number of the first test that refuses an event, or 0."""
    return next((number for number, refuses in tests_of(state, memory_length, event) if refuses), 0)


def arrive(state, job):
    # "Waiting jobs stand by falling level, equal levels by arrival. The first is the head."
    waiting = waiting_jobs(state)
    sooner = [other for other in waiting if level_of(state, other) >= level_of(state, job)]
    put_waiting(state, sooner + [job] + waiting[len(sooner) :])


def change(state, event):
    """What an accepted event does before the start test."""
    # "A job holds, of each resource, the accepted acquires less the accepted releases since it started."
    name, job, *units = event
    if name == "arrive":
        arrive(state, job)
    elif name == "acquire":
        top(state).held[units[0]] += units[1]
    elif name == "release":
        top(state).held[units[0]] -= units[1]
    elif name == "release_all":
        # "which gives back everything the job holds and then makes one start test"
        top(state).held = [0] * RESOURCE_PLACES
    else:
        put_started(state, started_jobs(state)[:-1])


def start_test(state, memory):
    """Starts the head if it is to start: its number, or None."""
    # "Start test: the head starts exactly when its level is greater than the system ceiling." "No other waiting job is tried."
    waiting = waiting_jobs(state)
    if not waiting or level_of(state, waiting[0]) <= system_ceiling(state):
        return None
    put_waiting(state, waiting[1:])
    put_started(state, started_jobs(state) + [Started(job=waiting[0])])
    # "On a start, the bytes of the new frame become zero; every other byte of the stack memory stays."
    start, end = frame_place(state, state.depth - 1)
    memory[start:end] = bytes(end - start)
    return waiting[0]


def apply(state, memory, event):
    """Applies an event to a state and its stack memory: the answer, 0 or a refusal's number, and the job started or None."""
    # "A refusal .. leaves the scheduler's state, the job stack and each output buffer with the bytes they had."
    answer = answer_of(state, len(memory), event)
    if answer:
        return answer, None
    change(state, event)
    # "The test is made once after an accepted arrive, release, release all or finish, with the state as the event has left it. It is not
    # made after an acquire."
    return 0, None if event[0] == "acquire" else start_test(state, memory)
