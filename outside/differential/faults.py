#!/usr/bin/env python3
"""Puts faults into a copy of the model, one at a time, and sees that `differential` finds each.

    python3 faults.py [WORD]

With a WORD, only the faults whose name has it. A fault is one edit, whose old text stands in its file exactly once. The last line counts those
found; the exit status is 1 if one was missed. The library has to be built before (README.md beside this folder).
"""

import os
import pathlib
import shutil
import subprocess
import sys
import tempfile

HERE = pathlib.Path(__file__).resolve().parent
INPUTS = "10000"

STATION = "model/station.rs"
TABLE = "model/table.rs"
REPLAY = "model/replay.rs"

SINGLY = """Event::ReleaseAll { job } => {
                self.runs(job)?;
                if !self.holds_any() { return Err(21); }
                let mut first = None;
                for resource in 0..self.free.len() {
                    let held = self.stack.last().filter(|top| top.job == job).map_or(0, |top| top.held[resource]);
                    if held > 0 {
                        self.release(job, resource as u8, held)?;
                        self.ceiling = self.ceiling_now();
                        first = first.or(self.start_test());
                    }
                }
                return Ok(first);
            }"""

# Name, file, old text, new text.
FAULTS = [
    ("starts on an equal level", STATION, "self.level(head) <= self.ceiling", "self.level(head) < self.ceiling"),
    ("comes in before an equal level", STATION, "self.level(other) < level", "self.level(other) <= level"),
    ("counts a need equal to the free units", STATION, "|(need, free)| need > free", "|(need, free)| need >= free"),
    ("leaves the running job's level out", STATION, "let mut ceiling = self.running().map_or(0, |job| self.level(job));", "let mut ceiling = 0;"),
    ("tests on arrivals only", STATION, "Ok(self.start_test())\n    }", "Ok(if let Event::Arrive { .. } = event { self.start_test() } else { None })\n    }"),
    ("holds an acquire against the system ceiling", STATION, "if amount > self.free[resource] {", "if amount > self.free[resource] || self.table.jobs[usize::from(job)].level < self.ceiling {"),
    ("gives back release all singly", STATION, "Event::ReleaseAll { job } => self.release_all(job)?,", SINGLY),
    ("refuses an acquire up to the need", STATION, "> u32::from(need)", ">= u32::from(need)"),
    ("lets an acquire go above the need", STATION, "> u32::from(need)", "> u32::from(need) + 1"),
    ("adds held and amount in two bytes", STATION, "u32::from(top.held[resource]) + u32::from(amount) > u32::from(need)", "top.held[resource].wrapping_add(amount) > need"),
    ("refuses to give back the last unit", STATION, "amount > top.held[resource]", "amount >= top.held[resource]"),
    ("takes no units when they are acquired", STATION, "self.free[resource] -= amount;", ""),
    ("lets a job finish while it holds units", STATION, "if self.holds_any() {\n            return Err(20);", "if false {\n            return Err(20);"),
    ("lets release all give back nothing", STATION, "if !self.holds_any() {\n            return Err(21);", "if false {\n            return Err(21);"),
    ("lets a started job arrive again", STATION, "self.waiting.contains(&job) || self.stack.iter().any(|started| started.job == job)", "self.waiting.contains(&job)"),
    ("answers 14 for a job that is not listed", STATION, "self.listed(job)?;\n        if self.running()", "if self.running()"),
    ("lets an amount be 0", STATION, "if amount == 0 { Err(16) }", "if false { Err(16) }"),
    ("takes the last waiting job for the head", STATION, "*self.waiting.first()?", "*self.waiting.last()?"),
    ("adds up all frames", TABLE, "job.frame.max(*frame)", "job.frame.saturating_add(*frame)"),
    ("refuses a stack that just fits", TABLE, "table.worst_stack() > u32::from(table.stack_size)", "table.worst_stack() >= u32::from(table.stack_size)"),
    ("takes 1,001 units", TABLE, "MAX_UNITS: u16 = 1000", "MAX_UNITS: u16 = 1001"),
    ("refuses 1,000 units", TABLE, "MAX_UNITS: u16 = 1000", "MAX_UNITS: u16 = 999"),
    ("takes a 33rd job", TABLE, "self.jobs.len() < MAX_JOBS", "self.jobs.len() <= MAX_JOBS"),
    ("refuses an eighth resource", TABLE, "self.units.len() < MAX_RESOURCES", "self.units.len() + 1 < MAX_RESOURCES"),
    ("takes level 0", TABLE, "job.level == 0 || job.frame == 0", "job.frame == 0"),
    ("refuses a need of all units", TABLE, "if need > units {", "if need >= units {"),
    ("takes a table with no jobs", TABLE, "END => !self.jobs.is_empty(),", "END => fields >= 2,"),
    ("takes a resource behind a job", TABLE, "fields >= 2 && self.jobs.is_empty() && self.units", "fields >= 2 && self.units"),
    ("gives another place with 5", TABLE, "Err(Refused { number: 5, place })", "Err(Refused { number: 5, place: place - HEADER })"),
    ("tests the value before its length is there", "model/field.rs", "None => refused(1),", "None => refused(3),"),
    ("takes a header of two bytes for a tag", "model/field.rs", "if rest.len() < HEADER {\n        return refused(1);", "if rest.len() < HEADER {\n        return refused(2);"),
    ("reads an amount low byte first", "model/event.rs", "number(&value[2..4])", "number(&value[2..4]).swap_bytes()"),
    ("replays a byte less", REPLAY, "if input.len() > MOST_BYTES {", "if input.len() >= MOST_BYTES {"),
    ("counts a place from the first event", REPLAY, "Err(refused) => return put_refused(out, b\"events\", refused),", "Err(refused) => return put_refused(out, b\"events\", Refused { number: refused.number, place: refused.place - start }),"),
    ("prints upper-case digits", REPLAY, "0123456789abcdef", "0123456789ABCDEF"),
    # In a state that was reached no head is due to start, and an acquire lowers no ceiling.
    ("tests after an acquire", STATION, "return Ok(None);", "return Ok(self.start_test());"),
    ("counts a need equal to the free units, of one resource", STATION, "job.needs[resource] > free);", "job.needs[resource] >= free);"),
    ("clears nothing", STATION, "memory[self.frame()].fill(0);", ""),
    ("places each frame a byte too high", STATION, "let mut frame = 0..0;", "let mut frame = 1..1;"),
    ("applies in a memory of another length", STATION, "return Err(11);", ""),
    ("takes equal levels up the stack", "state_bytes.rs", "level(pair[0].job) < level(pair[1].job)", "level(pair[0].job) <= level(pair[1].job)"),
    ("refuses equal levels among those waiting", "state_bytes.rs", "level(pair[0]) >= level(pair[1])", "level(pair[0]) > level(pair[1])"),
    ("lets a job hold more than its need", "state_bytes.rs", "held <= need)", "held <= need + 1)"),
    ("lets a job stand twice", "state_bytes.rs", "job >= jobs || seen[job]", "job >= jobs"),
    ("looks at no entry past a count", "state_bytes.rs", "if !past.iter().all(is_zero) {", "if !past.iter().all(|entry| is_zero(entry) || true) {"),
    ("lets more be held than there are", "state_bytes.rs", "free.checked_sub(held)?", "free.saturating_sub(held)"),
    ("knows no 18", STATION, "return Err(18);", "return Err(17);"),
]


def built(folder):
    run = subprocess.run(["cargo", "build", "--profile", "faults", "--offline", "--quiet", "--bin", "differential"], cwd=folder, capture_output=True, text=True)
    if run.returncode:
        sys.exit(run.stderr)


def main():
    words = sys.argv[1:]
    options = ["--inputs", INPUTS, "--differences", "1"]
    with tempfile.TemporaryDirectory() as folder:
        copy = pathlib.Path(folder) / "differential"
        shutil.copytree(HERE, copy, ignore=shutil.ignore_patterns("target"))
        os.symlink(HERE.parent / "urzalinda", copy.parent / "urzalinda")
        sys.exit(0 if all_found(copy, options, words) else 1)


def all_found(copy, options, words):
    program = copy / "target/faults/differential"
    built(copy)
    sound = subprocess.run([program, *options], capture_output=True, text=True)
    if sound.returncode:
        sys.exit("the model as it stands differs already:\n" + sound.stdout + sound.stderr)
    faults = [fault for fault in FAULTS if all(word in fault[0] for word in words)]
    found = 0
    for name, file, old, new in faults:
        path = copy / "src" / file
        text = path.read_text()
        if text.count(old) != 1:
            sys.exit(f"{name}: the old text stands {text.count(old)} times in {file}")
        path.write_text(text.replace(old, new))
        built(copy)
        path.write_text(text)
        run = subprocess.run([program, *options], capture_output=True, text=True)
        first = next((line for line in run.stdout.splitlines() if line.startswith("DIFFERENCE")), "")
        found += first != ""
        print(f"{'found ' if first else 'MISSED'} {name}: {first}", flush=True)
    print(f"{found} of {len(faults)} faults found")
    return found == len(faults)


if __name__ == "__main__":
    main()
