#!/usr/bin/env python3
"""Brings this repository's own definitions, fields and lemmas to today's spelling, once, after port.py.

Definitions, fields and lemmas are in snake case; a dash stands only between the names of two definitions. Types, modules and
everything of src/ keep their names. Whole names are turned, in specs/, proofs/, src/ and must-fail/; in a comment, and in the
pages, a name with a dash only where it is quoted. Run it at the top of the repository; it prints what it turned, and stops
before it writes anything where two names would fall together.
"""
import glob
import re
import sys

NAMES = """
# definitions
headAt head_at; resourceCeiling resource_ceiling; systemCeiling system_ceiling; firstBad first_bad;
maxBelow max_below; sumBelow sum_below; everyBelow every_below; noneAbove none_above; eachOnce each_once;
isWaiting is_waiting; lowerRuns lower_runs; isJob is_job; unitsHeld units_held; releaseAll release_all;
noSuchJob no_such_job; alreadyActive already_active; notRunning not_running; noSuchResource no_such_resource;
noAmount no_amount; aboveNeed above_need; aboveFree above_free; aboveHeld above_held; stillHolds still_holds;
holdsNothing holds_nothing; byRunning by_running; takeChecks take_checks; withHeld with_held; isTested is_tested;
startsAfter starts_after; startedBy started_by; ceilingOf ceiling_of; noLine no_line; pairLog pair_log;
maxJobs max_jobs; maxResources max_resources; maxUnits max_units; maxLevel max_level; maxBytes max_bytes;
frameStart frame_start; clearedFrame cleared_frame; memoryAfter memory_after; newlyStarted newly_started;
withStart with_start; startTest start_test; levelAt level_at; startedJobs started_jobs; waitingJobs waiting_jobs;
activeJobs active_jobs; isRunning is_running; runningLevel running_level; runningHeld running_held;
nothingHeld nothing_held; heldIn held_in; freeIn free_in; jobCount job_count; resourceCount resource_count;
noJob no_job; levelOf level_of; unitsOf units_of; roomOf room_of; largestAt largest_at; countsGood counts_good;
jobGood job_good; valuesGood values_good; stackGood stack_good; tableChecks table_checks; tableRefusal table_refusal;
waitingWord waiting_word; allListed all_listed; noneTwice none_twice; levelsRise levels_rise; nextBehind next_behind;
inOrder in_order; withinNeeds within_needs; withinUnits within_units; wellKept well_kept; wellFormed well_formed;
soonerTop sooner_top; handMade hand_made; lowPart low_part; jobIn job_in; jobArrays job_arrays; zeroJob job_of_zeros;
arraysOf arrays_of; noTable table_of_zeros; absentJob absent_job; jobAt job_at; needsBlank needs_blank; jobBlank job_blank;
countsFit counts_fit; valuesFit values_fit; tableJudged table_judged; judgedNumber judged_number; whenFit when_fit;
worstAnswer worst_answer; worstSaid worst_said; eventOf event_of; readSaid read_said; refusedWith refused_with;
writtenSaid written_said; writeAnswer write_answer; writeOut write_out; isEvent is_event; eventLength event_length;
eventIn event_of_value; refusedAt refused_at; orRefused or_refused; readEvent event_reading; eventBytes event_bytes;
endSaid end_said; tableIn table_in; writeJudged write_judged; writingOf writing_of; stationBytes station_bytes;
resourceBytes resource_bytes; jobBytes job_bytes; fieldsBytes fields_bytes; tableBytes table_bytes; jobRead job_read;
withUnits with_units; withJob with_job; whenGood when_good; readFields read_fields; readTable table_reading;
# lemmas and fields
framed-number framed_number; written-length written_length; written-rest written_rest; written-value written_value;
written-framed written_framed; tag-drop tag_drop; one-back one_back; sets-append sets_append; sets-next sets_next;
sets-out sets_out; head-short head_short; head-is head_is; value-cut value_cut; value-whole value_whole;
head-within head_within; not-here not_here; not-long not_long; not-whole not_whole; value-within value_within;
runs-first runs_first; one-activation one_activation; one-stretch one_stretch; blocked-once blocked_once;
never-idle never_idle; the-examples the_examples; release-all-at-once release_all_at_once; start-clears start_clears;
shared-worst shared_worst; shared-order shared_order; top-needs top_needs; top-units top_units; take-fair take_fair;
give-fair give_fair; ceiling-mono ceiling_mono; need-le need_le; ceiling-zero ceiling_zero;
le-resourceCeiling le_resource_ceiling; resourceCeiling-mono resource_ceiling_mono;
resourceCeiling-zero resource_ceiling_zero; pick-case pick_case; by-test by_test; both-parts both_parts;
either-part either_part; neither-parts neither_parts; cleared-before cleared_before; cleared-inside cleared_inside;
cleared-behind cleared_behind; maxBelow-le max_below_le; le-maxBelow le_max_below; maxBelow-mono max_below_mono;
sumBelow-mono sum_below_mono; total-at total_at; total-zeros total_zeros; everyBelow-make every_below_make;
everyBelow-at every_below_at; every-at every_at; every-move every_move; noneAbove-length none_above-length;
noneAbove-at none_above_at; noneAbove-set none_above-set; noneAbove-zeros none_above_zeros; eqb-flip eqb_flip;
contains-move contains_move; once-move once_move; once-first once_first; runner-of runner_of; top-runs top_runs;
demand-3 demand_3; take-18 take_18; never-18 never_18; refused-state refused_state; refused-memory refused_memory;
acquire-starts-none acquire_starts_none; start-holds start_holds; release-all-empties release_all_empties;
frame-largest frame_largest; frames-below frames_below; frames-worst frames_worst; frames-fit frames_fit;
every-moment-fits every_moment_fits; falling-insert falling_insert; pre-applied pre_applied; started-not started_not;
start-inv start_inv; ceiling-held ceiling_held; and-less and_less; inv-after inv_after; inv-moment inv_moment;
active-insert active_insert; next-insert next_insert; order-insert order_insert; units-within units_within;
well-enter well_enter; well-hold well_hold; well-leave well_leave; well-applied well_applied; held-zeros held_zeros;
well-push well_push; well-start well_start; well-after well_after; well-fresh well_fresh; well-moment well_moment;
after-well-formed after_well_formed; every-moment-well-formed every_moment_well_formed; among-insert among_insert;
among-applied among_applied; still-start still_start; sooner-asym sooner_asym; sooner-behind sooner_behind;
sooner-level sooner_level; level-sooner level_sooner; station-written station_written; case-waits case_waits;
case-first case_first; case-last case_last; case-holder case_holder; hand-made-well-formed hand_made_well_formed;
hand-made-18 hand_made_18; all-at all_at; head-sooner head_sooner; passed-holds passed_holds; no-and no_and;
low-yes low_yes; low-no low_no; low-start low_start; low-applied low_applied; low-settle low_settle;
low-after low_after; one-step one_step; low-runs low_runs; same-top same_top; runs-holds runs_holds;
start-empty start_empty; started-empty started_empty; few-jobs few_jobs; few-resources few_resources;
few-units few_units; within-parts within_parts; job-fits job_fits; need-fits need_fits; good-table good_table;
well-parts well_parts; well-formed well_formed_lem; all-zip all_zip; held-units held_units;
units-length units_length; jobs-length jobs_length; needs-length needs_length; level-fits level_fits;
frame-fits frame_fits; station-read station_read; station-too-small station_too_small; empty-refused empty_refused;
"""

# What port.py has turned in the sources by itself, and not in the pages and the edits.
TURNED = """
valueAt value_at; pairAt pair_at; tagOf tag_of; lengthOf length_of; sets-over sets_over; bytes-drop bytes_drop;
at-drop at_drop; two-back two_back; is-whole is_whole; is-framed is_framed; framed-is framed_is;
field-back field_back; byTag by_tag; orElse or_else; endOf end_of; outOf out_of; headOf head_of; jobOf job_of;
needOf need_of; frameOf frame_of; lineOf line_of; answerOf answer_of; runs-last runs_last; holdsOf holds_of;
one-entry one_entry; all-map all_map; live-all live_all; all-insert all_insert; no-start no_start;
kept-then kept_then; low-held low_held; fit-at fit_at; at-set at_set; stop-step stop_step; starts-is starts_is;
all-fair all_fair; isZero is_zero; numberOf number_of; tableOf table_of; size-fits size_fits;
"""

# Fields of the arrays' table, which stand behind a dot alone, so that a count of the rules may be called the same.
FIELDS = {"job_count", "resource_count"}

# A name of antt: a dash may stand inside it.
NAME = re.compile(r"[A-Za-z_][A-Za-z0-9_'-]*")


def table(rows):
    pairs = [p.split() for line in rows.split("\n") if not line.startswith("#") for p in line.split(";") if p.strip()]
    return {old: new for old, new in pairs}


def turned(text, names):
    return NAME.sub(lambda m: names.get(m.group(), m.group()), text)


def quoted(text, names):
    return re.sub(r"`[^`\n]*`", lambda m: turned(m.group(), names), text)


def comment(text, names):
    return quoted(turned(text, {a: b for a, b in names.items() if "-" not in a}), names)


def source(text, mark, names):
    lines = []
    for line in text.split("\n"):
        code, sep, rest = line.partition(mark)
        lines.append(turned(code, names) + sep + comment(rest, names))
    return "\n".join(lines)


def edit(text, names):
    lines = [turned(line, names) if re.match(r"(old|new): ", line) else comment(line, names) for line in text.split("\n")]
    return "\n".join(lines)


def files():
    for pattern in ("crates/*/specs/**/*.antt", "crates/*/proofs/**/*.antt", "crates/*/src/**/*.rt", "crates/*/must-fail/*.edit",
                    "README.md", "docs/*.md"):
        yield from sorted(glob.glob(pattern, recursive=True))


def respelled(path, text, names):
    if path.endswith(".antt"):
        return source(text, "--", names)
    if path.endswith(".rt"):
        return source(text, "//", names)
    if path.endswith(".edit"):
        return edit(text, names)
    return quoted(text, names)


def together(texts, names):
    there = {m for path, text in texts.items() if path.endswith((".antt", ".rt")) for m in NAME.findall(text)}
    news = list(names.values())
    return sorted({n for n in news if n in there or news.count(n) > 1})


def main():
    names = table(NAMES)
    texts = {path: open(path).read() for path in files()}
    clash = [n for n in together(texts, names) if n not in FIELDS]
    if clash:
        sys.exit("respell: these names are there already or stand for two: " + ", ".join(clash))
    for path, text in texts.items():
        new = respelled(path, text, {**table(TURNED), **names})
        if new != text:
            open(path, "w").write(new)
            print("respell:", path)


main()
