"""The cases of the stored vectors: tables for program judge, standard inputs for program replay."""

from collections import Counter

from by_walk import judge_by_walk
from check import TABLE_A
from dice import Dice
from edges import fixed_edges, job_limits
from generate import draw_table, table_of_kind
from house_numbers import write_number
from model import demand
from release_requests import draw_requests
from replaying import MOST_REQUEST, replay_input
from table import read_table, write_table
from verdict import Accepted, judge_lines

RANDOM_TABLES = 2400
ACCEPTED_RUNS = 240
OTHER_TABLES = 20
REPLAY_KINDS = ["small"] * 12 + ["tiny"] * 3 + ["papers few"] * 2 + ["papers plain"] * 2 + ["full load"] * 3 \
    + ["papers many", "long spacings", "margins"]


def judge_cases():
    """Tables: those of the fixed edges, a few with a million jobs in the horizon, the rest by chance."""
    dice = Dice("judge vectors")
    cases = [b"", TABLE_A, b"\x80\x00"] + fixed_edges() + [write_table(tasks) for tasks in job_limits()]
    return cases + [draw_table(dice)[1] for _ in range(RANDOM_TABLES)]


def outcome_of(printed):
    """In a few words, what program judge printed."""
    words = printed.split()
    if words[0] == "turned":
        return "turned away %s" % words[2]
    if words[0] == "refused":
        return "refused by demand" if words[4] == "0" else "refused by a phase"
    return "accepted"


def loaded(tasks, verdict, share):
    """Whether the jobs of a whole horizon fill at least this share of it."""
    return demand(tasks, verdict.counts, verdict.horizon) >= share * verdict.horizon


def accepted_tables(dice):
    """Different tables that the judge accepts, table A and some edges first, most of the others well loaded."""
    edges = [data for data in fixed_edges() if judge_lines(data, judge_by_walk).startswith("accepted")]
    tables = [TABLE_A] + edges[::3]
    while len(tables) < ACCEPTED_RUNS:
        data = table_of_kind(dice, dice.pick(REPLAY_KINDS))
        tasks = read_table(data)
        verdict = judge_by_walk(tasks)
        if isinstance(verdict, Accepted) and data not in tables and loaded(tasks, verdict, dice.pick([0, 0.6, 0.8])):
            tables.append(data)
    return tables


def other_tables(dice):
    """Tables that the dispatcher does not start on, at most three for each reason or kind of refusal."""
    found = Counter()
    tables = []
    while len(tables) < OTHER_TABLES:
        data = draw_table(dice)[1]
        outcome = outcome_of(judge_lines(data, judge_by_walk))
        if outcome != "accepted" and found[outcome] < 3:
            found[outcome] += 1
            tables.append(data)
    return tables


def bad_lengths(whole):
    """Inputs whose length number is malformed, out of range, or more than the bytes that follow."""
    return [b"", b"\x00", b"\x80", b"\x80\x00", b"\xff" * 7, b"\xff" * 8, b"\xff" * 8 + whole, write_number(65535),
            write_number(65536) + whole, write_number(2 ** 56 - 1), whole[:1], whole[:4], b"\x02\x80\x00\x81"]


def bad_ticks(dice):
    """Runs of table A that end in a bad tick number, or in the largest good one."""
    endings = [b"\x80", b"\x80\x80", b"\xff" * 7, b"\xff" * 8, b"\x80\x00", b"\xff\x00\x01", write_number(MOST_REQUEST),
               write_number(MOST_REQUEST + 1), write_number(2 ** 56 - 1) + b"\x00", write_number(2 ** 34) + b"\x80"]
    return [replay_input(TABLE_A, draw_requests(dice, read_table(TABLE_A), 15)) + ending for ending in endings]


def spoiled_runs(dice, runs):
    """Runs cut anywhere, and runs with the top bit of one byte changed."""
    cases = []
    for run in runs:
        cases.append(run[:dice.between(1, len(run) - 1)])
        place = dice.between(0, len(run) - 1)
        cases.append(run[:place] + bytes([run[place] ^ 128]) + run[place + 1:])
    return cases


def replay_cases():
    """Standard inputs: runs of accepted tables, tables not started on, damaged inputs."""
    dice = Dice("replay vectors")
    runs = [replay_input(data, draw_requests(dice, read_table(data), dice.between(120, 360)))
            for data in accepted_tables(dice)]
    others = [replay_input(data, [(dice.word(), 0), (1, 1)]) for data in other_tables(dice)]
    return runs + others + bad_lengths(runs[0]) + bad_ticks(dice) + spoiled_runs(dice, runs[1:6])
