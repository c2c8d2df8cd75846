"""The judge's two verdicts, their answer bytes, and the lines that program judge prints."""

from typing import NamedTuple

from house_numbers import TurnedAway, write_number
from table import read_table

LEAST_BUFFER = 1162


class Accepted(NamedTuple):
    """Horizon, points examined, least counts and longest piece of each task."""
    horizon: int
    points: int
    counts: list
    longest: list


class Refused(NamedTuple):
    """Witness, demand there, points examined, blocked task and phase (from 1, or 0 and 0)."""
    witness: int
    demand: int
    points: int
    task: int
    phase: int


def answer_bytes(verdict):
    """The bytes that the judge writes into its answer buffer."""
    if isinstance(verdict, Accepted):
        numbers = [0, verdict.horizon, verdict.points]
        for counts, longest in zip(verdict.counts, verdict.longest):
            numbers += counts + [longest]
    else:
        numbers = [1, *verdict]
    return b"".join(write_number(value) for value in numbers)


def verdict_lines(verdict):
    """What program judge prints for a verdict."""
    if isinstance(verdict, Refused):
        return "refused %d %d %d %d %d\n" % verdict
    lines = ["accepted %d %d\n" % (verdict.horizon, verdict.points)]
    for number, (counts, longest) in enumerate(zip(verdict.counts, verdict.longest), 1):
        lines.append(" ".join(str(value) for value in [number, *counts, longest]) + "\n")
    return "".join(lines)


def judge_lines(data, judge):
    """What program judge prints for a table's bytes, the verdict found by `judge`."""
    try:
        tasks = read_table(data)
    except TurnedAway as away:
        return "turned away %d %d\n" % (away.reason, away.place)
    return verdict_lines(judge(tasks))
