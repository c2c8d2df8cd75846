#!/usr/bin/env python3
"""The generator of tables: the papers' style, edges and damaged bytes, the same for the same seed."""

import sys

from check import check_all
from damage import damaged
from dice import Dice
from edges import fixed_edges, horizon_pair, margins, number_at_limit
from random_tables import (full_load, long_spacings, papers_few, papers_many, papers_plain, small_tasks, tiny_tasks,
                           with_few_points)
from table import write_table
from verdict import judge_lines
from by_walk import judge_by_walk

MOST_POINTS = 3000
FIXED_EDGES = fixed_edges()

MAKERS = {"tiny": tiny_tasks, "small": small_tasks, "papers few": papers_few, "papers plain": papers_plain,
          "papers many": papers_many, "long spacings": long_spacings, "full load": full_load, "margins": margins,
          "horizon": horizon_pair}

# How often each kind is drawn, in hundredths.
WEIGHTS = {"tiny": 10, "small": 24, "papers few": 8, "papers plain": 6, "papers many": 3, "long spacings": 6,
           "full load": 8, "margins": 11, "horizon": 1, "at limit": 3, "fixed edge": 2, "damaged": 18}


def table_of_kind(dice, kind):
    """The bytes of a table of this kind."""
    if kind == "damaged":
        return damaged(dice)
    if kind == "fixed edge":
        return dice.pick(FIXED_EDGES)
    if kind == "at limit":
        return number_at_limit(dice, small_tasks(dice))
    return write_table(with_few_points(MAKERS[kind], dice, MOST_POINTS))


def draw_table(dice):
    """A kind by its weight, and the bytes of a table of this kind."""
    left = dice.between(0, sum(WEIGHTS.values()) - 1)
    for kind, weight in WEIGHTS.items():
        if left < weight:
            return kind, table_of_kind(dice, kind)
        left -= weight
    raise AssertionError("weights do not add up")


def main(seed, number):
    """Print this many tables, each with its kind and what program judge prints for it."""
    check_all()
    dice = Dice(seed)
    for _ in range(number):
        kind, data = draw_table(dice)
        print("%s: %s\n%s" % (kind, data.hex(" "), judge_lines(data, judge_by_walk)), end="")


if __name__ == "__main__":
    main(sys.argv[1], int(sys.argv[2]))
