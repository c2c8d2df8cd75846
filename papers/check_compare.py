#!/usr/bin/env python3
"""The self check of the comparison: right bytes pass, and any changed, missing or added byte is told."""

from comparing import draw_case
from dice import Dice
from difference import first_difference

NUMBER = 60


def changed_at(data, place):
    """The bytes with the lowest bit of one changed."""
    return data[:place] + bytes([data[place] ^ 1]) + data[place + 1:]


def check_steps(dice, case):
    """A byte changed in any step of a case is told as a difference in that step."""
    right = b"".join(step.expected for step in case.steps)
    start = 0
    for step in case.steps:
        place = start + dice.between(0, len(step.expected) - 1)
        lines = first_difference([case], changed_at(right, place))
        assert len(lines) > 1 and lines[0].startswith("difference in %s, table" % step.kind), lines
        start += len(step.expected)


def check_comparison():
    """The whole check; returns what was looked at."""
    dice = Dice("comparison")
    cases = [draw_case(dice) for _ in range(NUMBER)]
    right = b"".join(step.expected for case in cases for step in case.steps)
    assert first_difference(cases, right) is None
    assert first_difference(cases, right[:-1])[-1] == "the driver stopped before or in this step"
    assert first_difference(cases, right + b"\x00") == ["the driver gave back more than was asked"]
    for case in cases:
        check_steps(dice, case)
    kinds = {step.kind for case in cases for step in case.steps}
    assert kinds == {"judge", "start", "ticks", "ticks from a changed record"}
    return "the comparison tells a changed byte in each step of %d cases" % NUMBER


if __name__ == "__main__":
    print("self check: " + check_comparison())
