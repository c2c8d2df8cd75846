"""The judge by definition: every choice of counts is tried at every length. For tiny tables only."""

from itertools import product

from model import (demand, holds_at, longest_piece, longest_piece_of_phase, margin, shortest_deadline, test_points)
from table import horizon
from verdict import Accepted, Refused


def every_choice(tasks, beyond):
    """All choices with each count from 1 to c + beyond. Above c a count costs more and shortens no piece."""
    ranges = [range(1, phase.work + beyond + 1) for task in tasks for phase in task.phases]
    for flat in product(*ranges):
        counts = iter(flat)
        yield [[next(counts) for _ in task.phases] for task in tasks]


def first_failure(tasks, choice, last, of_phase):
    """The least t up to `last` at which the condition fails, or None: the choice works up to every t before it."""
    for length in range(shortest_deadline(tasks), last + 1):
        if not holds_at(tasks, choice, length, of_phase):
            return length
    return None


def least_of(choices):
    """The choice that is least phase by phase; it has to be one of the choices itself."""
    least = [[min(column) for column in zip(*rows)] for rows in zip(*choices)]
    assert least in choices, "no choice is least phase by phase"
    return least


def blocked_phase(tasks, choice, length):
    """The first phase of a task with D above t whose q is at least the margin, numbered from 1."""
    room = margin(tasks, choice, length)
    for number, task in enumerate(tasks, 1):
        for place, phase in enumerate(task.phases, 1):
            if task.deadline > length and phase.cost >= room:
                return number, place
    raise AssertionError("refused, but neither by demand nor by a phase")


def refusal(tasks, failures):
    """The refused verdict, from each choice with the first length at which it fails."""
    witness = max(failure for _, failure in failures)
    least = least_of([choice for choice, failure in failures if failure == witness])
    asked = demand(tasks, least, witness)
    points = [point for point in test_points(tasks) if point <= witness]
    assert witness in points, "the witness is not a test point"
    task, phase = (0, 0) if asked > witness else blocked_phase(tasks, least, witness)
    return Refused(witness, asked, len(points), task, phase)


def judge_by_definition(tasks, beyond=0, of_phase=longest_piece_of_phase):
    """The verdict; lengths are looked at to twice the horizon and the longest deadline more."""
    whole = horizon(tasks)
    last = 2 * whole + max(task.deadline for task in tasks)
    failures = [(choice, first_failure(tasks, choice, last, of_phase)) for choice in every_choice(tasks, beyond)]
    working = [choice for choice, failure in failures if failure is None]
    if not working:
        return refusal(tasks, failures)
    least = least_of(working)
    longest = [longest_piece(task, counts) for task, counts in zip(tasks, least)]
    return Accepted(whole, len(test_points(tasks)), least, longest)
