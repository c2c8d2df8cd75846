"""Task tables: the model's tasks and phases, the limits, and tables read from and written as bytes (document 01)."""

from typing import NamedTuple

from house_numbers import (BYTES_LEFT_OVER, HORIZON_TOO_LARGE, TOO_MANY_POINTS, TurnedAway, read_number_within,
                           write_number)

MOST_TASKS = 32
MOST_SPACING = 1_000_000_000
MOST_PHASES = 8
MOST_WORK = 10_000_000
MOST_COST = 10_000_000
MOST_HORIZON = 1_000_000_000_000
MOST_JOBS = 1_000_000


class Phase(NamedTuple):
    """Work c and switching cost q of one phase."""
    work: int
    cost: int


class Task(NamedTuple):
    """Least spacing T, relative deadline D, phases in order."""
    spacing: int
    deadline: int
    phases: tuple


def greatest_common_divisor(one, other):
    """Worked out by calling again on the remainder."""
    return one if other == 0 else greatest_common_divisor(other, one % other)


def horizon(tasks):
    """H, the least common multiple of the spacings."""
    multiple = 1
    for task in tasks:
        multiple = multiple // greatest_common_divisor(multiple, task.spacing) * task.spacing
    return multiple


def jobs_in_horizon(tasks):
    """The sum of H/T over the tasks."""
    whole = horizon(tasks)
    return sum(whole // task.spacing for task in tasks)


def read_phase(data, place):
    """One phase and the place behind it."""
    work, place = read_number_within(data, place, 1, MOST_WORK)
    cost, place = read_number_within(data, place, 0, MOST_COST)
    return Phase(work, cost), place


def read_task(data, place):
    """One task and the place behind it."""
    spacing, place = read_number_within(data, place, 1, MOST_SPACING)
    deadline, place = read_number_within(data, place, 1, spacing)
    number, place = read_number_within(data, place, 1, MOST_PHASES)
    phases = []
    for _ in range(number):
        phase, place = read_phase(data, place)
        phases.append(phase)
    return Task(spacing, deadline, tuple(phases)), place


def read_table(data):
    """The tasks of a table's bytes; raises TurnedAway with reasons 2 to 7."""
    number, place = read_number_within(data, 0, 1, MOST_TASKS)
    tasks = []
    for _ in range(number):
        task, place = read_task(data, place)
        tasks.append(task)
    if place < len(data):
        raise TurnedAway(BYTES_LEFT_OVER, place)
    if horizon(tasks) > MOST_HORIZON:
        raise TurnedAway(HORIZON_TOO_LARGE, 0)
    if jobs_in_horizon(tasks) > MOST_JOBS:
        raise TurnedAway(TOO_MANY_POINTS, 0)
    return tasks


def table_numbers(tasks):
    """The numbers of a table in the order in which they are written."""
    numbers = [len(tasks)]
    for task in tasks:
        numbers += [task.spacing, task.deadline, len(task.phases)]
        for phase in task.phases:
            numbers += [phase.work, phase.cost]
    return numbers


def write_table(tasks):
    """The bytes of a table."""
    return b"".join(write_number(value) for value in table_numbers(tasks))
