"""Tables at the edges: limits and one beyond, margins of exactly q and q + 1, horizons and sums at their limits."""

from house_numbers import write_number
from table import (MOST_COST, MOST_HORIZON, MOST_JOBS, MOST_PHASES, MOST_SPACING, MOST_TASKS, MOST_WORK, Phase, Task,
                   greatest_common_divisor, table_numbers, write_table)

# Powers of two at which a narrower number would wrap, with the most that eight groups hold.
WRAPS = [2 ** 8, 2 ** 16, 2 ** 31, 2 ** 32, 2 ** 40, 2 ** 56 - 1]


def one_phase(spacing, deadline, work, cost):
    """A task of one phase."""
    return Task(spacing, deadline, (Phase(work, cost),))


def write_numbers(numbers):
    """The bytes of any numbers, in range or not."""
    return b"".join(write_number(value) for value in numbers)


def largest_costs():
    """Works, costs and spacings at their limits; demand far above 32 bits."""
    full = (Phase(MOST_WORK, MOST_COST),) * MOST_PHASES
    longest = Task(MOST_SPACING, MOST_SPACING, full)
    tables = [[longest] * number for number in (1, 6, 7, MOST_TASKS)]
    tables += [[Task(MOST_SPACING, MOST_SPACING - place, full) for place in range(number)] for number in (6, MOST_TASKS)]
    for room in (MOST_COST - 1, MOST_COST, MOST_COST + 1, MOST_COST + 2, MOST_COST + MOST_WORK):
        urgent = one_phase(MOST_SPACING, room + 1, 1, 0)
        tables += [[urgent] + [longest] * number for number in (1, 5, MOST_TASKS - 1)]
        tables.append([Task(MOST_SPACING, MOST_SPACING, (Phase(MOST_WORK, 0),) * MOST_PHASES), urgent])
    return tables


def largest_counts():
    """Phases that have to be cut into millions of pieces."""
    urgent = one_phase(MOST_SPACING, 2, 1, 0)
    tables = []
    for number, work in ((1, MOST_WORK), (8, MOST_WORK), (MOST_TASKS - 1, 2 ** 21), (MOST_TASKS - 1, 4_032_258)):
        cut = Task(MOST_SPACING, MOST_SPACING, (Phase(work, 0),) * MOST_PHASES)
        tables += [[urgent] + [cut] * number, [cut] * number + [urgent]]
    return tables


def smallest():
    """Tables of the smallest numbers."""
    tables = [[one_phase(1, 1, 1, 0)], [one_phase(1, 1, 1, 1)], [one_phase(2, 1, 1, 0)], [one_phase(1, 1, 2, 0)]]
    tables += [[one_phase(2, 2, 1, 0)] * number for number in (1, 2, 3)]
    tables += [[one_phase(number, number, 1, 0)] * number for number in (31, 32)]
    return tables + [[one_phase(31, 31, 1, 0)] * 32]


def widest():
    """Thirty-two tasks of eight phases, accepted and not."""
    tables = []
    for spacing in (256, 511, 512, 513, 1000, 5000):
        for cost in (0, 1, 2):
            tables.append([Task(spacing, spacing, (Phase(1, cost),) * MOST_PHASES)] * MOST_TASKS)
            tables.append([Task(2 * spacing, 2 * spacing - place, (Phase(3, cost),) * MOST_PHASES)
                           for place in range(MOST_TASKS)])
    return tables


def margins(dice):
    """One urgent task and others whose q is just under, at or just over its margin."""
    room = dice.between(1, dice.pick([3, 10, 100, 100_000]))
    busy = dice.between(1, 50)
    spacing = (room + busy) * dice.between(6, 40)
    tasks = [one_phase(spacing, room + busy, busy, 0)]
    for _ in range(dice.between(1, 3)):
        phases = tuple(Phase(dice.between(1, 4), max(0, room - dice.pick([0, 1, 1, 1, 2, 3]))) if dice.chance(0.4)
                       else Phase(dice.between(1, 3 * room), 0) for _ in range(dice.between(1, 3)))
        tasks.append(Task(spacing, dice.pick([spacing, spacing - busy, 2 * (room + busy), room + busy]), phases))
    return dice.shuffled(tasks)


def horizon_pair(dice):
    """Two spacings with a horizon just below or just over its limit, and few jobs in it."""
    while True:
        one, other = dice.between(1010, 1400), dice.between(1010, 1400)
        if greatest_common_divisor(one, other) == 1:
            unit = MOST_HORIZON // (one * other) + dice.pick([0, 1])
            return [one_phase(unit * one, unit * one - dice.between(0, unit), dice.between(1, MOST_WORK), 3),
                    one_phase(unit * other, unit * other, dice.between(1, MOST_WORK), 0)]


def horizon_limits():
    """Horizons of exactly the limit, one spacing on from it, and far past 64 bits."""
    exact = [one_phase(320_000_000, 320_000_000, 1, 0), one_phase(976_562_500, 976_562_500, 9_999_999, 7)]
    over = [one_phase(1_000_001, 1_000_001, 1, 0), one_phase(1_000_000, 1_000_000, 1, 0)]
    odd = [one_phase(MOST_SPACING - 2 * place - 1, 999, 1, 0) for place in range(MOST_TASKS)]
    wrapped = [one_phase(2 ** power, 2 ** power, 1, 0) for power in (29, 20)] + [one_phase(5 ** 12, 5 ** 12, 1, 0)]
    longer = [exact + [one_phase(spacing, spacing, 5, 2)] for spacing in (MOST_SPACING, 7, 999_999_937)]
    return longer + [exact, exact[::-1], over, over[::-1], odd, odd[:3], odd[:2], wrapped,
            [one_phase(MOST_SPACING, 5, 1, 0), one_phase(1000, 1000, 1, 0)],
            [one_phase(MOST_SPACING, 5, 1, 0), one_phase(1001, 1000, 1, 0)]]


def too_many_jobs(dice):
    """A table whose sum of H/T is just over its limit."""
    short = dice.between(1, 200)
    number = dice.between(1, 5)
    whole = ((MOST_JOBS - number) // number + dice.between(1, 3)) * short
    tasks = [one_phase(short, dice.between(1, short), 1, 0)] * number + [one_phase(whole, whole, 1, 0)]
    return dice.shuffled(tasks)


def job_limits():
    """Sums of H/T of exactly the limit and one more; few, as the first kind has a million test points."""
    def sum_of(jobs, work):
        return [one_phase(2, 2, 1, 0), one_phase(2 * (jobs - 1), 2 * (jobs - 1), work, 0)]
    refused_early = [one_phase(1, 1, 1, 0), one_phase(MOST_JOBS - 1, 7, 1, 0)]
    return [sum_of(MOST_JOBS, 300_000), sum_of(MOST_JOBS, MOST_JOBS), sum_of(MOST_JOBS + 1, 300_000), refused_early,
            [one_phase(1, 1, 1, 0), one_phase(MOST_JOBS, 7, 1, 0)]]


def limits_of(numbers, place, kind):
    """The values at and one beyond the limits of a table's number of this kind."""
    spacing = numbers[place - 1] if kind == "deadline" else 0
    most = {"tasks": MOST_TASKS, "spacing": MOST_SPACING, "deadline": spacing, "phases": MOST_PHASES,
            "work": MOST_WORK, "cost": MOST_COST}[kind]
    return [0, 1, most, most + 1] + WRAPS + [wrap + numbers[place] for wrap in WRAPS[:-1]]


def kinds_of(tasks):
    """The kind of each number of a table, in the order in which they are written."""
    kinds = ["tasks"]
    for task in tasks:
        kinds += ["spacing", "deadline", "phases"] + ["work", "cost"] * len(task.phases)
    return kinds


def number_at_limit(dice, tasks):
    """The bytes of a table with one number put at one of its limits, or one beyond."""
    numbers = table_numbers(tasks)
    place = dice.between(0, len(numbers) - 1)
    numbers[place] = dice.pick(limits_of(numbers, place, kinds_of(tasks)[place]))
    return write_numbers(numbers)


def fixed_edges():
    """All edge tables that need no chance, in bytes, those with a million test points left out."""
    tables = largest_costs() + largest_counts() + smallest() + widest() + horizon_limits()
    return [write_table(tasks) for tasks in tables]
