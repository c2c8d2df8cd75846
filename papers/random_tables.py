"""Tables by chance: tiny ones, small busy ones, and those of the papers' experiments (UUniFast)."""

from table import MOST_COST, MOST_PHASES, MOST_WORK, Phase, Task, horizon, jobs_in_horizon

# Spacings are mostly drawn from the divisors of one of these, to keep horizons and test points few.
BASES = [24, 36, 60, 72, 96, 120, 144, 180, 240, 360]


def uunifast(dice, number, total):
    """`number` shares that add up to `total`, uniformly distributed (Bini and Buttazzo)."""
    shares = []
    for left in range(number - 1, 0, -1):
        rest = total * dice.share() ** (1 / left)
        shares.append(total - rest)
        total = rest
    return shares + [total]


def tiny_phase(dice):
    """A phase small enough for trying every count."""
    return Phase(dice.between(1, dice.pick([1, 2, 3, 4, 6])), dice.pick([0, 0, 0, 0, 1, 1, 2]))


def tiny_task(dice):
    """A task with a short spacing."""
    spacing = dice.between(dice.pick([1, 4, 8]), dice.pick([8, 12, 16, 24]))
    deadline = spacing if dice.chance(0.4) else dice.between(dice.pick([1, (spacing + 1) // 2]), spacing)
    return Task(spacing, deadline, tuple(tiny_phase(dice) for _ in range(dice.pick([1, 1, 1, 2]))))


def tiny_long_task(dice):
    """A task with much work and a late deadline, which has to be cut where others are more urgent."""
    spacing = dice.pick([18, 20, 24, 30, 36])
    phases = tuple(Phase(dice.between(3, dice.pick([6, 12])), dice.pick([0, 0, 0, 1])) for _ in range(dice.pick([1, 1, 2])))
    return Task(spacing, spacing - dice.between(0, 4), phases)


def choices_of(tasks):
    """The number of choices with each count from 1 to c."""
    number = 1
    for task in tasks:
        for phase in task.phases:
            number *= phase.work
    return number


def tiny_tasks(dice):
    """A table small enough for trying every choice of counts at every length."""
    while True:
        tasks = [tiny_task(dice) for _ in range(dice.pick([1, 2, 2, 2, 3]))]
        if dice.chance(0.5):
            tasks = dice.shuffled(tasks[:2] + [tiny_long_task(dice)])
        if horizon(tasks) <= 72 and choices_of(tasks) <= 80:
            return tasks


def divisors(base, least, most):
    """The divisors of `base` from `least` to `most`."""
    return [value for value in range(least, min(most, base) + 1) if base % value == 0]


def shared_phases(dice, time, number, cost_share):
    """Phases that share out `time` between works and costs by UUniFast, within the limits of both."""
    shares = uunifast(dice, 2 * number, time)
    phases = []
    for work, cost in zip(shares[::2], shares[1::2]):
        work += cost * (1 - cost_share)
        phases.append(Phase(min(MOST_WORK, max(1, round(work))), min(MOST_COST, round(cost * cost_share))))
    return tuple(phases)


def loaded_task(dice, spacing, load, implicit, most_phases, cost_share):
    """A task of about this load; its deadline is T, or by chance from its execution time to T."""
    phases = shared_phases(dice, spacing * load, dice.between(1, most_phases), cost_share)
    time = sum(phase.work + phase.cost for phase in phases)
    deadline = spacing if implicit or time >= spacing else dice.between(time, spacing)
    return Task(spacing, deadline, phases)


def paper_tasks(dice, number, spacings, most_phases=4):
    """A table as in the papers: UUniFast loads, spacings drawn by `spacings`, implicit or constrained deadlines."""
    total = dice.pick([0.1, 0.2, 0.3, 0.4, 0.5, 0.6, 0.7, 0.8, 0.9, 0.95, 0.98, 0.999])
    implicit = dice.chance(0.5)
    cost_share = dice.pick([0.0, 0.02, 0.1, 0.3, 1.0])
    return [loaded_task(dice, spacings(), load, implicit, most_phases, cost_share)
            for load in uunifast(dice, number, total)]


def small_tasks(dice):
    """A few tasks with short spacings, so that much happens in few ticks."""
    choices = divisors(dice.pick(BASES), 4, 60)
    return paper_tasks(dice, dice.between(1, 6), lambda: dice.pick(choices), dice.pick([1, 2, 4]))


def papers_few(dice):
    """Three to eight tasks with spacings as in the papers, in tenths of their unit."""
    choices = divisors(dice.pick([600, 1200, 1800, 2400, 4200]), 100, 300)
    return paper_tasks(dice, dice.between(3, 8), lambda: dice.pick(choices))


def papers_plain(dice):
    """Three or four tasks with spacings uniform from 10 to 30, exactly as in the papers."""
    return paper_tasks(dice, dice.between(3, 4), lambda: dice.between(10, 30))


def papers_many(dice):
    """Nine to 32 tasks of up to eight phases, spacings among the divisors of one number."""
    base = dice.pick([5040, 10080, 12600, 25200, 50400])
    choices = divisors(base, 500, base)
    return paper_tasks(dice, dice.between(9, 32), lambda: dice.pick(choices), MOST_PHASES)


def long_spacings(dice):
    """Spacings of thousands to hundreds of millions of ticks in small ratios."""
    unit = dice.between(1_000, dice.pick([10_000, 1_000_000, 80_000_000]))
    return paper_tasks(dice, dice.between(1, 8), lambda: unit * dice.pick([1, 2, 3, 4, 6, 12]), MOST_PHASES)


def full_load(dice):
    """Tasks whose demand at the horizon is exactly H, or a tick more or less: the walk goes to its end."""
    whole = dice.pick(BASES)
    tasks = []
    room = whole + dice.pick([-1, 0, 0, 1, 2])
    for _ in range(dice.between(1, 5)):
        spacing = dice.pick(divisors(whole, 2, whole))
        work = dice.between(1, max(1, spacing // 3))
        if work * (whole // spacing) < room:
            room -= work * (whole // spacing)
            tasks.append(Task(spacing, spacing - (dice.between(0, spacing - work) if dice.chance(0.1) else 0),
                              (Phase(work, 0),)))
    return dice.shuffled(tasks + [Task(whole, whole, (Phase(room, 0),))])


def with_few_points(make, dice, most):
    """A table made by `make` with at most about this many test points."""
    while True:
        tasks = make(dice)
        if jobs_in_horizon(tasks) <= most:
            return tasks
