"""Tick requests: masks of releases in several styles, and flags that end pieces early at several rates."""

ALL = 2 ** 32 - 1
FLAG_RATES = [0, 0, 0, 0.02, 0.1, 0.3, 0.7, 1]


def every_bit(dice, tasks, number):
    """All 32 bits in every tick."""
    return [ALL] * number


def dense(dice, tasks, number):
    """Random words, so that also tasks that do not exist ask."""
    return [dice.word() for _ in range(number)]


def own_bits(dice, tasks, number):
    """Bits of tasks that exist, each at the same rate."""
    rate = dice.pick([0.02, 0.1, 0.3, 0.6])
    return [sum(1 << place for place in range(len(tasks)) if dice.chance(rate)) for _ in range(number)]


def all_at_once(dice, tasks, number):
    """All tasks in one tick, then nothing for a while."""
    every = dice.between(1, 2 * max(min(task.spacing, 40) for task in tasks))
    return [(1 << len(tasks)) - 1 if tick % every == 0 else 0 for tick in range(number)]


def spaced(dice, tasks, number):
    """Each task asks exactly T after it last did, and one tick early; now and then a little late."""
    masks = [0] * number
    for place, task in enumerate(tasks):
        tick = dice.pick([0, 0, dice.between(0, task.spacing)])
        while tick < number:
            masks[tick] |= 1 << place
            if tick > 0:
                masks[tick - 1] |= 1 << place if dice.chance(0.5) else 0
            tick += task.spacing + (dice.between(0, task.spacing) if dice.chance(0.1) else 0)
    return masks


def bursts(dice, tasks, number):
    """Stretches of words with quiet stretches between them."""
    masks = []
    while len(masks) < number:
        masks += [dice.word() for _ in range(dice.between(1, 30))] + [0] * dice.between(1, 60)
    return masks[:number]


def lone_bits(dice, tasks, number):
    """One bit in a tick, sometimes of a task that does not exist."""
    return [1 << dice.between(0, min(31, len(tasks))) for _ in range(number)]


STYLES = [every_bit, dense, own_bits, own_bits, all_at_once, spaced, spaced, bursts, lone_bits]


def draw_requests(dice, tasks, number):
    """The masks and flags of this many ticks, in a style and with a flag rate drawn by chance."""
    masks = dice.pick(STYLES)(dice, tasks, number)
    rate = dice.pick(FLAG_RATES)
    return [(mask, 1 if rate and dice.chance(rate) else 0) for mask in masks]
