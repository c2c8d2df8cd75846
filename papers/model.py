"""The task model's sentences, one function each: budget, longest piece, demand, blocking, margin, test points."""

from fractions import Fraction

from table import horizon

# A choice of counts is a list with one list of counts for each task, in phase order.


def budget(task, counts):
    """The sum over the phases of c + x*q (000, equation 2)."""
    return sum(phase.work + count * phase.cost for phase, count in zip(task.phases, counts))


def longest_piece_of_phase(phase, count):
    """c divided by x, rounded up, plus q."""
    return -(-phase.work // count) + phase.cost


def exact_longest_piece_of_phase(phase, count):
    """c divided by x, not rounded, plus q (000, equation 1)."""
    return Fraction(phase.work, count) + phase.cost


def longest_piece(task, counts, of_phase=longest_piece_of_phase):
    """The largest longest piece over the task's phases."""
    return max(of_phase(phase, count) for phase, count in zip(task.phases, counts))


def demand(tasks, choice, length):
    """Over all tasks with D at most t, the sum of (floor((t - D)/T) + 1) times the budget (000, equation 4)."""
    return sum(((length - task.deadline) // task.spacing + 1) * budget(task, counts)
               for task, counts in zip(tasks, choice) if task.deadline <= length)


def blocking(tasks, choice, length, of_phase=longest_piece_of_phase):
    """The largest longest piece among tasks with D strictly greater than t; 0 when there are none."""
    return max((longest_piece(task, counts, of_phase)
                for task, counts in zip(tasks, choice) if task.deadline > length), default=0)


def margin(tasks, choice, length):
    """t minus demand (000, equation 3)."""
    return length - demand(tasks, choice, length)


def shortest_deadline(tasks):
    """The length from which on the condition is asked."""
    return min(task.deadline for task in tasks)


def holds_at(tasks, choice, length, of_phase=longest_piece_of_phase):
    """Demand plus blocking is at most t."""
    return demand(tasks, choice, length) + blocking(tasks, choice, length, of_phase) <= length


def test_points(tasks):
    """The values kT + D with k from 0, at most H, in rising order, equal values once."""
    whole = horizon(tasks)
    return sorted({point for task in tasks for point in range(task.deadline, whole + 1, task.spacing)})


def piece_length(phase, count, piece):
    """Ticks of piece number `piece` (from 1) of a phase cut into `count` pieces."""
    quotient, remainder = divmod(phase.work, count)
    return quotient + (1 if piece <= remainder else 0) + phase.cost
