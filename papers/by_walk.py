"""The judge by a walk over the test points in rising order, raising counts to the least that fit each margin."""

from heapq import heapify, heapreplace

from model import budget, longest_piece
from table import horizon
from verdict import Accepted, Refused


def unfitting_phase(tasks, length, room):
    """The first phase, numbered from 1, of a task with D above `length` whose q is at least `room`, or None."""
    for number, task in enumerate(tasks, 1):
        if task.deadline > length:
            for place, phase in enumerate(task.phases, 1):
                if phase.cost >= room:
                    return number, place
    return None


def raise_counts(tasks, choice, length, room):
    """Raise each count of the tasks with D above `length` to the least that brings its piece under `room`."""
    for task, counts in zip(tasks, choice):
        if task.deadline > length:
            for place, phase in enumerate(task.phases):
                counts[place] = max(counts[place], -(-phase.work // (room - phase.cost)))


def judge_by_walk(tasks):
    """The verdict. A task's budget is final at its first deadline, so demand grows by it at each of its deadlines."""
    whole = horizon(tasks)
    longest_deadline = max(task.deadline for task in tasks)
    choice = [[1] * len(task.phases) for task in tasks]
    budgets = [0] * len(tasks)
    heap = [(task.deadline, place) for place, task in enumerate(tasks)]
    heapify(heap)
    asked = 0
    points = 0
    while heap[0][0] <= whole:
        length = heap[0][0]
        points += 1
        while heap[0][0] == length:
            place = heap[0][1]
            if length == tasks[place].deadline:
                budgets[place] = budget(tasks[place], choice[place])
            asked += budgets[place]
            heapreplace(heap, (length + tasks[place].spacing, place))
        if asked > length:
            return Refused(length, asked, points, 0, 0)
        if length < longest_deadline:
            blocked = unfitting_phase(tasks, length, length - asked)
            if blocked:
                return Refused(length, asked, points, *blocked)
            raise_counts(tasks, choice, length, length - asked)
    longest = [longest_piece(task, counts) for task, counts in zip(tasks, choice)]
    return Accepted(whole, points, choice, longest)
