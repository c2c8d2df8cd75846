"""What program replay prints: a table and its tick requests on one standard input, run by the dispatcher."""

from by_walk import judge_by_walk
from dispatcher import ready
from house_numbers import ENDS_EARLY, TurnedAway, read_number_within, write_number
from table import read_table
from verdict import Accepted, judge_lines, verdict_lines

MOST_TABLE_BYTES = 65535
MOST_REQUEST = 2 ** 33 - 1


class Tally:
    """For one task: jobs let in, jobs finished, tick of the last release, worst response."""

    def __init__(self):
        self.let_in = 0
        self.finished = 0
        self.released = 0
        self.worst = 0


def replay_input(table, requests):
    """A standard input of replay: the table behind its length, then 2*mask + flag for each tick."""
    ticks = b"".join(write_number(2 * mask + flag) for mask, flag in requests)
    return write_number(len(table)) + table + ticks


def split_table(data):
    """The table's bytes and the place behind them; raises TurnedAway for a bad length."""
    length, start = read_number_within(data, 0, 0, MOST_TABLE_BYTES)
    if len(data) - start < length:
        raise TurnedAway(ENDS_EARLY, len(data))
    return data[start:start + length], start + length


def input_line(away):
    """The line for bad input around the table."""
    return "input turned away %d %d\n" % (away.reason, away.place)


def tick_line(number, answer):
    """The line of one tick."""
    ran = "%d %d %d" % answer[3:6] if answer.task else "-"
    end = " finished" if answer.finished else " ended" if answer.ended else ""
    return "%d %d %d %s%s\n" % (number, answer.let_in, answer.turned_away, ran, end)


def count_tick(tallies, number, answer):
    """Keep the tallies right through one tick."""
    for place, tally in enumerate(tallies):
        if answer.let_in >> place & 1:
            tally.let_in += 1
            tally.released = number
    if answer.finished:
        tally = tallies[answer.task - 1]
        tally.finished += 1
        tally.worst = max(tally.worst, number - tally.released + 1)


def task_lines(tasks, tallies):
    """The lines at the end, one a task."""
    return "".join("task %d: %d let in, %d finished, worst response %d of %d\n"
                   % (number, tally.let_in, tally.finished, tally.worst, task.deadline)
                   for number, (task, tally) in enumerate(zip(tasks, tallies), 1))


def run_lines(data, place, dispatcher, tallies):
    """The lines of all ticks, and of the bad number that ends them early."""
    lines = []
    number = 0
    while place < len(data):
        try:
            request, place = read_number_within(data, place, 0, MOST_REQUEST)
        except TurnedAway as away:
            lines.append(input_line(away))
            break
        answer = dispatcher.tick(request // 2, request % 2 == 1)
        count_tick(tallies, number, answer)
        lines.append(tick_line(number, answer))
        number += 1
    return "".join(lines)


def replay_lines(data):
    """Everything that program replay prints for one standard input."""
    try:
        table, place = split_table(data)
    except TurnedAway as away:
        return input_line(away)
    try:
        tasks = read_table(table)
    except TurnedAway:
        return judge_lines(table, judge_by_walk)
    verdict = judge_by_walk(tasks)
    if not isinstance(verdict, Accepted):
        return verdict_lines(verdict)
    tallies = [Tally() for _ in tasks]
    return run_lines(data, place, ready(tasks, verdict.counts), tallies) + task_lines(tasks, tallies)
