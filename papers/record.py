"""The dispatcher's record as document 01 lists it: flat arrays, the ranges of its fields, and the empty record."""

from dispatcher import Dispatcher, Job, Standing
from table import MOST_COST, MOST_PHASES, MOST_SPACING, MOST_TASKS, MOST_WORK, Phase, Task
from model import piece_length

# Field names in the record's order with their number of places; 1 stands for a plain number.
FIELDS = {
    "tasks": 1, "spacing": 32, "deadline": 32, "phases": 32, "work": 256, "cost": 256, "counts": 256,
    "since": 32, "unfinished": 32, "left": 32, "phase": 32, "piece": 32, "running": 1, "ticks": 1,
}


def empty_record():
    """The record of no tasks: every place 0."""
    return {name: [0] * places for name, places in FIELDS.items()}


def flat(record):
    """All places of a record in one list, in the record's order."""
    return [value for name in FIELDS for value in record[name]]


def write_task(record, place, standing):
    """Put the fields of one task that never change into a record."""
    record["spacing"][place] = standing.task.spacing
    record["deadline"][place] = standing.task.deadline
    record["phases"][place] = len(standing.task.phases)
    for index, phase in enumerate(standing.task.phases):
        record["work"][8 * place + index] = phase.work
        record["cost"][8 * place + index] = phase.cost
        record["counts"][8 * place + index] = standing.counts[index]


def record_of(dispatcher):
    """The record that a dispatcher's objects stand for."""
    record = empty_record()
    record["tasks"][0] = len(dispatcher.standings)
    for place, standing in enumerate(dispatcher.standings):
        write_task(record, place, standing)
        record["since"][place] = standing.since
        if standing.job:
            record["unfinished"][place] = 1
            record["left"][place] = standing.job.left
            record["phase"][place] = standing.job.phase
            record["piece"][place] = standing.job.piece
    record["running"][0] = dispatcher.running
    record["ticks"][0] = dispatcher.ticks
    return record


def phases_in_range(record, place, number):
    """Whether the eight phase places of a task are in range, `number` of them used."""
    for index in range(8 * place, 8 * place + 8):
        work, cost, count = record["work"][index], record["cost"][index], record["counts"][index]
        if index - 8 * place >= number:
            if (work, cost, count) != (0, 0, 0):
                return False
        elif not (1 <= work <= MOST_WORK and 0 <= cost <= MOST_COST and 1 <= count <= work):
            return False
    return True


def job_in_range(record, place):
    """Whether a task's job fields are in range: a job within its task's bounds, or none and zeros."""
    left, phase, piece = (record[name][place] for name in ("left", "phase", "piece"))
    if record["unfinished"][place] == 0:
        return (left, phase, piece) == (0, 0, 0)
    return (record["unfinished"][place] == 1 and left <= record["deadline"][place]
            and 1 <= phase <= record["phases"][place] and 1 <= piece <= record["counts"][8 * place + phase - 1])


def task_in_range(record, place):
    """Whether all fields of a task that exists are in range."""
    spacing, deadline, number = (record[name][place] for name in ("spacing", "deadline", "phases"))
    return (1 <= spacing <= MOST_SPACING and 1 <= deadline <= spacing and 1 <= number <= MOST_PHASES
            and phases_in_range(record, place, number) and record["since"][place] <= spacing
            and job_in_range(record, place))


def task_absent(record, place):
    """Whether a task that does not exist has 0 in each of its fields."""
    names = [name for name, places in FIELDS.items() if places == 32]
    return all(record[name][place] == 0 for name in names) and phases_in_range(record, place, 0)


def running_in_range(record):
    """Whether the running task has an unfinished job and its piece has ticks left, or none runs."""
    running, ticks = record["running"][0], record["ticks"][0]
    if running == 0:
        return ticks == 0
    if running > record["tasks"][0] or record["unfinished"][running - 1] != 1:
        return False
    index = 8 * (running - 1) + record["phase"][running - 1] - 1
    phase = Phase(record["work"][index], record["cost"][index])
    return 1 <= ticks <= piece_length(phase, record["counts"][index], record["piece"][running - 1])


def in_range(record):
    """Whether every field of the record is in its range, with at least one task."""
    number = record["tasks"][0]
    return (1 <= number <= MOST_TASKS and all(task_in_range(record, place) for place in range(number))
            and all(task_absent(record, place) for place in range(number, MOST_TASKS)) and running_in_range(record))


def standing_of(record, place):
    """The objects that one task's fields stand for."""
    places = range(8 * place, 8 * place + record["phases"][place])
    phases = tuple(Phase(record["work"][index], record["cost"][index]) for index in places)
    task = Task(record["spacing"][place], record["deadline"][place], phases)
    job = None
    if record["unfinished"][place]:
        job = Job(record["left"][place], record["phase"][place], record["piece"][place])
    return Standing(task, [record["counts"][index] for index in places], record["since"][place], job)


def dispatcher_of(record):
    """The dispatcher that a record stands for: the empty one where any field is out of its range."""
    if not in_range(record):
        return Dispatcher([])
    standings = [standing_of(record, place) for place in range(record["tasks"][0])]
    return Dispatcher(standings, record["running"][0], record["ticks"][0])
