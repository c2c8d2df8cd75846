"""The Python half of the comparison: for each case what the driver is fed, and the bytes it has to give back."""

from struct import Struct
from typing import NamedTuple

from by_walk import judge_by_walk
from dispatcher import ready
from generate import draw_table
from house_numbers import BUFFER_TOO_SHORT, TurnedAway
from record import FIELDS, dispatcher_of, empty_record, flat, in_range, record_of
from release_requests import draw_requests
from table import MOST_SPACING, MOST_TASKS, MOST_WORK, read_table
from verdict import LEAST_BUFFER, Accepted, answer_bytes

WORD = Struct("=I")
OUTCOME = Struct("=IQQ")
REQUEST = Struct("=IB")
TICK = Struct("=6I2B")
STARTED = Struct("=IIQQQQII")
RECORD = Struct("=1026IQ")


class Step(NamedTuple):
    """One step of the driver: its kind, what goes in, what has to come out, and the requests of ticks."""
    kind: str
    fed: bytes
    expected: bytes
    requests: list


class Case(NamedTuple):
    """A table, its steps, and what happened: accepted or not, ticks run, spoiled records in and out of range."""
    table: bytes
    steps: list
    accepted: bool
    ticks: int
    spoiled: bool
    spoiled_in_range: bool


def pack_record(record):
    """A record as the C structure holds it."""
    return RECORD.pack(*flat(record))


def buffer_length(dice):
    """Lengths of answer buffers, many of them around the least."""
    return dice.pick([0, 1, LEAST_BUFFER - 1, LEAST_BUFFER, LEAST_BUFFER, LEAST_BUFFER, LEAST_BUFFER + 1,
                      dice.between(LEAST_BUFFER, 2500), dice.between(0, 2500)])


def judge_step(dice, table, reading):
    """The judge on a buffer of random length and content."""
    buffer = dice.source.randbytes(buffer_length(dice))
    reason, place, answer = BUFFER_TOO_SHORT, 0, b""
    if len(buffer) >= LEAST_BUFFER:
        if isinstance(reading, TurnedAway):
            reason, place = reading.reason, reading.place
        else:
            reason, answer = 0, answer_bytes(reading)
    fed = b"J" + WORD.pack(len(table)) + WORD.pack(len(buffer)) + table + buffer
    expected = OUTCOME.pack(reason, place, len(answer)) + answer + buffer[len(answer):] + b"\x01"
    return Step("judge", fed, expected, [])


def start_step(table, tasks, reading):
    """Starting the dispatcher; all that is not said of the case at hand is 0."""
    record = empty_record()
    if isinstance(reading, TurnedAway):
        numbers = (2, reading.reason, reading.place, 0, 0, 0, 0, 0)
    elif isinstance(reading, Accepted):
        numbers = (0, 0, 0, 0, 0, 0, 0, 0)
        record = record_of(ready(tasks, reading.counts))
    else:
        numbers = (1, 0, 0, *reading)
    return Step("start", b"S" + WORD.pack(len(table)) + table, STARTED.pack(*numbers) + pack_record(record), [])


def ticks_step(dispatcher, requests, kind="ticks", before=b""):
    """Ticks of the dispatcher, which is moved on by them; `before` is fed first."""
    tick, pack = dispatcher.tick, TICK.pack
    answers = b"".join([pack(*tick(mask, flag == 1)) for mask, flag in requests])
    fed = before + b"T" + WORD.pack(len(requests)) + b"".join([REQUEST.pack(*request) for request in requests])
    return Step(kind, fed, answers + pack_record(record_of(dispatcher)), requests)


def spoiling_values(dice, name, value):
    """Values at and around the limits of a record's field, within what it can hold."""
    values = [0, 1, 2, value + 1, max(0, value - 1), dice.between(0, value), dice.between(0, value), dice.between(0, 40),
              MOST_TASKS, MOST_TASKS + 1, 9, MOST_WORK + 1, MOST_SPACING, MOST_SPACING + 1, 2 ** 31, 2 ** 32 - 1,
              dice.word()]
    if name == "ticks":
        return [each % 2 ** 64 for each in values + [2 ** 32, 2 ** 32 + value, 2 ** 64 - 1]]
    return [each % 2 ** 32 for each in values]


def spoil(dice, record):
    """Put random values into one to three fields of a record, most of them of tasks that exist."""
    for _ in range(dice.pick([1, 1, 1, 2, 3])):
        name = dice.pick(list(FIELDS))
        places = FIELDS[name]
        used = min(places, record["tasks"][0] * places // 32) if dice.chance(0.8) else places
        place = dice.between(0, max(0, used - 1))
        record[name][place] = dice.pick(spoiling_values(dice, name, record[name][place]))
    return record


def spoiled_step(dice, tasks, record):
    """Ticks from a record with random fields changed; out of range it behaves as the empty record."""
    requests = draw_requests(dice, tasks, dice.between(1, 12))
    return ticks_step(dispatcher_of(record), requests, "ticks from a changed record", b"R" + pack_record(record))


def make_case(dice, table):
    """All steps of one table."""
    tasks = None
    try:
        tasks = read_table(table)
        reading = judge_by_walk(tasks)
    except TurnedAway as away:
        reading = away
    steps = [judge_step(dice, table, reading), start_step(table, tasks, reading)]
    if not isinstance(reading, Accepted):
        steps.append(ticks_step(dispatcher_of(empty_record()), [(dice.word(), dice.between(0, 1))]))
        return Case(table, steps, False, 1, False, False)
    requests = draw_requests(dice, tasks, dice.between(80, 240))
    dispatcher = ready(tasks, reading.counts)
    steps.append(ticks_step(dispatcher, requests))
    spoiled = spoil(dice, record_of(dispatcher)) if dice.chance(0.3) else None
    if spoiled:
        steps.append(spoiled_step(dice, tasks, spoiled))
    return Case(table, steps, True, sum(len(step.requests) for step in steps), spoiled is not None,
                spoiled is not None and in_range(spoiled))


def draw_case(dice):
    """A fresh random table with all its steps."""
    return make_case(dice, draw_table(dice)[1])
