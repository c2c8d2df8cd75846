#!/usr/bin/env python3
"""The self check: the worked tables and run of document 01, and both ways of judging against each other."""

import sys
from time import monotonic

from by_definition import judge_by_definition
from by_walk import judge_by_walk
from dice import Dice
from dispatcher import Dispatcher, ready
from house_numbers import TurnedAway, read_number, write_number
from model import exact_longest_piece_of_phase, piece_length
from random_tables import small_tasks, tiny_tasks
from record import dispatcher_of, empty_record, flat, in_range, record_of
from replaying import replay_input, replay_lines
from table import Phase, Task, read_table, write_table
from verdict import Accepted, answer_bytes, judge_lines

TABLE_A = bytes.fromhex("020A08010201141201 0901")

WORKED = {  # mark: ((T, D, c, q) of each task, what program judge prints)
    "A": ([(10, 8, 2, 1), (20, 18, 9, 1)], "accepted 20 2\n1 1 3\n2 3 4\n"),
    "B": ([(10, 5, 2, 1), (20, 18, 9, 1)], "refused 18 24 3 0 0\n"),
    "C": ([(10, 5, 2, 1), (20, 20, 4, 2)], "refused 5 3 1 2 1\n"),
    "D": ([(10, 5, 2, 1), (20, 20, 4, 1)], "accepted 20 3\n1 1 3\n2 4 2\n"),
    "E": ([(10, 3, 2, 1), (20, 20, 4, 0)], "refused 3 3 1 2 1\n"),
    "F": ([(5, 5, 5, 0)], "accepted 5 1\n1 1 5\n"),
    "G": ([(5, 5, 5, 1)], "refused 5 6 1 0 0\n"),
    "H": ([(10, 10, 4, 1), (10, 10, 4, 1)], "accepted 10 1\n1 1 5\n2 1 5\n"),
    "I": ([(4, 4, 3, 0), (6, 6, 2, 0)], "refused 12 13 4 0 0\n"),
}


def single_phase_tasks(rows):
    """Tasks of one phase each from rows of T, D, c, q."""
    return [Task(spacing, deadline, (Phase(work, cost),)) for spacing, deadline, work, cost in rows]


def check_numbers():
    """The written examples of house numbers, and the round trip."""
    for value, groups in [(0, "00"), (128, "8001"), (300, "AC02"), (2 ** 56 - 1, "FF" * 7 + "7F")]:
        assert write_number(value) == bytes.fromhex(groups)
    for value in list(range(70000)) + [2 ** power + shift for power in range(17, 56) for shift in (-1, 0, 1)]:
        groups = write_number(value)
        assert read_number(groups, 0) == (value, len(groups))


def check_worked_tables():
    """Tables A to L, read from bytes and judged in both ways."""
    for judge in (judge_by_walk, judge_by_definition):
        for mark, (rows, printed) in WORKED.items():
            assert judge_lines(write_table(single_phase_tasks(rows)), judge) == printed, mark
        assert judge_lines(bytes.fromhex("8000"), judge) == "turned away 3 0\n", "K"
        assert judge_lines(b"", judge) == "turned away 2 0\n", "L"
    assert write_table(single_phase_tasks(WORKED["A"][0])) == TABLE_A
    assert answer_bytes(judge_by_walk(read_table(TABLE_A))) == bytes.fromhex("00140201030304"), "A's answer"
    assert [piece_length(Phase(9, 0), 4, piece) for piece in (1, 2, 3, 4)] == [3, 2, 2, 2], "J"


def worked_run_requests():
    """Both tasks released in tick 0; task 1 asks in ticks 9 and 10 again."""
    return [({0: 3, 9: 1, 10: 1}.get(number, 0), 0) for number in range(20)]


def check_worked_run():
    """The run of table A: who runs when, who is turned away, and what replay prints of it."""
    tasks = read_table(TABLE_A)
    dispatcher = ready(tasks, judge_by_walk(tasks).counts)
    answers = [dispatcher.tick(mask, flag == 1) for mask, flag in worked_run_requests()]
    assert [answer.task for answer in answers] == [1] * 3 + [2] * 8 + [1] * 3 + [2] * 4 + [0, 0]
    assert [answer.piece for answer in answers] == [1] * 3 + [1] * 4 + [2] * 4 + [1] * 3 + [3] * 4 + [0, 0]
    assert [place for place, answer in enumerate(answers) if answer.ended] == [2, 6, 10, 13, 17]
    assert [place for place, answer in enumerate(answers) if answer.finished] == [2, 13, 17]
    assert [(answer.let_in, answer.turned_away) for answer in answers[8:12]] == [(0, 0), (0, 1), (1, 0), (0, 0)]
    lines = replay_lines(replay_input(TABLE_A, worked_run_requests())).splitlines()
    assert lines[:3] == ["0 3 0 1 1 1", "1 0 0 1 1 1", "2 0 0 1 1 1 finished"]
    assert lines[6] == "6 0 0 2 1 1 ended" and lines[9:11] == ["9 0 1 2 1 2", "10 1 0 2 1 2 ended"]
    assert lines[17:] == ["17 0 0 2 1 3 finished", "18 0 0 -", "19 0 0 -",
                          "task 1: 2 let in, 2 finished, worst response 4 of 8",
                          "task 2: 1 let in, 1 finished, worst response 18 of 18"]


def check_replay_input():
    """Bad input around the table, one of each kind."""
    whole = replay_input(TABLE_A, [(3, 0)])
    ending = "task 1: 1 let in, 0 finished, worst response 0 of 8\ntask 2: 1 let in, 0 finished, worst response 0 of 18\n"
    for data, printed in [
            (b"", "input turned away 2 0\n"), (b"\x80", "input turned away 2 1\n"), (b"\x80\x00", "input turned away 3 0\n"),
            (b"\xff" * 8, "input turned away 3 0\n"), (write_number(65536), "input turned away 4 0\n"),
            (whole[:5], "input turned away 2 5\n"), (b"\x00", "turned away 2 0\n"), (b"\x02\x80\x00\x80", "turned away 3 0\n"),
            (whole, "0 3 0 1 1 1\n" + ending), (whole + b"\x80", "0 3 0 1 1 1\ninput turned away 2 14\n" + ending),
            (whole + b"\x80\x00\x00", "0 3 0 1 1 1\ninput turned away 3 13\n" + ending),
            (whole + write_number(2 ** 33), "0 3 0 1 1 1\ninput turned away 4 13\n" + ending),
            (whole + write_number(2 ** 33 - 1), "0 3 0 1 1 1\n1 0 4294967295 1 1 1 finished\n"
             + ending.replace("0 finished, worst response 0 of 8", "1 finished, worst response 2 of 8"))]:
        assert replay_lines(data) == printed, (data.hex(), replay_lines(data))


def check_records():
    """A dispatcher and its record say the same; the empty record runs nothing and lets nothing in."""
    dice = Dice("records")
    assert flat(record_of(Dispatcher([]))) == [0] * 1027 and not in_range(empty_record())
    assert dispatcher_of(empty_record()).tick(5, True) == (0, 5, 0, 0, 0, 0, False, False)
    for _ in range(200):
        tasks = small_tasks(dice)
        verdict = judge_by_walk(tasks)
        if isinstance(verdict, Accepted):
            dispatcher = ready(tasks, verdict.counts)
            for _ in range(60):
                copy = dispatcher_of(record_of(dispatcher))
                assert in_range(record_of(dispatcher))
                mask, flag = dice.word() & dice.word(), dice.chance(0.2)
                assert copy.tick(mask, flag) == dispatcher.tick(mask, flag)
                assert record_of(copy) == record_of(dispatcher)


def check_both_ways(number):
    """The walk against the definition, on tiny tables; returns how many were accepted, and refused by a phase."""
    dice = Dice("tiny tables")
    accepted = by_phase = 0
    for turn in range(number):
        tasks = tiny_tasks(dice)
        walked = judge_by_walk(tasks)
        assert read_table(write_table(tasks)) == tasks
        assert judge_by_definition(tasks) == walked, (write_table(tasks).hex(), walked)
        if turn % 10 == 0:
            assert judge_by_definition(tasks, beyond=1) == walked, "with counts above c"
            assert judge_by_definition(tasks, of_phase=exact_longest_piece_of_phase) == walked, "with 000's exact quotient"
        accepted += isinstance(walked, Accepted)
        by_phase += not isinstance(walked, Accepted) and walked.task > 0
    return accepted, by_phase


def check_deadlines(number):
    """On accepted tables every job that is let in finishes by its deadline, whatever is asked; returns the ticks run."""
    dice = Dice("deadlines")
    ticks = 0
    while ticks < number:
        tasks = small_tasks(dice)
        verdict = judge_by_walk(tasks)
        if isinstance(verdict, Accepted):
            dispatcher = ready(tasks, verdict.counts)
            rate, early = dice.share(), dice.pick([0, 0, 0.05])
            for _ in range(300):
                dispatcher.tick(dice.word() if dice.chance(rate) else 0, dice.chance(early))
                assert all(standing.job is None or standing.job.left > 0 for standing in dispatcher.standings)
                ticks += 1
    return ticks


def check_all(number=6000, ticks=60_000):
    """The whole self check; raises AssertionError where anything is wrong."""
    check_numbers()
    check_worked_tables()
    check_worked_run()
    check_replay_input()
    check_records()
    accepted, by_phase = check_both_ways(number)
    assert accepted > number // 5 and by_phase > number // 20 and number - accepted - by_phase > number // 20
    return "worked tables and run right; both ways agree on %d tables (%d accepted, %d refused by a phase); " \
           "no deadline missed in %d ticks" % (number, accepted, by_phase, check_deadlines(ticks))


if __name__ == "__main__":
    started = monotonic()
    print("self check: %s; %.0f s" % (check_all(*[int(value) for value in sys.argv[1:]]), monotonic() - started))
