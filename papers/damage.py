"""Damaged tables: cut, lengthened, written in malformed numbers, random, or with a horizon far too large."""

from edges import number_at_limit, one_phase, too_many_jobs, write_numbers
from house_numbers import MOST_BYTES, write_number
from random_tables import small_tasks
from table import MOST_SPACING, table_numbers, write_table


def cut(dice, tasks):
    """The table without its end."""
    whole = write_table(tasks)
    return whole[:dice.between(0, len(whole) - 1)]


def lengthened(dice, tasks):
    """The table with bytes behind it."""
    return write_table(tasks) + dice.pick([b"\x00", b"\x80", dice.bytes(dice.between(1, 20))])


def padded(value, length):
    """A number written with zero groups to this many bytes: malformed where that is longer than it need be."""
    groups = [value // 128 ** place % 128 for place in range(length)]
    return bytes([128 + group for group in groups[:-1]] + groups[-1:])


def with_bytes_at(dice, tasks, write):
    """The table with one of its numbers written by `write` instead."""
    numbers = [write_number(value) for value in table_numbers(tasks)]
    place = dice.between(0, len(numbers) - 1)
    numbers[place] = write(table_numbers(tasks)[place], len(numbers[place]))
    return b"".join(numbers)


def malformed(dice, tasks):
    """The table with one number longer than it need be."""
    return with_bytes_at(dice, tasks, lambda value, length: padded(value, dice.between(length + 1, MOST_BYTES)))


def endless(dice, tasks):
    """The table with eight bytes, all with the top bit set, in the place of one number, and perhaps cut there."""
    data = with_bytes_at(dice, tasks, lambda value, length: bytes(128 + dice.between(0, 127) for _ in range(MOST_BYTES)))
    return data if dice.chance(0.7) else data[:dice.between(1, len(data))]


def replaced(dice, tasks):
    """The table with one number replaced by another of any size."""
    return with_bytes_at(dice, tasks, lambda value, length: write_number(dice.between(0, 2 ** dice.between(1, 52))))


def swapped_byte(dice, tasks):
    """The table with one byte replaced by another."""
    data = bytearray(write_table(tasks))
    data[dice.between(0, len(data) - 1)] = dice.between(0, 255)
    return bytes(data)


def noise(dice, tasks):
    """Random bytes, half of the time behind the start of the table."""
    start = write_table(tasks)[:dice.between(0, 8)] if dice.chance(0.5) else b""
    return start + dice.bytes(dice.between(0, 40))


def huge_horizon(dice, tasks):
    """Spacings with hardly a common divisor: horizons to far past 64 bits; some with a byte behind."""
    many = [one_phase(MOST_SPACING - dice.between(0, 10 ** dice.between(2, 8)), 1, 1, 0)
            for _ in range(dice.between(2, 32))]
    return write_table(many) + (b"\x01" if dice.chance(0.1) else b"")


def many_jobs(dice, tasks):
    """A sum of H/T just over its limit."""
    return write_table(too_many_jobs(dice))


def number_behind_range(dice, tasks):
    """One number below its least or above its most."""
    return number_at_limit(dice, tasks)


def first_number(dice, tasks):
    """A wrong number of tasks before the right ones."""
    numbers = table_numbers(tasks)
    return write_numbers([max(0, numbers[0] + dice.pick([-1, 1, 31]))] + numbers[1:])


WAYS = [cut, cut, lengthened, malformed, endless, replaced, swapped_byte, noise, huge_horizon, many_jobs,
        number_behind_range, number_behind_range, first_number]


def damaged(dice):
    """The bytes of a small table, damaged in one of the ways."""
    return dice.pick(WAYS)(dice, small_tasks(dice))
