"""House numbers of document 01: groups of seven bits, lowest group first, top bit set in every byte but the last."""

MOST_BYTES = 8

BUFFER_TOO_SHORT = 1
ENDS_EARLY = 2
MALFORMED = 3
OUT_OF_RANGE = 4
BYTES_LEFT_OVER = 5
HORIZON_TOO_LARGE = 6
TOO_MANY_POINTS = 7


class TurnedAway(Exception):
    """One of document 01's reasons for turning bytes away, with its place."""

    def __init__(self, reason, place):
        super().__init__(reason, place)
        self.reason = reason
        self.place = place


def write_number(value):
    """The bytes of a number from 0 up to eight groups of seven bits."""
    assert 0 <= value < 128 ** MOST_BYTES
    groups = bytearray()
    while value >= 128:
        groups.append(128 + value % 128)
        value //= 128
    groups.append(value)
    return bytes(groups)


def read_number(data, start):
    """The number at place `start` and the place behind it; reasons 2 and 3, in that order."""
    value = 0
    for index in range(MOST_BYTES):
        place = start + index
        if place >= len(data):
            raise TurnedAway(ENDS_EARLY, len(data))
        byte = data[place]
        value += (byte % 128) * 128 ** index
        if byte < 128:
            if byte == 0 and index > 0:
                raise TurnedAway(MALFORMED, start)
            return value, place + 1
    raise TurnedAway(MALFORMED, start)


def read_number_within(data, start, least, most):
    """As read_number, and reason 4 for a number outside `least` to `most`."""
    value, behind = read_number(data, start)
    if not least <= value <= most:
        raise TurnedAway(OUT_OF_RANGE, start)
    return value, behind
