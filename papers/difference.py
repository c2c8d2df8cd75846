"""Finding and telling the first difference between what the driver gave back and what it had to."""

from comparing import OUTCOME, RECORD, STARTED, TICK
from dispatcher import Answer
from record import FIELDS


PLACES = ["%s[%d]" % (name, place) for name, places in FIELDS.items() for place in range(places)]


def record_differences(expected, got):
    """The places of a record that differ, a line each, at most ten."""
    triples = zip(PLACES, RECORD.unpack(expected), RECORD.unpack(got))
    return ["record %s: expected %d, got %d" % triple for triple in triples if triple[1] != triple[2]][:10]


def record_line(packed):
    """The places of a record that are not 0."""
    pairs = zip(PLACES, RECORD.unpack(packed))
    return "record before, all else 0: " + " ".join("%s=%d" % pair for pair in pairs if pair[1] != 0)


def judge_difference(step, got):
    """What differs in the judge's outcome or buffer."""
    lines = ["outcome (reason, place, length): expected %s, got %s"
             % (OUTCOME.unpack_from(step.expected), OUTCOME.unpack_from(got))]
    before, after = step.expected[OUTCOME.size:-1], got[OUTCOME.size:-1]
    places = [place for place in range(len(before)) if before[place] != after[place]]
    if places:
        lines.append("buffer of %d bytes differs first at %d: expected %s, got %s"
                     % (len(before), places[0], before[places[0]:][:40].hex(" "), after[places[0]:][:40].hex(" ")))
    if step.expected[-1] != got[-1]:
        lines.append("the table, or bytes around table or buffer, have been written to")
    return lines


def start_difference(step, got):
    """What differs in what starting answers."""
    lines = ["(how, reason, place, witness, demand, points, task, phase): expected %s, got %s"
             % (STARTED.unpack_from(step.expected), STARTED.unpack_from(got))]
    return lines + record_differences(step.expected[STARTED.size:], got[STARTED.size:])


def ticks_difference(step, got):
    """The first tick whose answer differs with the requests so far, or the fields of the record at the end."""
    lines = []
    if step.fed[:1] == b"R":
        lines.append(record_line(step.fed[1:1 + RECORD.size]))
    for number in range(len(step.requests)):
        part = slice(TICK.size * number, TICK.size * (number + 1))
        if step.expected[part] != got[part]:
            lines.append("requests so far (mask, flag): %s" % step.requests[:number + 1])
            lines.append("tick %d: expected %s" % (number, Answer(*TICK.unpack(step.expected[part]))))
            return lines + ["tick %d: got      %s" % (number, Answer(*TICK.unpack(got[part])))]
    lines.append("requests (mask, flag): %s" % step.requests)
    start = TICK.size * len(step.requests)
    return lines + record_differences(step.expected[start:], got[start:])


def first_difference(cases, got):
    """None where the driver gave back exactly what was expected of these cases; else the lines that tell."""
    place = 0
    for case in cases:
        for step in case.steps:
            part = got[place:place + len(step.expected)]
            place += len(step.expected)
            if part != step.expected:
                lines = ["difference in %s, table %s" % (step.kind, case.table.hex(" ") or "(no bytes)")]
                if len(part) < len(step.expected):
                    return lines + ["the driver stopped before or in this step"]
                tell = {"judge": judge_difference, "start": start_difference}.get(step.kind, ticks_difference)
                return lines + tell(step, part)
    return None if place == len(got) else ["the driver gave back more than was asked"]
