"""The dispatcher by the four tick rules of document 01, on plain objects."""

from typing import NamedTuple

from model import piece_length


class Job:
    """An unfinished job: time left to its deadline, phase and piece running or next due (from 1)."""

    def __init__(self, left, phase=1, piece=1):
        self.left = left
        self.phase = phase
        self.piece = piece


class Standing:
    """A task with its counts, the ticks since its last admitted release (stopping at T), and its job or None."""

    def __init__(self, task, counts, since=None, job=None):
        self.task = task
        self.counts = counts
        self.since = task.spacing if since is None else since
        self.job = job

    def piece_ticks(self):
        """The length of the piece that is running or next due."""
        place = self.job.phase - 1
        return piece_length(self.task.phases[place], self.counts[place], self.job.piece)

    def end_piece(self):
        """Move the job on by a piece; True where that was its last one and the job is finished."""
        job = self.job
        if job.piece < self.counts[job.phase - 1]:
            job.piece += 1
        elif job.phase < len(self.task.phases):
            job.phase += 1
            job.piece = 1
        else:
            self.job = None
        return self.job is None


class Answer(NamedTuple):
    """What one tick answers: both masks, the number let in, what ran, whether the piece ended and the job finished."""
    let_in: int
    turned_away: int
    number: int
    task: int
    phase: int
    piece: int
    ended: bool
    finished: bool


class Dispatcher:
    """Standings of all tasks, the task whose piece is running (from 1; 0 for none) and the ticks left of it."""

    def __init__(self, standings, running=0, ticks=0):
        self.standings = standings
        self.running = running
        self.ticks = ticks

    def tick(self, mask, flag):
        """One tick: rules 1 to 4 in order."""
        let_in = self.admit(mask)
        self.start_piece()
        task, phase, piece, ended, finished = self.run(flag)
        self.move_time()
        return Answer(let_in, mask & ~let_in, bin(let_in).count("1"), task, phase, piece, ended, finished)

    def admit(self, mask):
        """Rule 1: the mask of the set bits that are let in; their jobs begin."""
        let_in = 0
        for place, standing in enumerate(self.standings):
            asked = mask >> place & 1
            if asked and standing.job is None and standing.since >= standing.task.spacing:
                standing.job = Job(standing.task.deadline)
                standing.since = 0
                let_in += 1 << place
        return let_in

    def start_piece(self):
        """Rule 2: if no piece runs, the job with least time left starts its next; ties to the lower number."""
        if self.running:
            return
        waiting = [(standing.job.left, number) for number, standing in enumerate(self.standings, 1) if standing.job]
        if waiting:
            self.running = min(waiting)[1]
            self.ticks = self.standings[self.running - 1].piece_ticks()

    def run(self, flag):
        """Rule 3: the running piece uses one tick, and ends when its ticks are used or with the flag."""
        if not self.running:
            return 0, 0, 0, False, False
        number = self.running
        standing = self.standings[number - 1]
        phase, piece = standing.job.phase, standing.job.piece
        self.ticks -= 1
        if self.ticks and not flag:
            return number, phase, piece, False, False
        self.running = 0
        self.ticks = 0
        return number, phase, piece, True, standing.end_piece()

    def move_time(self):
        """Rule 4: spacing counts rise by one and times left fall by one, within their stops."""
        for standing in self.standings:
            if standing.since < standing.task.spacing:
                standing.since += 1
            if standing.job and standing.job.left:
                standing.job.left -= 1


def ready(tasks, counts):
    """The dispatcher at its start on an accepted table with its least counts."""
    return Dispatcher([Standing(task, list(row)) for task, row in zip(tasks, counts)])
