"""Who made an xrun, from the raw statuses of a log: the table of nodes, and each bad cycle.

Source: PipeWire 0.3.65, src/tools/pw-profiler.c, and "pipewire/private.h", the statuses of an
activation: a node that was triggered has no source that it waits for, so where it is not finished
the delay is its own; one that was not triggered waited. A log has no more than that, so a culprit
is named only where the columns leave no other: the driver where it went on within half a period,
and a follower where it had been triggered for more than half of a period, in a cycle that had three
quarters of one and did not begin while the driver was catching up. Every other bad cycle is said to
be undecided, with the reason.
"""
from dataclasses import dataclass, field
from typing import Callable, Optional

from bridge.dump import Dump, Node
from bridge.profiler import AWAKE, FINISHED, NO_TURN, NOT_TRIGGERED, TRIGGERED, Row, Turn

ENOUGH = 0.75  # of a period: what a follower has to have had before it is called late
BY_FOLLOWERS, BY_DRIVER, UNDECIDED = "follower", "driver", "undecided"


@dataclass
class Judgement:
    """Whose delay a bad cycle was: the followers of the ids, the driver's, or not decided."""
    by: str
    culprits: list[int] = field(default_factory=list)
    reason: str = ""


@dataclass
class BadCycle:
    """A cycle in which a follower that was triggered had not finished, or the driver had not when the
    next one began, by its line of the log."""
    line: int
    unfinished: dict[int, Turn]
    waited: list[int]
    judgement: Judgement


@dataclass
class Count:
    """What a node did over the cycles of a log, times in microseconds."""
    cycles: int = 0
    caused: int = 0
    suffered: int = 0
    undecided: int = 0
    to_wake: int = 0
    to_finish: int = 0


@dataclass
class Blame:
    """The counts by the ids of nodes, and the bad cycles."""
    counts: dict[int, Count] = field(default_factory=dict)
    bad: list[BadCycle] = field(default_factory=list)

    @property
    def summed(self):
        """The bad cycles in one line, by who made them."""
        number = {by: sum(it.judgement.by == by for it in self.bad)
                  for by in (BY_FOLLOWERS, BY_DRIVER, UNDECIDED)}
        return (f"xruns: {len(self.bad)}, by followers {number[BY_FOLLOWERS]}, by the driver "
                f"{number[BY_DRIVER]}, not decided {number[UNDECIDED]}")


def own_rows(rows):
    """The lines that are a cycle each, with times from its own signal."""
    last = None
    for row in rows:
        if not row.repeats(last) and not row.counts_from_before:
            yield row
        last = row


class Blaming:
    """Takes the rows of a log one after the other; the driver is an id, or None. Nobody waits for
    the nodes that are `passed` over, the async ones."""

    def __init__(self, driver: Optional[int], process: Callable[[int], object], passed):
        self.driver, self.process, self.passed = driver, process, {driver, *passed}
        self.found = Blame()
        self.held: Optional[Row] = None
        self.was_open = False
        self.last: Optional[Row] = None
        self.first_line: dict[int, int] = {}
        self.last_line: dict[int, int] = {}

    def add(self, row):
        """Takes in a line. A cycle is judged when the one after it has come."""
        if not row.repeats(self.last) and not row.counts_from_before:
            self.judge(row)
            self.held = row
            self.was_open = self.last is not None and self.last.counts_from_before
        self.last = row

    def end(self):
        """What was found. One waited only between the first and the last line that has it: beside
        them it may have joined or left."""
        self.judge(None)
        for bad in self.found.bad:
            bad.waited = [id for id in bad.waited
                          if self.first_line[id] < bad.line < self.last_line[id]]
            count_bad(self.found.counts, bad, self.driver)
        return self.found

    def judge(self, after):
        row = self.held
        if row is None:
            return
        for id, turn in row.turns.items():
            if id not in self.passed:
                self.first_line.setdefault(id, row.line)
                self.last_line[id] = row.line
                count_turn(self.found.counts.setdefault(id, Count()), turn)
        unfinished = {id: turn for id, turn in row.turns.items()
                      if id not in self.passed and turn.status in (TRIGGERED, AWAKE)}
        if unfinished or self.was_open:
            self.found.bad.append(BadCycle(row.line, unfinished, self.waiting(row),
                                           judgement_of(row, after, unfinished, self.process)))

    def waiting(self, row):
        """The followers that the log had named before and that were not triggered."""
        return [id for id in self.found.counts if id not in self.passed
                and row.turns.get(id, NO_TURN).status == NOT_TRIGGERED]


def blame_of(rows, driver, process=lambda id: id, passed=()):
    """Who made the xruns of these rows. `process` says which process an id is of."""
    blaming = Blaming(driver, process, passed)
    for row in rows:
        blaming.add(row)
    return blaming.end()


def count_turn(count, turn):
    """Takes in a turn; the times of one that did not finish are not known."""
    if turn.status == FINISHED:
        count.cycles += 1
        if turn.awake >= turn.signal > 0:
            count.to_wake = max(count.to_wake, turn.awake - turn.signal)
        if turn.awake > 0:
            count.to_finish = max(count.to_finish, turn.finish - turn.awake)


def judgement_of(row, after, unfinished, process):
    """Whose delay a cycle was; `after` is the next cycle, or None at the end of the log."""
    if after and 2 * after.between < row.period:
        return Judgement(BY_DRIVER, reason=f"went on after {after.between} of {row.period}")
    if 2 * row.between < row.period:
        return Judgement(UNDECIDED, reason=f"the cycle began {row.between} of {row.period} after the "
                         "one before it")
    seen = seen_at(row)
    if seen < ENOUGH * row.period:
        return Judgement(UNDECIDED, reason=f"the statuses are of {seen} of {row.period}")
    if after and after.between < ENOUGH * row.period:
        return Judgement(UNDECIDED, reason=f"the cycle had {after.between} of {row.period}")
    if not unfinished:
        return Judgement(UNDECIDED, reason="the driver had not finished when the next cycle began, and "
                         "no follower was at work")
    late = [id for id, turn in unfinished.items() if 2 * (seen - turn.signal) > row.period]
    late = without_held_up(late, unfinished, process)
    if not late:
        return Judgement(UNDECIDED, reason="none was triggered for half of the period")
    return Judgement(BY_FOLLOWERS, late)


def seen_at(row):
    """When the statuses of a line were taken: at the driver's finish, or, where pw-profiler cut
    that, at the last finish of a follower or later."""
    if row.is_cut:
        return max((turn.finish for turn in row.turns.values() if turn.status == FINISHED), default=0)
    return row.finish


def without_held_up(late, unfinished, process):
    """Without those that were not awake while another node of their process was at work, which
    held up the loop of that process."""
    busy = {process(id) for id, turn in unfinished.items() if turn.status == AWAKE}
    return [id for id in late if unfinished[id].status == AWAKE or process(id) not in busy]


def count_bad(counts, bad, driver):
    """Counts a bad cycle for those that made it and those that suffered it."""
    judgement = bad.judgement
    for id in bad.unfinished:
        if judgement.by == UNDECIDED:
            counts[id].undecided += 1
        elif id in judgement.culprits:
            counts[id].caused += 1
        else:
            counts[id].suffered += 1
    for id in bad.waited:
        counts[id].suffered += 1
    if driver is not None:
        count = counts.setdefault(driver, Count())
        count.caused += judgement.by == BY_DRIVER
        count.suffered += judgement.by == BY_FOLLOWERS
        count.undecided += judgement.by == UNDECIDED


def said(turn):
    """What a node did that had not finished."""
    if turn.status == TRIGGERED:
        return f"triggered at {turn.signal}, never awake"
    return f"awake at {turn.awake}, had not finished"


def bad_line(path, bad: BadCycle, dump: Dump, driver: Optional[Node]):
    """A bad cycle in a line: the place, whose delay it was, and who waited."""
    judgement = bad.judgement
    who = driver.said if driver else "the driver"
    whom = [f"{dump.nodes[id].said}: {said(turn)}" for id, turn in bad.unfinished.items()
            if id not in judgement.culprits]
    made = {BY_DRIVER: f"{who}: {judgement.reason}",
            UNDECIDED: f"not decided by these columns: {judgement.reason}",
            BY_FOLLOWERS: "; ".join(f"{dump.nodes[id].said}: {said(bad.unfinished[id])}"
                                    for id in judgement.culprits)}[judgement.by]
    waited = [dump.nodes[id].said for id in sorted(bad.waited, reverse=True)]
    if judgement.by == BY_FOLLOWERS:
        waited.append(who)
    return f"{path}:{bad.line}: {made}" + (f"; not finished: {', '.join(whom)}" if whom else "") + \
        (f"; waited: {', '.join(waited)}" if waited else "")


def table(found: Blame, dump: Dump):
    """The table of nodes, columns parted by tabs."""
    lines = ["node\tcycles\txruns caused\txruns suffered\tnot decided\ttrigger to wake\t"
             "wake to finish"]
    for id, it in found.counts.items():
        lines.append(f"{dump.nodes[id].said}\t{it.cycles}\t{it.caused}\t{it.suffered}\t"
                     f"{it.undecided}\t{it.to_wake}\t{it.to_finish}")
    return lines
