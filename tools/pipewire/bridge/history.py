"""The cycles of a log as events of a script: which cycles are whole, and who was late in which."""
from dataclasses import dataclass, field
from typing import List

from bridge.engine import active_steps, engine_of, leader
from bridge.fault import Fault
from bridge.joining import Group, driven_groups
from bridge.ordering import Work, cycle_lines, depths
from bridge.profiler import AWAKE, FINISHED, NO_TURN, NOT_TRIGGERED, TRIGGERED, Row
from bridge.steps import Step, stream_groups

DUMMY = "dummy"
UNFINISHED = {NOT_TRIGGERED: "was not triggered", TRIGGERED: "was not awake",
              AWAKE: "had not finished"}
OLDER = "was at work since before the cycle"
FORCED = "finished after the driver was forced on"
APART = "has streams that ran apart"


@dataclass
class History:
    """The lines of each cycle that is written with the line of the log that each is of, the graph
    that they are of, and what is reported."""
    engine: object
    period: int
    followers: int = 0
    logged: int = 0
    lines: int = 0
    known: int = 0
    cycles: list[list[str]] = field(default_factory=list)
    told: list[str] = field(default_factory=list)
    places: list[int] = field(default_factory=list)

    @property
    def covered(self):
        """What a verdict over the cycles covers, in one line: lines that repeat a cycle are none."""
        return (f"covers: cycles {len(self.cycles)} of {self.lines}, followers {self.followers} of "
                f"{self.logged}, driver's order known in {self.known} of {len(self.cycles)}")


def history_of(dump, log, late):
    """The cycles of a log. A cycle in which a follower did not start and finish is left out, or with
    `late` written as it was, with a tick that names who had not finished."""
    group = logged_group(dump, log)
    engine = engine_of(dump, group, apart_groups(dump, log.rows))
    history = History(engine, log.rows[0].period, lines=log.passed, told=list(log.told))
    lead = leader(engine)
    active = active_steps(engine, lead)
    tell_inactive(history, log, active, group.driver)
    cycles = Cycles(history, active, lead, group.driver, set(log.ids), late)
    for row in log.rows:
        cycles.add(f"{log.path}:{row.line}", row)
    tell_coverage(history, cycles, group.driver)
    if not history.cycles:
        raise Fault(f"{log.path}: no cycle of the log is whole", engine.told + history.told)
    if not history.followers:
        raise Fault(f"{log.path}: no follower of the log is in the script", history.told)
    return history


def tell_coverage(history, cycles, driver):
    """Counts the followers that the log names, nodes of PipeWire, and those that are judged."""
    judged = {id for step in cycles.followers for id in step.ids}
    followers = cycles.logged - ({driver.id} if driver else set())
    history.logged, history.followers = len(followers), len(followers & judged)
    history.told.append(history.covered)


def apart_groups(dump, rows):
    """The groups whose streams do not wait for each other: in more than half of the cycles one that
    gives had finished before one that takes was awake, so that it gave what was of a cycle before."""
    found = set()
    for name, (entries, exits) in stream_groups(list(dump.nodes.values())).items():
        before = after = 0
        for row in rows:
            turns = [[row.turns[node.id] for node in side if node.id in row.turns]
                     for side in (entries, exits)]
            if all(turns) and all(turn.status == FINISHED for side in turns for turn in side):
                is_before = min(it.finish for it in turns[1]) < max(it.awake for it in turns[0])
                before, after = before + is_before, after + (not is_before)
        if before > after:
            found.add(name)
    return found


def logged_group(dump, log):
    """The nodes of the driver that was logged: the group that its followers are of, and groups
    without a driver of their own, which the daemon lets it drive too."""
    groups = driven_groups(dump, list(dump.nodes.values()))
    driver, ids = None, []
    for id in log.ids:
        if id in ids:
            continue
        group = next(group for group in groups if id in group.ids)
        if driver and group.driver:
            raise Fault(f"{first_place(log, id)}: node {id} is driven by {group.driver.said}, and "
                        f"nodes before it by {driver.said}, by {dump.path}")
        driver = driver or group.driver
        ids += group.ids
    if not ids:
        raise Fault(f"{log.path}: no line has a follower")
    if driver and log.driver not in (None, driver.id):
        raise Fault(f"{log.path}: the log is of driver {log.driver}, and by {dump.path} "
                    f"{driver.said} drives its followers")
    return Group(driver, ids)


def first_place(log, id):
    """The first line that has a follower."""
    return f"{log.path}:{next(row.line for row in log.rows if id in row.turns)}"


def tell_inactive(history, log, active, driver):
    """Followers of the log whose events are left out in every cycle."""
    ids = set(log.ids)
    whom = driver.said if driver else "another node"
    for step in history.engine.steps:
        if step not in active and driver not in step.nodes and ids & set(step.ids):
            history.told.append(f"left out: the events of {step.said}: no links of the script "
                                f"join it to {whom}")


class Cycles:
    """Makes lines of rows, one after the other; `logged` are the ids that the log has."""

    def __init__(self, history, active, lead, driver, logged, late):
        self.history, self.late, self.logged = history, late, logged
        self.name = lead.name if lead else DUMMY
        self.followers = [step for step in active if step is not lead]
        self.depth = depths(history.engine, self.followers)
        fed = {wire.target for wire in history.engine.wires}
        self.seats = [Seat.of(step, logged, driver, step in fed) for step in self.followers]
        self.last, self.before = None, Row(0, 0, 0, 0, {})

    def add(self, place, row):
        """Adds the cycle of a row, or reports why it is left out."""
        if row.repeats(self.last):
            return self.tell(f"{place}: left out: the line before it again")
        before, self.last = self.last, row
        if row.counts_from_before:
            return self.tell(f"{place}: left out: written when the next cycle began; "
                             "the next line is of the same cycle")
        self.history.lines += 1
        forced = before is not None and before.counts_from_before
        works = [seat.work(row, self.before, forced) for seat in self.seats]
        self.before = row
        why = ", ".join(f"{work.step.name} {work.why}" for work in works if work.why)
        if why and not self.late:
            return self.tell(f"{place}: left out: {why}")
        number = len(self.history.cycles)
        if why:
            self.tell(f"{place}: cycle {number}: {why}")
        ended = None if row.is_cut else row.finish
        self.history.known += ended is not None
        self.history.places.append(row.line)
        self.history.cycles.append(cycle_lines(number, works, self.depth, self.name, ended,
                                               late_check(row, works)))

    def tell(self, sentence):
        self.history.told.append(sentence)


@dataclass
class Seat:
    """A step among the followers of a log: the ids of its nodes that take samples and of those that
    give them, as far as the log has them; of a step of which it has none, all."""
    step: Step
    entries: List[int]
    exits: List[int]
    drives: bool = False
    is_fed: bool = False

    @staticmethod
    def of(step, logged, driver, is_fed):
        known = logged if logged & set(step.ids) else set(step.ids)
        entries, exits = [[node.id for node in nodes if node.id in known]
                          for nodes in (step.entries, step.exits)]
        return Seat(step, entries or exits, exits or entries, driver in step.nodes, is_fed)

    def work(self, row, before, forced):
        """When the step ran: of several streams from the last wake of those that take samples to the
        first finish of those that give them, since what follows one of them need not wait for the
        others. A source that drives has its samples when the cycle begins."""
        if self.drives:
            return Work(self.step, 0, 0)
        get = row.turns.get
        entries, exits = ([get(id, NO_TURN) for id in ids] for ids in (self.entries, self.exits))
        start = None
        if all(turn.status >= AWAKE for turn in entries):
            start = max(turn.awake for turn in entries)
        for side in (entries, exits):
            status = min(turn.status for turn in side)
            if status < FINISHED:
                return Work(self.step, start, None, UNFINISHED[status])
        finish = min(turn.finish for turn in exits)
        return Work(self.step, start, finish, self.why(row, before, forced, start, finish))

    def why(self, row, before, forced, start, finish):
        """Why a turn that finished is none of this cycle, if it is none."""
        ids = {*self.entries, *self.exits}
        if any(is_older(row.turns[id], before.turns.get(id, NO_TURN), self.is_fed) for id in ids):
            return OLDER
        if finish < start:
            return APART
        if forced and not row.is_cut and max(row.turns[id].finish for id in ids) > row.finish:
            return FORCED
        return ""


def is_older(turn, before, is_fed):
    """Whether a turn is of a trigger before the cycle: it woke before the driver's signal or its
    own, or it is linked to others and was not triggered again after a cycle that it had not
    finished. Who is linked to nobody may be triggered by the driver in the microsecond 0."""
    return turn.awake == 0 or turn.awake < turn.signal or \
        (is_fed and turn.signal == 0 and before.status in (TRIGGERED, AWAKE))


def late_check(row, works):
    """The tick of a cycle: of those that had not finished when the driver went on, else of those
    that finished after the period, where the driver did so too."""
    unfinished = [work.step for work in works if work.finish is None]
    if unfinished:
        return (None, unfinished)
    late = [work.step for work in works if work.finish > row.period]
    return (row.period, late) if late and row.finish > row.period else None
