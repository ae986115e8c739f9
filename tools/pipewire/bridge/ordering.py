"""One cycle as events in an order: by time, and where times are equal by what the links demand.

Source: docs/FORMATS.md, "The text of a run"; PipeWire's documentation, "Graph Scheduling".
"""
import math
from dataclasses import dataclass

CHECK, DRIVER = 1000, 1001


@dataclass
class Work:
    """What a step did in a cycle: when it started and finished, if it did, and else why not."""
    step: object
    start: object
    finish: object
    why: str = ""


def depths(engine, steps):
    """For each step how many steps the longest way of links to it has; late links do not count."""
    depth = {step: 0 for step in steps}
    for _ in steps:
        for wire in engine.wires:
            if wire.source in depth and wire.target in depth and not wire.is_late:
                depth[wire.target] = max(depth[wire.target], depth[wire.source] + 1)
    return depth


def cycle_lines(number, works, depth, driver, ended, tick):
    """The lines of a cycle: each event at its time, and of equal times in the order of the depths,
    the driver last. The log has no start of the driver, so that stands just before its finish,
    `ended`, or last of all where it is not known (None). `tick` is (time, late steps), the time
    None for a check just before the driver's start."""
    ended = math.inf if ended is None else ended
    events = [(ended, DRIVER, [f"start {number} {driver}", f"finish {number} {driver}"])]
    for work in works:
        place = 2 * depth[work.step]
        if work.start is not None:
            events.append((work.start, place, [f"start {number} {work.step.name}"]))
        if work.finish is not None:
            events.append((work.finish, place + 1, [f"finish {number} {work.step.name}"]))
    if tick:
        time, late = tick
        names = " ".join(step.name for step in late)
        events.append((ended if time is None else time, CHECK, [f"tick {number} {names}"]))
    events.sort(key=lambda event: event[:2])
    return [f"begin {number}", *(line for event in events for line in event[2]), f"end {number}"]
