"""The events of a run in the Trace Event format, which Perfetto and chrome://tracing open.

Source: "Trace Event Format" (Google): complete events, instants, and the names of threads.
"""
from __future__ import annotations

import json
from typing import Any, Dict, List

from .run_text import Event
from .script import Script
from .timeline import BEGIN, END, FINISH, START, TICK, rows_of

PID, CYCLES = 1, 0


def named(tid: int, name: str) -> List[Dict[str, Any]]:
    """The name of a track, and its place among them."""
    return [{"ph": "M", "pid": PID, "tid": tid, "name": "thread_name", "args": {"name": name}},
            {"ph": "M", "pid": PID, "tid": tid, "name": "thread_sort_index", "args": {"sort_index": tid}}]


def slice_of(tid: int, name: str, start: int, end: int, cycle: int) -> Dict[str, Any]:
    return {"ph": "X", "pid": PID, "tid": tid, "name": name, "ts": start, "dur": end - start, "args": {"cycle": cycle}}


class Tracks:
    """A track for the cycles and one for each node; a place in the order of events is a microsecond."""

    def __init__(self, script: Script, events: List[Event]) -> None:
        self.events, self.rows = events, rows_of(script, events)
        self.tracks = {name: 1 + at for at, name in enumerate(self.rows)}
        self.open: Dict[bytes, int] = {}
        self.begun = -1
        self.said: List[Dict[str, Any]] = []

    def take(self, at: int, event: Event) -> None:
        """Takes an event at its place."""
        if event.kind == BEGIN:
            self.begun = at
        elif event.kind == END and self.begun >= 0:
            self.said.append(slice_of(CYCLES, f"cycle {event.cycle}", self.begun, at, event.cycle))
            self.begun = -1
        elif event.kind == START:
            self.open[event.nodes[0]] = at
        elif event.kind == FINISH and event.nodes[0] in self.open:
            name = event.nodes[0]
            start = self.open.pop(name)
            self.said.append(slice_of(self.tracks[name], name.decode(), start, at, event.cycle))
        elif event.kind == TICK:
            self.said += [{"ph": "i", "s": "t", "pid": PID, "tid": self.tracks[name], "ts": at, "args": {},
                           "name": "not finished at the check"} for name in event.nodes]

    def all(self) -> List[Dict[str, Any]]:
        for at, event in enumerate(self.events):
            self.take(at, event)
        for name, start in self.open.items():
            self.said.append(slice_of(self.tracks[name], name.decode(), start, len(self.events), -1))
        names = [it for name, tid in self.tracks.items() for it in named(tid, name.decode())]
        return named(CYCLES, "cycles") + names + sorted(self.said, key=lambda it: it["ts"])


def written(script: Script, events: List[Event], title: str) -> bytes:
    """The file: its times are places in the order of events."""
    held = {"traceEvents": Tracks(script, events).all(), "displayTimeUnit": "ms",
            "otherData": {"graph": title, "times": "the order of events as microseconds, not to scale"}}
    return (json.dumps(held, indent=None, separators=(",", ":")) + "\n").encode()
