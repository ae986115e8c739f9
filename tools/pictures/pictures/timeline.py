"""The events of a trace as an SVG: a row a node, a bar from each start to its finish, in the order of events.

Source: w3.org, "SVG 1.1" (paths, text, groups).
"""
from __future__ import annotations

from dataclasses import dataclass
from typing import Dict, List, Optional, Tuple

from .look import BLUE, DARK, GREY, LOOPS, PALE, RED, document, words
from .run_text import DUMMY, Event
from .script import Script

STEP, ROW, TOP, LEFT_MOST = 8, 20, 84, 120
# The events of a band, at which it ends before the next cycle, and those that are drawn at most.
BAND, MOST = 200, 1000
BEGIN, END, START, FINISH, TICK = b"begin", b"end", b"start", b"finish", b"tick"


@dataclass(frozen=True)
class Shown:
    """The events that are drawn: how many of the trace come before, how many the range has, the verdict's event."""

    events: List[Event]
    before: int
    in_range: int
    illegal: int

    def marked(self) -> Optional[int]:
        """The place, from 0 on, of the event that the verdict names, where it is drawn or comes next."""
        at = self.illegal - 1 - self.before
        return at if self.illegal and 0 <= at <= len(self.events) else None


def ranks(script: Script) -> Dict[bytes, int]:
    """How many nodes at most come before each along links that are not late."""
    late = {name for name, node in script.nodes.items() if node.is_late}
    onward = [(link.output[0], link.input[0]) for link in script.links
              if link.output[0] not in late and link.input[0] not in late]
    rank = dict.fromkeys(script.nodes, 0)
    for _ in script.nodes:
        for one, other in onward:
            rank[other] = max(rank[other], min(rank[one] + 1, len(rank)))
    return rank


def rows_of(script: Script, events: List[Event]) -> List[bytes]:
    """The nodes that events name, after those they depend on, sinks last, the built-in driver below all."""
    named = {name for event in events for name in event.nodes}
    rank, numbers = ranks(script), {name: at for at, name in enumerate(script.nodes)}

    def key(name: bytes) -> Tuple[bool, bool, int, int]:
        if name == DUMMY:
            return True, True, 0, 0
        return False, script.nodes[name].kind == b"sink", rank[name], numbers[name]

    return sorted(named, key=key)


def bands_of(events: List[Event]) -> List[Tuple[int, int]]:
    """The bands: each ends before a `begin`, or after as many events as one may have."""
    bands, start = [], 0
    while start < len(events):
        end = min(start + BAND, len(events))
        begins = [at for at in range(start + 1, end + 1) if at < len(events) and events[at].kind == BEGIN]
        if end < len(events) and begins:
            end = begins[-1]
        bands.append((start, end))
        start = end
    return bands


def finish_of(events: List[Event], at: int) -> Optional[int]:
    """The place of the finish of a start, of the same node in the same cycle."""
    wanted = Event(FINISH, events[at].cycle, events[at].nodes)
    return next((later for later in range(at + 1, len(events)) if events[later] == wanted), None)


class Drawing:
    """The drawing of some events of a run of a script."""

    def __init__(self, script: Script, shown: Shown) -> None:
        self.script, self.shown, self.events = script, shown, shown.events
        self.rows = rows_of(script, self.events)
        self.bands = bands_of(self.events)
        self.left = max([LEFT_MOST, *(24 + 8 * len(name) for name in self.rows)])
        self.loops = {name: node.loop for name, node in script.nodes.items()}
        self.names_loops = any(self.loops.get(name) is not None for name in self.rows)

    def colour(self, name: bytes) -> str:
        loop = self.loops.get(name)
        return BLUE if loop is None else LOOPS[loop % len(LOOPS)]

    def height(self) -> int:
        return 34 + ROW * len(self.rows)

    def y(self, name: bytes) -> int:
        return 28 + ROW * self.rows.index(name)

    def bar(self, at: int, start: int, end: int) -> List[str]:
        """The part of a node's bar that lies in a band."""
        finish = finish_of(self.events, at)
        last = end if finish is None else min(finish, end)
        first = max(at, start)
        if last <= first:
            return []
        name = self.events[at].nodes[0]
        x = self.left + STEP * (first - start)
        path = f"M{x} {self.y(name) - 6}h{STEP * (last - first)}v12h{-STEP * (last - first)}z"
        return [f"<path class='bar' fill='{self.colour(name)}' d='{path}'/>"]

    def late(self, x: int, names: Tuple[bytes, ...]) -> List[str]:
        """A check: a rule, and a diamond in the row of each node that is not finished."""
        parts = [f"<path class='t' d='M{x} 16V{self.height() - 14}'/>"]
        return parts + [f"<path class='late' d='M{x - 5} {self.y(name)}l5 -5 5 5 -5 5z'/>" for name in names]

    def mark(self, at: int, x: int) -> List[str]:
        event = self.events[at]
        if event.kind == BEGIN:
            return [f"<path class='c' d='M{x} 16V{self.height() - 14}'/>",
                    words(x + 2, 12, str(event.cycle), "class='cycle'")]
        return self.late(x, event.nodes) if event.kind == TICK else []

    def verdict(self, start: int, end: int) -> List[str]:
        """A rule before the event that the verdict names, or behind the last."""
        at = self.shown.marked()
        is_here = at is not None and (start <= at < end or at == end == len(self.events))
        if not is_here:
            return []
        x = self.left + STEP * (at - start)
        return [f"<path class='v' d='M{x} 4V{self.height() - 6}'/>", words(x + 3, 10, f"illegal {self.shown.illegal}",
                                                                         "class='verdict'")]

    def band(self, number: int) -> List[str]:
        """A band: its rows with their names, its bars, its rules."""
        start, end = self.bands[number]
        width = STEP * (end - start)
        parts = [f"<g transform='translate(0,{TOP + number * (self.height() + 12)})'>",
                 words(self.left - 10, 12, f"cycle {self.events[start].cycle}", "text-anchor='end'")]
        for name in self.rows:
            parts.append(f"<path class='r' d='M{self.left} {self.y(name)}h{width}'/>")
            parts.append(words(self.left - 10, self.y(name) + 4, name.decode(), "text-anchor='end'"))
        for at, event in enumerate(self.events[:end]):
            parts += self.bar(at, start, end) if event.kind == START else []
        for at in range(start, end):
            parts += self.mark(at, self.left + STEP * (at - start))
        return parts + self.verdict(start, end) + ["</g>"]

    def legend(self) -> List[str]:
        """What the marks mean that occur."""
        entries = [(f"<path class='bar' fill='{BLUE}' d='M0 -9h24v12h-24z'/>", "start to finish"),
                   ("<path class='c' d='M12 -10v14'/>", "begin of a cycle, with its number")]
        if any(event.kind == TICK for event in self.events):
            entries.append(("<path class='late' d='M7 -3l5 -5 5 5 -5 5z'/>", "not finished at the check"))
        if self.shown.marked() is not None:
            entries.append(("<path class='v' d='M12 -10v14'/>", "no legal history from here on"))
        if self.names_loops:
            used = sorted({loop for name in self.rows for loop in [self.loops.get(name)] if loop is not None})
            entries += [(f"<path fill='{LOOPS[loop % len(LOOPS)]}' d='M6 -9h12v12h-12z'/>", f"loop {loop}")
                        for loop in used]
        parts, x = [], 12
        for mark, text in entries:
            parts.append(f"<g transform='translate({x},60)'>{mark}{words(30, 0, text)}</g>")
            x += 54 + 7 * len(text)
        self.legend_width = x
        return parts

    def about(self) -> str:
        drawn, of = len(self.events), self.shown.in_range
        some = f"the first {drawn} of {of} events" if of > drawn else f"{of} events"
        return f"{some}: order of events, not to scale"

    def draw(self, title: str) -> bytes:
        legend = self.legend()
        bands = [part for number in range(len(self.bands)) for part in self.band(number)]
        longest = max((end - start for start, end in self.bands), default=0)
        width = max(self.left + STEP * longest + 60, self.legend_width, 360)
        height = TOP + len(self.bands) * (self.height() + 12)
        styles = [f".r{{stroke:{PALE}}}.c{{stroke:{GREY}}}.t{{stroke:{RED};stroke-dasharray:4 2}}.late{{fill:{RED}}}"
                  f".v{{stroke:{RED};stroke-width:3}}.cycle{{fill:{GREY};font-size:11px}}"
                  f".verdict{{fill:{RED};font-weight:bold}}.bar{{stroke:{DARK};stroke-width:.5}}"]
        head = [words(12, 20, title, "class='title'"), words(12, 38, self.about())]
        return document(width, height, title, self.about(), styles, head + legend + bands)
