"""What `pw-profiler -J` prints: a JSON object a line, of all drivers, times in nanoseconds.

Source: PipeWire 1.4.2, src/tools/pw-profiler.c. A cycle is an "info", a "clock", a "driver" and its
"follower"s, each with the signal before, its signal, wake and finish; a list is opened before the
first and closed by an empty object, which is not there where the tool was killed. Nothing is cut.
"""
import json
from typing import Dict, List, Optional

from bridge.fault import Fault, shown
from bridge.profiler import AWAKE, FINISHED, INACTIVE, NOT_TRIGGERED, TRIGGERED, Row, Turn

STATUSES = {"not-triggered": NOT_TRIGGERED, "triggered": TRIGGERED, "awake": AWAKE,
            "finished": FINISHED, "inactive": INACTIVE}
MOST = 2 ** 63


def is_json(line: bytes):
    """Whether a log begins as one of objects."""
    return line.lstrip()[:1] in (b"[", b"{")


class Points:
    """Rows by the drivers that they are of."""

    def __init__(self, path):
        self.path = path
        self.rows: Dict[int, List[Row]] = {}
        self.names: Dict[int, str] = {}
        self.clock, self.row, self.signal = 0, None, 0

    def add(self, place, number, line: bytes):
        """Takes in a line."""
        whole_line = line.decode("utf-8", "backslashreplace")
        text = whole_line.strip().lstrip("[").rstrip(",]").strip()
        if text in ("", "{ }", "{}"):
            return
        try:
            it = json.loads(text)
        except json.JSONDecodeError as error:
            column = whole_line.index(text) + error.colno
            raise Fault(f"{place}:{column}: this is no object of pw-profiler -J: {error.msg}") from None
        except (ValueError, RecursionError):
            raise Fault(f"{place}: this is no object of pw-profiler -J") from None
        if not isinstance(it, dict):
            raise Fault(f"{place}: this is no object of pw-profiler -J")
        kind = it.get("type")
        if kind == "clock":
            self.clock = period_of(place, it)
        elif kind == "driver":
            self.add_driver(place, number, it)
        elif kind == "follower":
            self.add_follower(place, it)

    def add_driver(self, place, number, it):
        """The cycle of a driver begins."""
        id = whole(place, it, "id")
        self.signal, finish = whole(place, it, "signal"), whole(place, it, "finish")
        between = max(0, self.signal - whole(place, it, "prev")) // 1000
        self.row = Row(number, between, max(0, finish - self.signal) // 1000, self.clock, {})
        self.names.setdefault(id, str(it.get("name", id)))
        self.rows.setdefault(id, []).append(self.row)

    def add_follower(self, place, it):
        """A follower of the driver that was named before it."""
        if self.row is None:
            raise Fault(f"{place}: a follower before a driver")
        id, status = whole(place, it, "id"), STATUSES.get(str(it.get("status")))
        if status is None:
            raise Fault(f"{place}: {shown(it.get('status'))} is no status of a follower")
        if id in self.row.turns:
            raise Fault(f"{place}: node {id} stands twice")
        if status not in (NOT_TRIGGERED, INACTIVE):
            times = [max(0, whole(place, it, key) - self.signal) // 1000
                     for key in ("signal", "awake", "finish")]
            self.row.turns[id] = Turn(*times, status)

    def chosen(self, driver: Optional[int]):
        """The driver of most cycles, or that of an id; and a sentence for each other one."""
        if not self.rows:
            raise Fault(f"{self.path}: the log has no driver")
        if driver is not None and driver not in self.rows:
            raise Fault(f"{self.path}: no cycle is of a driver {driver}: of those of "
                        f"{', '.join(map(str, self.rows))}")
        taken = driver if driver is not None else max(self.rows, key=lambda id: len(self.rows[id]))
        told = [f"left out: {len(rows)} cycles of driver {shown(self.names[id])} (id {id}): say "
                f"--driver {id} for these" for id, rows in self.rows.items() if id != taken]
        return taken, self.rows[taken], told


def whole(place, it, key):
    """A number of an object."""
    value = it.get(key)
    if not isinstance(value, int) or isinstance(value, bool) or not 0 <= value < MOST:
        raise Fault(f"{place}: {shown(key)} is no number, as pw-profiler -J prints it")
    return value


def period_of(place, it):
    """The period of a clock in microseconds."""
    parts = str(it.get("rate", "")).split("/")
    if len(parts) != 2 or not all(part.isdigit() and part.isascii() for part in parts) or int(parts[1]) == 0:
        raise Fault(f"{place}: {shown(it.get('rate'))} is no rate of a clock")
    return round(whole(place, it, "duration") * int(parts[0]) * 1_000_000 / int(parts[1]))
