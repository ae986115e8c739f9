"""A log of pw-profiler: columns of one driver, or JSON objects of all."""
from dataclasses import dataclass, field
from typing import List, Optional

from bridge.fault import Fault
from bridge.profiler import Row, read_row
from bridge.profiler_json import Points, is_json


@dataclass
class Log:
    """The cycles of a log and what is told of it; the driver's id, where the log has it; how many
    lines were passed over."""
    path: str
    rows: List[Row] = field(default_factory=list)
    told: List[str] = field(default_factory=list)
    driver: Optional[int] = None
    passed: int = 0

    @property
    def ids(self):
        """The followers, in the order in which they come."""
        return dict.fromkeys(id for row in self.rows for id in row.turns)


def read_log(path, driver=None):
    """The cycles of a log, of columns or of JSON objects; of these the driver of most cycles, or that
    of an id. The last line is left out where it was cut, which shows in that it has no end."""
    log, points, at = Log(path), None, 0
    try:
        with open(path, "rb") as file:
            for number, line in enumerate(file, 1):
                if points is None and number == 1 and is_json(line):
                    points = Points(path)
                if line.isspace():
                    pass
                elif not line.endswith(b"\n") and (log.rows or (points and not line.rstrip().endswith(b"]"))):
                    log.told.append(f"{path}:{number}: left out: the line was cut")
                elif points:
                    points.add(f"{path}:{number}", number, line)
                else:
                    add_row(log, number, at, line)
                at += len(line)
    except OSError as error:
        raise Fault(f"{path}: {error.strerror}") from None
    if points:
        log.driver, log.rows, told = points.chosen(driver)
        log.told += told
    elif driver is not None:
        raise Fault(f"{path}: the log is of one driver, and does not say of which: --driver is for "
                    "those of pw-profiler -J")
    if not log.rows:
        raise Fault(f"{path}: the log has no line")
    tell_periods(log)
    return log


def tell_periods(log):
    """Where the period changes. Those that differ by a microsecond are alike: they are rounded, and
    follow the driver's clock."""
    last = log.rows[0]
    for row in log.rows[1:]:
        if abs(row.period - last.period) > max(1, last.period // 100):
            log.told.append(f"{log.path}:{row.line}: note: the period was {last.period} and is "
                            f"{row.period} from here on; the script has the quantum of the first line")
            last = row


def add_row(log, number, at, line):
    """Takes in a line, which begins at a byte of the file."""
    if not line.isascii():
        byte = at + next(k for k, it in enumerate(line) if it > 127)
        raise Fault(f"{log.path}: this is no log of pw-profiler: byte {byte} is no ASCII")
    log.rows.append(read_row(f"{log.path}:{number}", number, line))


def fitting(log, dump):
    """The log without lines that name a node which is not in the dump, since that joined later or
    left before: fewer than those that are kept, else both are not of one graph."""
    strange = [row for row in log.rows if not row.turns.keys() <= dump.nodes.keys()]
    if not strange:
        return log
    first = strange[0]
    id = next(id for id in first.turns if id not in dump.nodes)
    if 2 * len(strange) >= len(log.rows):
        raise Fault(f"{log.path}:{first.line}: node {id} is not in {dump.path}: both have to be "
                    "recorded of the same graph")
    kept = [row for row in log.rows if row.turns.keys() <= dump.nodes.keys()]
    told = (f"{log.path}:{first.line}: left out: node {id} is not in {dump.path}, so this line and "
            f"{len(strange) - 1} more are of another graph")
    return Log(log.path, kept, [*log.told, told], log.driver, len(strange))


def spans(log):
    """The first and the last line that has each follower."""
    found = {}
    for row in log.rows:
        for id in row.turns:
            found[id] = found.get(id, (row.line, 0))[0], row.line
    return found
