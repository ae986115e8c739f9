"""What `pw-profiler` logs: a line a cycle of one driver, times in microseconds.

Source: the tool's own output (PipeWire 0.3.65). Columns are parted by tabs: for the driver the time
between its last two signals, its finish after its signal, the delay, the period; then for each
follower eight: id, signal, awake and finish after the driver's signal (0 where they were before
it), awake - signal, finish - awake, status, 0. A follower that was not triggered has blanks, and of
one that is inactive (status 4 of 1.x) the times are of before and say nothing.
Where one of the driver's first two times is more than 1.3 periods, both are cut to 1.4 periods.
"""
from dataclasses import dataclass
from typing import Dict, NamedTuple

from bridge.fault import Fault, shown

OF_DRIVER, OF_FOLLOWER = 4, 8
NOT_TRIGGERED, TRIGGERED, AWAKE, FINISHED, INACTIVE = 0, 1, 2, 3, 4
CUT_FROM, CUT_TO = 1.3, 1.4
PLAIN = b"0123456789 \t\r\n"


class Turn(NamedTuple):
    """What the log tells of a follower in a cycle."""
    signal: int
    awake: int
    finish: int
    status: int


NO_TURN = Turn(0, 0, 0, NOT_TRIGGERED)


@dataclass
class Row:
    """A line of the log: the driver's times, and the turns of its followers by their ids."""
    __slots__ = "line", "between", "finish", "period", "turns"
    line: int
    between: int
    finish: int
    period: int
    turns: Dict[int, Turn]

    @property
    def is_cut(self):
        """The driver's times are not known: the tool cut them."""
        return self.between == self.finish == int(self.period * CUT_TO) and self.period > 0

    @property
    def counts_from_before(self):
        """The line was written when the next cycle began and this one had not ended; its times
        count from the signal of the cycle before, and the next line has them from its own."""
        if self.between == 0:
            return True
        return self.is_cut and min((turn.signal for turn in self.turns.values()), default=0) \
            > CUT_FROM * self.period

    def repeats(self, other):
        """The same cycle, logged twice."""
        return other is not None and self.between == other.between \
            and self.finish == other.finish and self.turns == other.turns


def read_row(place, number, line):
    """One line, its end and blanks at its end included."""
    line = line.rstrip(b"\r\n")
    count = line.count(b"\t") + (not line.endswith(b"\t"))
    if count < OF_DRIVER or (count - OF_DRIVER) % OF_FOLLOWER:
        raise Fault(f"{place}: {count} columns: a line has {OF_DRIVER} for the driver and "
                    f"{OF_FOLLOWER} for each follower, parted by tabs")
    columns = line.rstrip().split(b"\t")
    columns += [b" "] * (min(count, -(-(len(columns) - OF_DRIVER) // OF_FOLLOWER) * OF_FOLLOWER
                             + OF_DRIVER) - len(columns))
    is_plain = not line.translate(None, PLAIN)
    between, finish, _, period = numbers(place, 0, columns[:OF_DRIVER], is_plain)
    turns: Dict[int, Turn] = {}
    for at in range(OF_DRIVER, len(columns), OF_FOLLOWER):
        part = columns[at:at + OF_FOLLOWER]
        if part[0].strip() or b"".join(part).strip():
            add_turn(place, at, turns, numbers(place, at, part, is_plain))
    return Row(number, between, finish, period, turns)


def add_turn(place, at, turns, part):
    """Takes in the eight numbers of a follower."""
    id, signal, awake, end, _, _, status, _ = part
    if not TRIGGERED <= status <= INACTIVE:
        raise Fault(f"{place}: column {at + 7}: {status} is no status of a follower, 1 to 4")
    if id in turns:
        raise Fault(f"{place}: column {at + 1}: node {id} stands twice")
    if status != INACTIVE:
        turns[id] = Turn(signal, awake, end, status)


def numbers(place, at, columns, is_plain):
    """The numbers of columns, which follow the first `at` of the line; of a line of digits and
    blanks alone they are taken as they stand."""
    if is_plain:
        try:
            found = [int(column) for column in columns]
            if max(found) < 10 ** 18:
                return found
        except ValueError:
            pass
    return [count(place, at + 1 + k, column) for k, column in enumerate(columns)]


def count(place, column, text):
    """A number of a column."""
    text = text.strip()
    if not text.isdigit() or len(text) > 18:
        raise Fault(f"{place}: column {column}: {shown(text.decode('ascii'))} is no number")
    return int(text)
