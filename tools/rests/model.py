"""The model of rests: its states, its six kinds of step, and what is said of each state of a run.

The words are those of the crate rest_progress; see docs/RULES.md, "Rests". Sets of threads and of nodes are bits.
"""
from typing import Dict, Iterator, List, NamedTuple, Tuple

from boards import Board, NONE, Shape, advance, claim, ended, first, is_idle, triggered


class Run(NamedTuple):
    """A state: the board; by thread its token, whom it owes, whether it sleeps or is gone; the nodes tried by home."""

    board: Board
    tokens: int
    owes: Tuple[int, ...]
    tried: int
    asleep: int
    gone: int


class Model:
    """The model over one shape, in which every seat has a home."""

    def __init__(self, shape: Shape) -> None:
        self.shape = shape
        self.nodes = range(shape.driver + 1)
        self.threads = range(shape.threads)
        self.home = [shape.home(n) for n in self.nodes]
        self.known: Dict[Run, List[str]] = {}
        self.mine = [[n for n in self.nodes if self.home[n] == a] for a in self.threads]

    def start(self) -> Run:
        """Nobody sleeps, nothing is tried or owed; the threads of adopted loops are gone."""
        gone = sum(1 << loop for loop in self.shape.adopted)
        return Run(first(self.shape), 0, (0,) * self.shape.threads, 0, 0, gone)

    def is_up(self, run: Run, a: int) -> bool:
        return not (run.asleep | run.gone) >> a & 1

    def is_tried(self, run: Run, n: int) -> bool:
        return bool(run.tried >> n & 1)

    # the steps

    def advanced(self, run: Run, a: int, board: Board, target: int) -> Run:
        """After an advance of the thread a that triggered a node, or none."""
        if target == NONE:
            return run._replace(board=board)
        owes, b = list(run.owes), self.home[target]
        if b != a:
            owes[a] |= 1 << b
        return run._replace(board=board, owes=tuple(owes), tried=run.tried & ~self.bits(a))

    def bits(self, a: int) -> int:
        return sum(1 << n for n in self.mine[a])

    def tries(self, run: Run, n: int) -> Run:
        return run._replace(tried=run.tried | 1 << n)

    def gives(self, run: Run, a: int, b: int) -> Run:
        owes = run.owes[:a] + (run.owes[a] & ~(1 << b),) + run.owes[a + 1:]
        return run._replace(tokens=run.tokens | 1 << b, owes=owes)

    def lies_down(self, run: Run, a: int) -> Run:
        return run._replace(asleep=run.asleep | 1 << a)

    def takes(self, run: Run, a: int) -> Run:
        others = ~(1 << a)
        return run._replace(tokens=run.tokens & others, asleep=run.asleep & others, tried=run.tried & ~self.bits(a))

    def leaves(self, run: Run, a: int) -> Run:
        return run._replace(gone=run.gone | 1 << a)

    def may_rest(self, run: Run, a: int) -> bool:
        """It owes nobody, has tried each node of its own that has cycles left, and one of them has."""
        left = [n for n in self.mine[a] if not ended(self.shape, run.board, n)]
        driver = self.shape.driver in self.mine[a]
        waits = not driver or (is_idle(run.board, self.shape.driver) and self.is_tried(run, self.shape.driver))
        followers = [n for n in self.mine[a] if n != self.shape.driver]
        idle = all(is_idle(run.board, n) for n in followers)
        return not run.owes[a] and bool(left) and waits and idle and all(self.is_tried(run, n) for n in left)

    def may_leave(self, run: Run, a: int) -> bool:
        return not run.owes[a] and all(ended(self.shape, run.board, n) for n in self.mine[a])

    def steps(self, run: Run) -> Iterator[Run]:
        """The states after each step that the model has."""
        for a in self.threads:
            for b in self.threads:
                yield self.gives(run, a, b)
            if run.tokens >> a & 1:
                yield self.takes(run, a)
            if self.is_up(run, a):
                yield from self.steps_up(run, a)

    def steps_up(self, run: Run, a: int) -> Iterator[Run]:
        """Of a thread that is up."""
        for n in self.mine[a]:
            step = advance(self.shape, run.board, n)
            if step is not None:
                yield self.advanced(run, a, *step)
            elif is_idle(run.board, n) and not ended(self.shape, run.board, n):
                yield self.tries(run, n)
        if self.may_rest(run, a):
            yield self.lies_down(run, a)
        if self.may_leave(run, a):
            yield self.leaves(run, a)

    # what is said of a state

    def wrong(self, run: Run) -> List[str]:
        """The laws that a state breaks."""
        if run not in self.known:
            self.known[run] = self.broken(run)
        return self.known[run]

    def broken(self, run: Run) -> List[str]:
        left = not ended(self.shape, run.board, self.shape.driver)
        said = [("no wake is lost", self.is_heard(run)), ("rests are never stuck", not left or self.can_go_on(run)),
                ("nobody sleeps at the end", left or self.ends_well(run))]
        return [law for law, holds in said if not holds]

    def is_heard(self, run: Run) -> bool:
        """Each sleeper that has a TRIGGERED node has its token, or is owed one by a thread that is up."""
        sleepers = {self.home[n] for n in triggered(run.board) if run.asleep >> self.home[n] & 1}
        return all(run.tokens >> a & 1 or any(run.owes[b] >> a & 1 for b in self.threads if self.is_up(run, b))
                   for a in sleepers)

    def can_go_on(self, run: Run) -> bool:
        up = [a for a in self.threads if self.is_up(run, a)]
        return (any(run.owes[a] for a in up) or bool(run.tokens & run.asleep)
                or any(advance(self.shape, run.board, n) is not None for a in up for n in self.mine[a]))

    def ends_well(self, run: Run) -> bool:
        """Nobody sleeps, and who is up may leave once it owes nobody."""
        return not run.asleep and all(ended(self.shape, run.board, n) for a in self.threads
                                      if self.is_up(run, a) for n in self.mine[a])

    def is_too_early(self, run: Run, n: int) -> bool:
        return claim(self.shape, run.board, n) is None
