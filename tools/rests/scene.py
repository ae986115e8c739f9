"""The state of the threads of a run, and what one access of a shared word does to it."""
from typing import Any, List, NamedTuple, Tuple

from boards import NONE, advance
from model import Model, Run

Place = Tuple[Any, ...]  # the access that a thread makes next, and what it keeps for it


class State(NamedTuple):
    """A state of the model, call words and start words by loop, queues, and where each thread is."""

    run: Run
    calls: int
    started: int
    queues: Tuple[Tuple[int, ...], ...]
    places: Tuple[Place, ...]


class Scene:
    """One access of a thread: the state as it becomes, and what the model has no step for."""

    def __init__(self, model: Model, state: State, a: int) -> None:
        self.model, self.a, self.said = model, a, ""
        self.run, self.calls, self.started = state.run, state.calls, state.started
        self.queues, self.places = list(state.queues), list(state.places)
        self.no_steps: List[str] = []

    def state(self) -> State:
        return State(self.run, self.calls, self.started, tuple(self.queues), tuple(self.places))

    def go(self, *place: Any) -> None:
        self.places[self.a] = place

    def needs(self, holds: bool, step: str) -> None:
        """A step of the model, if it may be taken."""
        if not holds:
            self.no_steps.append(step)

    def advance(self, n: int) -> int:
        """The advance on a node, and the node that it triggers."""
        self.needs(self.model.is_up(self.run, self.a) and self.model.home[n] == self.a, "advances")
        step = advance(self.model.shape, self.run.board, n)
        if step is None:
            raise AssertionError("a thread has no such advance")
        self.run = self.model.advanced(self.run, self.a, *step)
        return step[1]

    def claim(self, n: int) -> bool:
        """A claim, or a try of a node that is not TRIGGERED."""
        if self.model.is_too_early(self.run, n):
            self.needs(self.model.is_up(self.run, self.a), "tries")
            self.run = self.model.tries(self.run, n)
            return False
        return self.advance(n) == NONE

    def give(self, b: int) -> None:
        self.run = self.model.gives(self.run, self.a, b)

    def take(self) -> None:
        self.needs(self.has_token(), "takes")
        self.run = self.model.takes(self.run, self.a)

    def lie_down(self) -> None:
        self.needs(self.model.is_up(self.run, self.a) and self.model.may_rest(self.run, self.a), "lies_down")
        self.run = self.model.lies_down(self.run, self.a)

    def leave(self) -> None:
        self.needs(self.model.is_up(self.run, self.a) and self.model.may_leave(self.run, self.a), "leaves")
        self.run = self.model.leaves(self.run, self.a)

    def has_token(self) -> bool:
        return bool(self.run.tokens >> self.a & 1)

    def is_called(self) -> bool:
        return bool(self.calls >> self.a & 1)

    def forget(self) -> None:
        self.calls &= ~(1 << self.a)
