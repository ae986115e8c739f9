"""All states that steps lead to, breadth first: so the first way to a state is a shortest one."""
from typing import Callable, Dict, Generic, Iterable, List, Tuple, TypeVar

S = TypeVar("S")


class Graph(Generic[S]):
    """The states that were met, by number, and the steps between them."""

    def __init__(self, start: S) -> None:
        self.numbers: Dict[S, int] = {start: 0}
        self.states: List[S] = [start]
        self.came: List[Tuple[int, str]] = [(-1, "")]
        self.after: List[List[int]] = []

    def explore(self, steps: Callable[[int, S], Iterable[Tuple[str, S]]], most: int) -> bool:
        """Visits each state once. False where there are more than `most`, and then it stops."""
        at = 0
        while at < len(self.states):
            if len(self.states) > most:
                return False
            self.after.append([self.number(at, said, state) for said, state in steps(at, self.states[at])])
            at += 1
        return True

    def number(self, at: int, said: str, state: S) -> int:
        found = self.numbers.get(state)
        if found is None:
            found = self.numbers[state] = len(self.states)
            self.states.append(state)
            self.came.append((at, said))
        return found

    def way(self, at: int) -> List[str]:
        """The steps of a shortest way to a state."""
        said: List[str] = []
        while at > 0:
            at, step = self.came[at]
            said.append(step)
        return said[::-1]

    def hopeless(self, ends: Callable[[S], bool]) -> List[int]:
        """The states from which no end is reached by any steps."""
        before: List[List[int]] = [[] for _ in self.states]
        for at, after in enumerate(self.after):
            for t in after:
                before[t].append(at)
        todo = [at for at, state in enumerate(self.states) if ends(state)]
        good = set(todo)
        while todo:
            for at in before[todo.pop()]:
                if at not in good:
                    good.add(at)
                    todo.append(at)
        return [at for at in range(len(self.states)) if at not in good]

    def rounds(self) -> List[int]:
        """The states that a run can come back to, or that lead away from such: none where every run ends."""
        coming = [0] * len(self.states)
        for after in self.after:
            for t in after:
                coming[t] += 1
        todo = [at for at, count in enumerate(coming) if count == 0]
        while todo:
            for t in self.after[todo.pop()]:
                coming[t] -= 1
                if coming[t] == 0:
                    todo.append(t)
        return [at for at, count in enumerate(coming) if count]
