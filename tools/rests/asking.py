"""Counts what was found as it was to be, and says what was not."""
from typing import Iterable

from boards import Shape
from runs import Found

# searched by hand: hundreds of thousands of states each
WHOLE = (Shape("a fork", ((0, 1), (0, 2)), (0, 1, 1), 2), Shape("a join", ((0, 2), (1, 2)), (0, 1, 0), 2),
         Shape("a chain twice", ((0, 1),), (0, 1), 2, 2))


class Asking:
    """How many searches were made, and how many of them differed."""

    def __init__(self) -> None:
        self.count = self.differ = self.states = 0

    def equal(self, what: str, found: Found, wanted: Iterable[str]) -> None:
        """A search that is to find just this."""
        self.count += 1
        self.states += found.states
        if set(found.wrong) == set(wanted):
            return
        self.differ += 1
        print(f"{what}: found {sorted(found.wrong)}, not {sorted(wanted)}")
        for word in sorted(set(found.wrong) - set(wanted)):
            print(f"    {word}: " + "; ".join(found.wrong[word]))

    def end(self) -> int:
        print(f"{self.count} searches of {self.states} states, {self.differ} differences")
        return 1 if self.differ else 0
