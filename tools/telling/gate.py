"""How far `rt ci` is, by the lines that it prints."""
import re
from typing import Dict, Iterable, Optional, Set

from .costs import Estimate, Part, in_words

PROVED = re.compile(r"rt: (\w+) proved$")
KEPT = re.compile(r"rt: (\w+) is kept: ")
TESTS = re.compile(r"rt: (\w+): its tests are proved$")
FAILED = re.compile(r"rt: (\w+)(?:: its tests are)? NOT PROVED")
EDITS = re.compile(r"rt: (\w+): trying its must-fail edits")


class Gate:
    """The crates of a gate, and which of their parts are done."""

    def __init__(self, crates: Iterable[str], table: Dict[Part, float]) -> None:
        self.crates = list(crates)
        parts = [(name, part) for name in self.crates for part in ("proof", "tests", "edits")]
        self.estimate = Estimate(table, [part for part in parts if table.get(part) or part[1] == "proof"])
        self.proved: Set[str] = set()
        self.failed: Set[str] = set()
        self.done: Set[Part] = set()
        self.new: Set[Part] = set()
        self.tried: Dict[Part, float] = {}  # since which second edits are tried

    def see(self, line: str, seconds: float = 0) -> None:
        """Takes a line of `rt ci`, and how many seconds it ran before. No line says that edits are done."""
        proved, kept, tests, failed, edits = (it.match(line) for it in (PROVED, KEPT, TESTS, FAILED, EDITS))
        if proved:
            self.proved.add(proved[1])
            self.finish((proved[1], "proof"), True)
        elif kept:
            self.proved.add(kept[1])
            for part in ("proof", "tests", "edits"):
                self.finish((kept[1], part), False)
        elif tests:
            self.finish((tests[1], "tests"), True)
        elif edits:
            self.done.discard((edits[1], "edits"))
            self.tried[edits[1], "edits"] = seconds
        elif failed:
            self.failed.add(failed[1])
            for part in ("proof", "tests", "edits"):
                self.finish((failed[1], part), False)

    def finish(self, part: Part, is_new: bool) -> None:
        self.done.add(part)
        if is_new:
            self.new.add(part)

    def said(self, seconds: float, about: Optional[str] = None) -> str:
        """The line of progress."""
        failed = f", {len(self.failed)} failed" if self.failed else ""
        tried = {part: seconds - since for part, since in self.tried.items()}
        left = in_words(self.estimate.left(self.done, self.new, seconds, tried))
        return (f"{about or 'rt ci'}: {len(self.proved)} of {len(self.crates)} crates proved{failed}, "
                f"{in_words(seconds)}, some {left} left")
