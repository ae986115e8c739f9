"""What each crate costs to prove, by the table of docs/CLAIMS.md, and how long what is left may take."""
import os
from pathlib import Path
from typing import Dict, Iterable, Optional, Tuple

Part = Tuple[str, str]  # a crate, and "proof", "tests" or "edits"
USUAL = {"proof": 60, "tests": 0, "edits": 0}  # of a crate that has no row
SURE = 0.05  # of the whole, from which on the estimate is of what was seen


def costs(page: Path) -> Dict[Part, float]:
    """The processor seconds of each part, from the last table of the page."""
    found: Dict[Part, float] = {}
    within = False
    for line in page.read_text().splitlines():
        within = within or line.startswith("| crate | proof | tests |")
        cells = [cell.strip() for cell in line.strip("|").split("|")]
        if within and len(cells) == 5 and cells[1].isdigit():
            for part, cell in zip(("proof", "tests", "edits"), cells[1:4]):
                found[cells[0], part] = float(cell) if cell.isdigit() else 0.0
    return found


class Estimate:
    """The seconds that the parts which are not done may take."""

    def __init__(self, table: Dict[Part, float], parts: Iterable[Part]) -> None:
        self.cost = {part: table.get(part, USUAL[part[1]]) for part in parts}
        self.whole = sum(self.cost.values()) or 1.0
        self.processors = max(1, len(os.sched_getaffinity(0)))

    def left(self, done: Iterable[Part], new: Iterable[Part], seconds: float,
             tried: Optional[Dict[Part, float]] = None) -> float:
        """By the table and the processors first; once enough was done in this run, by how long that took.

        Of parts that are `tried` so many seconds are done, or all that they cost.
        """
        left = sum(self.cost.values()) - sum(self.cost.get(part, 0.0) for part in set(done))
        left -= sum(min(spent, self.cost.get(part, 0.0)) for part, spent in (tried or {}).items())
        made = sum(self.cost.get(part, 0.0) for part in set(new))
        rate = made / seconds if seconds > 0 and made > SURE * self.whole else 0.8 * self.processors
        return max(0.0, left / rate)


def in_words(seconds: float) -> str:
    """A time as people say it."""
    if seconds < 90:
        return f"{round(seconds)} s"
    minutes = round(seconds / 60)
    return f"{minutes} min" if minutes < 120 else f"{minutes // 60} h {minutes % 60} min"
