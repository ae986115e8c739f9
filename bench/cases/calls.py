"""How many threads a program starts, by its calls of the C library, which bench/outside counts."""
import os
import subprocess
import sys
from pathlib import Path

sys.path.append(str(Path(__file__).resolve().parents[1] / "outside"))

import preload


def can_count() -> bool:
    """Whether calls can be counted: there is a C compiler for the library that does it."""
    return preload.compiler() is not None


class Calls:
    """The environment in which the calls of a program are counted, and their counts when it has ended."""

    def __init__(self, folder: Path) -> None:
        library, self.counts = folder / "refuse.so", folder / "counts"
        subprocess.run([preload.compiler(), "-O2", "-shared", "-fPIC", "-o", library, preload.SOURCE],
                       check=True, stdin=subprocess.DEVNULL)
        self.environment = {**os.environ, "LD_PRELOAD": str(library), "COUNTS": str(self.counts)}

    def threads(self) -> int:
        """The threads that the program has started; -1 where it did not end by itself."""
        if not self.counts.exists():
            return -1
        return int(dict(line.split() for line in self.counts.read_text().splitlines())["thread"])
