"""A line of progress: rewritten on a terminal, and else printed when it is new and at most once in a while."""
import shutil
import sys
import time
from typing import Optional, TextIO


class Line:
    """The line on standard error. `every` is how many seconds pass between two lines where nobody looks."""

    def __init__(self, every: float = 60, out: Optional[TextIO] = None) -> None:
        self.out = out or sys.stderr
        self.every, self.begun = every, time.monotonic()
        self.is_terminal, self.last, self.shown = self.out.isatty(), float("-inf"), ""

    def seconds(self) -> int:
        return int(time.monotonic() - self.begun)

    def show(self, text: str, at_once: bool = False) -> None:
        """Shows the text; off a terminal only where enough time went by, or at once."""
        if self.is_terminal:
            columns = shutil.get_terminal_size().columns - 1
            self.out.write(f"\r\033[K{text[:columns]}")
            self.shown = text
        elif text != self.shown and (at_once or time.monotonic() - self.last >= self.every):
            self.last, self.shown = time.monotonic(), text
            self.out.write(text + "\n")
        self.out.flush()

    def clear(self) -> None:
        """Takes the line away, before something else is printed."""
        if self.is_terminal and self.shown:
            self.out.write("\r\033[K")
            self.out.flush()
