"""How a call ends: the exit status, the line on standard output and the sentence on standard error.

Source: this project's own, docs/FORMATS.md, "The status of a call".
"""
from __future__ import annotations

from typing import Optional

PROGRAM = b"pipegraph-pictures: "
# The place of the second file of a command, whatever word names it.
SECOND_PLACE = 4294967295


class Ended(Exception):
    """A call that ends without a picture: its status, its line, its sentence, and what else is told."""

    def __init__(self, status: int, line: bytes, sentence: Optional[bytes] = None, more: bytes = b"") -> None:
        super().__init__(sentence)
        self.status, self.line = status, line
        self.sentence = b"" if sentence is None else PROGRAM + sentence + b"\n"
        self.more = more


def memory() -> Ended:
    return Ended(9, b"memory\n", b"no memory was left")
