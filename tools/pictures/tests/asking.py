"""Asks the program, and tells what differs from what is wanted."""
from __future__ import annotations

import subprocess
import sys
import tempfile
from pathlib import Path
from typing import Any, Union

TOOL = Path(__file__).resolve().parents[1]
sys.path[:0] = [str(TOOL), str(TOOL.parents[1] / "bench/outside")]


class Asking:
    """A test: its name, a folder to work in, and what differed."""

    def __init__(self, name: str) -> None:
        self.name, self.differences = name, 0
        self.scratch = tempfile.TemporaryDirectory(prefix="pipegraph-pictures-")
        self.folder = Path(self.scratch.name)

    def __enter__(self) -> "Asking":
        return self

    def __exit__(self, *_: Any) -> None:
        self.scratch.cleanup()

    def file(self, name: str, held: Union[str, bytes]) -> str:
        """Keeps a file in the folder; its name."""
        (self.folder / name).write_bytes(held.encode() if isinstance(held, str) else held)
        return name

    def ask(self, *words: str, **more: Any) -> "subprocess.CompletedProcess[bytes]":
        """The program's status and what it puts."""
        more.setdefault("stdout", subprocess.PIPE)
        return subprocess.run([sys.executable, str(TOOL / "pipegraph-pictures"), *words], cwd=self.folder,
                              stderr=subprocess.PIPE, timeout=120, **more)

    def drawn(self, *words: str) -> str:
        """The picture of words that draw one, without a word on standard error."""
        done = self.ask(*words)
        self.same(f"{words}: drawn", (0, b""), (done.returncode, done.stderr))
        return done.stdout.decode()

    def same(self, what: str, wanted: Any, got: Any) -> None:
        if wanted != got:
            self.differences += 1
            print(f"{self.name}: {what}\n  wanted: {str(wanted)[:400]}\n  got:    {str(got)[:400]}")
