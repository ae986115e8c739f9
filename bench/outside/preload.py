"""Calls of a program to the C library that are counted, and refused in their turn.

`refuse.c` is put before the C library; it is compiled here, where there is a C compiler.
"""
import os
import shutil
import subprocess
from pathlib import Path

SOURCE = Path(__file__).with_name("refuse.c")
NO_COMPILER = "no C compiler, so no call of the C library was refused"


def compiler():
    """The C compiler, or None."""
    names = [os.environ.get("CC", "cc"), "gcc", "clang"]
    return next((path for path in map(shutil.which, names) if path), None)


class Preload:
    def __init__(self, place):
        self.place, self.library = place, place.folder / "refuse.so"
        if not self.library.exists():
            subprocess.run([compiler(), "-O2", "-shared", "-fPIC", "-o", self.library, SOURCE],
                           check=True, stdin=subprocess.DEVNULL)
            self.library.chmod(0o755)

    def ask(self, *words, environment=(), **how):
        return self.place.ask(*words, **how,
                              environment={"LD_PRELOAD": str(self.library), **dict(environment)})

    def count(self, *words, **how):
        """The answer to these words, and how many calls of each name there were."""
        counts = self.place.folder / "counts"
        answer = self.ask(*words, environment={"COUNTS": str(counts)}, **how)
        lines = (self.place.read("counts") or b"").decode().splitlines()
        self.place.forget("counts")
        return answer, {line.split()[0]: int(line.split()[1]) for line in lines}

    def refuse(self, call, number, how, *words, **more):
        """The answer where the call of this number fails, is short, or fails as all after it do.

        `how` is `fail`, `short` or `on`.
        """
        return self.ask(*words, environment={"REFUSE": f"{call} {number} {how}"}, **more)
