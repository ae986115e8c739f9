"""Proves and builds the programs that are not built yet, and says how far it is."""
import os
import subprocess
import sys
from pathlib import Path
from typing import Dict, List, Set

from compiling import places
from compiling.kit import Stopped
from compiling.layers import below, uses_of
from telling.costs import Estimate, Part, costs, in_words
from telling.line import Line

# The words of a run that does no harm, once a program is built.
RUNS: Dict[str, List[str]] = {"pw_main": ["run", "/dev/null"], "pw_pods": ["--help"]}


def missing(top: Path) -> List[str]:
    """The crates of the programs that are not built, or are older than their source."""
    return [crate for name, crate in places.CRATES.items() if not places.is_current(name, top)]


class Proving:
    """The crates below the programs, and those that are proved."""

    def __init__(self, top: Path, crates: List[str]) -> None:
        uses = uses_of(top)
        self.top = top
        self.crates = list(dict.fromkeys(name for crate in crates for name in [*below(uses, crate), crate]))
        page = top / "docs/CLAIMS.md"
        parts: List[Part] = [(name, "proof") for name in self.crates]
        self.estimate = Estimate(costs(page) if page.is_file() else {}, parts)
        self.before, self.line = self.done(), Line()

    def done(self) -> Set[str]:
        made = {name: (f"out/{name}", "out/rlib/stamp") for name in self.crates}
        return {name for name, files in made.items() if any((self.top / "crates" / name / it).exists() for it in files)}

    def show(self) -> None:
        done, seconds = self.done(), self.line.seconds()
        parts = [(name, "proof") for name in done]
        new = [(name, "proof") for name in done - self.before]
        left = in_words(self.estimate.left(parts, new, seconds))
        self.line.show(f"install: {len(done)} of {len(self.crates)} crates proved, {in_words(seconds)}, some {left} left")


def prove(top: Path, crate: str, proving: Proving) -> None:
    """Builds the program of a crate, which proves every crate that it stands on."""
    log = top / "crates" / crate / "build.log"
    with log.open("w") as said:
        begun = subprocess.Popen(["rt", "run", "--", *RUNS[crate]], cwd=top / "crates" / crate,
                                 stdin=subprocess.DEVNULL, stdout=said, stderr=subprocess.STDOUT)
        while True:
            try:
                begun.wait(1)
                break
            except subprocess.TimeoutExpired:
                proving.show()
    proving.line.clear()
    program = top / "crates" / crate / "out" / crate
    if begun.returncode or not program.is_file():
        sys.stderr.write("".join(log.read_text(errors="replace").splitlines(True)[-20:]))
        raise Stopped(f"crates/{crate} was not built")
    log.unlink()
    os.utime(program)  # rt leaves it as it is where no text changed, but only times


def prove_all(top: Path) -> None:
    """Proves what is missing."""
    crates = missing(top)
    proving = Proving(top, crates)
    for crate in crates:
        print(f"crates/{crate} is not built of this source: proving what it stands on and building it", file=sys.stderr)
        try:
            prove(top, crate, proving)
        except FileNotFoundError:
            raise Stopped("the Rattle kit's command rt is not on the PATH; ./install --unproved needs the kit too") from None
