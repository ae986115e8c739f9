"""The programs that judge: what `pipegraph run` and `check` say of a script, and how it is drawn."""
import shutil
import subprocess
import sys
import tempfile
from pathlib import Path
from typing import Optional

from bridge.fault import Fault

TOP = Path(__file__).resolve().parents[3]
BUILT = TOP / "crates/pw_main/out/pw_main"
PICTURES = TOP / "tools/pictures/pipegraph-pictures"
MOST_ILLEGAL = 200  # runs of `check` over one log


def program() -> Optional[str]:
    """Where pipegraph is, if it is there: on the path, else as it is built here."""
    return shutil.which("pipegraph") or (str(BUILT) if BUILT.exists() else None)


class Judge:
    """A script in a folder of its own, which the programs are asked of."""

    def __init__(self, asked: str, script: str):
        self.asked, self.script = asked, script
        self.scratch = tempfile.TemporaryDirectory(prefix="pipegraph-judge-")
        self.folder = Path(self.scratch.name)

    def __enter__(self):
        return self

    def __exit__(self, *_):
        self.scratch.cleanup()

    def refused_links(self):
        """The links of the script that get no format, in one cycle of it."""
        self.store([[]])
        done = self.ask([self.asked, "run", "s.graph"])
        if done.returncode and not done.stdout:
            raise Fault(f"pipegraph run: {done.stderr.strip() or done.returncode}")
        return [line for line in done.stdout.splitlines() if line.startswith("nolink ")]

    def check(self, cycles):
        """The answer of `check` over cycles, which are numbered as they stand."""
        self.store(cycles)
        done = self.ask([self.asked, "check", "s.graph", "s.trace"])
        return done.stdout.strip() or done.stderr.strip()

    def illegal(self, cycles):
        """The places of the cycles that are not allowed, each of which begins anew after the one
        before it, and whether all were looked at."""
        found, start = [], 0
        while len(found) < MOST_ILLEGAL and start < len(cycles):
            answer = self.check([renumbered(cycle, at) for at, cycle in enumerate(cycles[start:])])
            if not answer.startswith("illegal "):
                return found, answer == "legal"
            found.append(start + cycle_of(cycles[start:], int(answer.split()[1])))
            start = found[-1] + 1
        return found, start == len(cycles)

    def picture(self, cycles, number):
        """The picture of a cycle, as pipegraph-pictures draws it."""
        self.store(cycles)
        words = [sys.executable, str(PICTURES)] if PICTURES.exists() else ["pipegraph-pictures"]
        done = self.ask([*words, "timeline", "s.graph", "s.trace", str(number), str(number)])
        if done.returncode:
            raise Fault(f"pipegraph-pictures: {done.stderr.strip()}")
        return done.stdout

    def store(self, cycles):
        """The script with as many cycles, and their lines."""
        script = f"{self.script.rpartition('cycles ')[0]}cycles {len(cycles)}\n"
        (self.folder / "s.graph").write_text(script)
        text = "".join(line + "\n" for cycle in cycles for line in cycle)
        (self.folder / "s.trace").write_text(text)

    def ask(self, words):
        try:
            return subprocess.run(words, cwd=self.folder, text=True, stdin=subprocess.DEVNULL,
                                  stdout=subprocess.PIPE, stderr=subprocess.PIPE)
        except OSError as error:
            raise Fault(f"{words[0]}: {error.strerror}") from None


def renumbered(cycle, number):
    """The lines of a cycle as those of another number."""
    parts = [line.split(" ", 2) for line in cycle]
    return [" ".join([words[0], str(number), *words[2:]]) for words in parts]


def cycle_of(cycles, event):
    """The place of the cycle that has an event, counted from 1 over all cycles."""
    for place, cycle in enumerate(cycles):
        event -= len(cycle)
        if event <= 0:
            return place
    raise Fault("pipegraph check names an event that is not in the trace")


def try_links(path, script, told):
    """Refuses a script of which a link gets no format. Where pipegraph is not there a sentence of
    that is told."""
    asked = program()
    if asked is None:
        told.append("note: pipegraph is not there, so it was not tried whether each link gets a "
                    "format: ./install builds it")
        return
    with Judge(asked, script) as judge:
        refused = judge.refused_links()
    if refused:
        ends = ", ".join(" to ".join(line.split()[1:3]) for line in refused)
        raise Fault(f"{path}: no format for the link from {ends}: pipegraph run says "
                    f"{'; '.join(refused)}", told)
