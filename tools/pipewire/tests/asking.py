"""Runs the tools and the built programs, and counts what is as it should be."""
import os
import subprocess
import sys
import tempfile
from pathlib import Path

TOOLS = Path(__file__).resolve().parents[1]
TOP = TOOLS.parents[1]
RECORDINGS = TOP / "demo/pipewire"
CRATES = {"pipegraph": "pw_main", "pipegraph-pods": "pw_pods"}
PICTURES = TOP / "tools/pictures/pipegraph-pictures"


class Answer:
    """What a program put, and how it ended."""

    def __init__(self, done):
        self.status, self.text, self.errors = done.returncode, done.stdout, done.stderr

    def whole(self):
        """All of it, for a comparison."""
        return self.status, self.text, self.errors


class Asking:
    """The programs, a folder to work in, and the count of comparisons."""

    def __init__(self, programs):
        self.programs = {name: find(programs, name, crate) for name, crate in CRATES.items()}
        self.programs["pipegraph-pictures"] = PICTURES
        self.scratch = tempfile.TemporaryDirectory(prefix="pipegraph-test-")
        self.folder = Path(self.scratch.name)
        self.count = self.differences = 0
        self.bin = self.folder / "bin"
        self.bin.mkdir()
        for name, path in self.programs.items():
            (self.bin / name).symlink_to(path)

    def tool(self, name, *words):
        """A tool of this folder."""
        return self.ask([sys.executable, str(TOOLS / name), *map(str, words)])

    def program(self, name, *words, text=""):
        """A built program."""
        return self.ask([str(self.programs[name]), *map(str, words)], text)

    def ask(self, words, text=""):
        return Answer(subprocess.run(words, cwd=self.folder, input=text, stdout=subprocess.PIPE,
                                     stderr=subprocess.PIPE, text=True, timeout=60,
                                     env=self.environment))

    @property
    def environment(self):
        """The programs are on the path of the tools."""
        return {**os.environ, "LC_ALL": "C.UTF-8", "PATH": f"{self.bin}:{os.environ['PATH']}"}

    def store(self, name, text):
        """A file of the folder."""
        (self.folder / name).write_text(text)
        return name

    def same(self, what, wanted, got):
        """Counts a comparison, and tells a difference."""
        self.count += 1
        if wanted != got:
            self.differences += 1
            print(f"{what}\n  wanted: {wanted!r}\n  got:    {got!r}")

    def close(self):
        self.scratch.cleanup()


def find(folder, name, crate):
    """A built program: in the folder that is named, by its own name or its crate's, or where `rt` leaves it."""
    tried = [Path(folder) / crate, Path(folder) / name] if folder else [TOP / "crates" / crate / "out" / crate]
    there = [path.resolve() for path in tried if path.is_file()]
    if not there:
        sys.exit(f"tools/pipewire/test: {tried[0]} is not there: ./install builds the programs")
    return there[0]


def recording(scene):
    """The dump and the log of a scene."""
    return RECORDINGS / f"{scene}.json", RECORDINGS / f"{scene}.log"


def commands(script):
    """The lines of a script without remarks."""
    return [line for line in script.splitlines() if line and not line.startswith("#")]
