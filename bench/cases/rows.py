"""Cases, and the reader of the files that have them."""
import re
from pathlib import Path
from typing import Optional, Union

from notation import made, text, unescaped

# Each program, and where it is in the repository: built by the gate, or a script.
PROGRAMS = {"pipegraph": "crates/pw_main/out/pw_main", "pipegraph-pods": "crates/pw_pods/out/pw_pods",
            "pipegraph-pictures": "tools/pictures/pipegraph-pictures"}
ORDER = ["case", "given", "$", ">", "!", "status", "threads", "left", "none"]
ANY = "..."  # a line that stands for one line or more
SPECIAL = re.compile(r"folder|zeros \d+")  # what is made on the disk only

# Bytes, lines of a text, or one of SPECIAL.
Content = Union[bytes, list, str]


class Wrong(Exception):
    """A line of a case file that is not read."""


class Step:
    """A command line, and what is wanted of it."""

    def __init__(self, line: str) -> None:
        self.words = [unescaped(word.encode()) for word in line.split()]
        self.program = self.words[0].decode() if self.words else ""
        if self.program not in PROGRAMS:
            raise Wrong("a command line begins with the name of a program")
        self.out: Union[bytes, list] = []
        self.errors: list = []
        self.status = 0
        self.threads: Optional[int] = None  # None: they are not counted
        self.is_plain_run = len(self.words) == 3 and self.words[:2] == [b"pipegraph", b"run"]

    def is_loose(self) -> bool:
        """Whether a line of it stands for any others."""
        return ANY in self.errors or isinstance(self.out, list) and ANY in self.out


class Case:
    """Files, command lines, and the files that are left."""

    def __init__(self, at: int, title: str, given: dict) -> None:
        self.at, self.title, self.given = at, title, dict(given)
        self.steps: list = []
        self.left: dict = {}
        self.none: list = []
        self.last = "case"

    def is_loose(self) -> bool:
        """Whether something that it says matches more than one answer."""
        return any(step.is_loose() for step in self.steps) or [] in self.left.values()


def bytes_of(content: Union[bytes, list]) -> bytes:
    """The bytes of lines, or of bytes."""
    return text(content) if isinstance(content, list) else content


class Reader:
    """The cases of a file; before the first, files that all have, and texts that have a name."""

    def __init__(self, path: Path) -> None:
        self.cases: list = []
        self.given: dict = {}
        self.texts: dict = {}
        self.lines: Optional[list] = None
        first, *lines = path.read_text(encoding="utf-8").split("\n")
        if not re.fullmatch(r"from \S.*", first):
            raise Wrong(f"{path.name}:1: a file begins with `from`, and where its values come from")
        self.from_line = first
        for at, line in enumerate(lines, 2):
            try:
                self.read(at, *line.lstrip(" ").partition(" "))
            except (Wrong, ValueError, LookupError, TypeError) as error:
                raise Wrong(f"{path.name}:{at}: not read: {line} ({error})") from error
        self.end(path, len(lines) + 1)

    def end(self, path: Path, at: int) -> None:
        """Refuses a file without a case, and a case without a command line."""
        for case in self.cases:
            if not case.steps:
                raise Wrong(f"{path.name}:{case.at}: a case has a command line")
        if not self.cases:
            raise Wrong(f"{path.name}:{at}: a file has a case")

    def text(self, rest: str) -> list:
        """The lines for which a line of a text stands."""
        return self.texts[rest[1:]] if rest.startswith("@") else [rest]

    def file(self, rest: str, files: dict) -> None:
        """A file by a notation, or by the lines that follow."""
        name, equals, notation = rest.partition(" = ")
        self.lines = []
        content: Content = self.lines
        if equals:
            content = notation if SPECIAL.fullmatch(notation) else made(notation)
        files[unescaped(name.encode())] = content

    def read(self, at: int, sign: str, _: str, rest: str) -> None:
        """One line by its first word."""
        if sign in ("", "#"):
            return
        if sign == "|":
            if self.lines is None:
                raise Wrong("no file and no text is open")
            self.lines += self.text(rest)
            return
        self.lines = None
        if sign == "case":
            self.begin(at, rest)
        elif self.cases:
            self.of_case(self.cases[-1], sign, rest)
        elif sign == "given":
            self.file(rest, self.given)
        elif sign == "text":
            self.lines = self.texts.setdefault(rest, [])
        else:
            raise Wrong("only `given` and `text` come before the first case")

    def begin(self, at: int, title: str) -> None:
        """A case by its title, which may be its command line."""
        if not title or title in [case.title for case in self.cases]:
            raise Wrong("a case has a title of its own")
        self.cases.append(Case(at, title, self.given))
        if title.startswith("$ "):
            self.of_case(self.cases[-1], "$", title[2:])

    def of_case(self, case: Case, sign: str, rest: str) -> None:
        """A line of a case."""
        if ORDER.index(sign) < ORDER.index(case.last) and sign != "$":
            raise Wrong(f"it comes before {case.last}")
        case.last = sign
        if sign == "given":
            self.file(rest, case.given)
        elif sign == "$":
            case.steps.append(Step(rest))
        elif sign == ">":
            step = case.steps[-1]
            if rest.startswith("= "):
                step.out = made(rest[2:])
            else:
                step.out += self.text(rest)
        elif sign == "!":
            case.steps[-1].errors += self.text(rest)
        elif sign == "status":
            case.steps[-1].status = int(rest)
        elif sign == "threads":
            if case.steps[-1].is_plain_run:
                raise Wrong("a run that is asked in four ways starts other threads in each")
            case.steps[-1].threads = int(rest)
        elif sign == "left":
            self.file(rest, case.left)
        else:
            case.none.append(unescaped(rest.encode()))
