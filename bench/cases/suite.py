"""All cases of some files, asked and counted."""
from concurrent.futures import ThreadPoolExecutor
from pathlib import Path
from typing import Callable, NamedTuple

from answers import ask, programs_in, ways_of
from opinion import disagreeing, said_of
from rows import Case, Reader, Wrong

AT_ONCE = 4  # programs at a time
OTHERS = {"README.md", "run", "__pycache__"}  # of the folder, beside cases and modules


class Count(NamedTuple):
    """What was asked."""
    cases: int = 0
    runs: int = 0
    opinions: int = 0
    loose: int = 0
    failed: int = 0

    def plus(self, other: "Count") -> "Count":
        """Both together."""
        return Count(*(a + b for a, b in zip(self, other)))


def without_model(case: Case) -> tuple:
    """Whether bench/outside says something of a case, and what it says otherwise."""
    said = said_of(case)
    return (False, []) if said is None else (True, disagreeing(case, said))


def ask_cases(programs: dict, name: str, cases: list, pool: ThreadPoolExecutor,
              say: Callable) -> Count:
    """Asks the cases of a file, and tells what differs, each difference of a case once."""
    rows = [(case, way) for case in cases for way in ways_of(case)]
    answers = pool.map(lambda row: ask(programs, *row), rows)
    opinions = [(case, ["by bench/outside"], *without_model(case)) for case in cases]
    told = set()
    for case, way, found in [*((case, way, found) for (case, way), found in zip(rows, answers)),
                             *((case, way, found) for case, way, _, found in opinions)]:
        if found and (case.at, *found) not in told:
            say("\n".join([f"{name}:{case.at}: {' '.join([case.title, *way])}", *found]))
            told.add((case.at, *found))
    return Count(len(cases), len(rows), sum(asked for _, _, asked, _ in opinions),
                 sum(case.is_loose() for case in cases), len({at for at, *_ in told}))


def unread(folder: Path, say: Callable) -> Count:
    """Files of the folder of which nothing is read, each a failure."""
    names = [path.name for path in sorted(folder.iterdir())
             if path.suffix not in (".case", ".py") and path.name not in OTHERS]
    for name in names:
        say(f"{name}: no file of cases, since it does not end with .case")
    return Count(failed=len(names), cases=len(names))


def ask_files(folders: list, paths: list, say: Callable) -> Count:
    """Asks the cases of these files; of a file with a line that is not read, none."""
    read, count = [], Count()
    for path in paths:
        try:
            read.append((path, Reader(path).cases))
        except (Wrong, OSError, UnicodeDecodeError) as wrong:
            say(f"{wrong}\n    nothing of this file was asked")
            count = count.plus(Count(cases=1, failed=1))
    names = {step.program for _, cases in read for case in cases for step in case.steps}
    programs = programs_in(folders, names)
    with ThreadPoolExecutor(AT_ONCE) as pool:
        for path, cases in read:
            found = ask_cases(programs, path.name, cases, pool, say)
            say(f"{found.cases:6} {path.stem}")
            count = count.plus(found)
    return count
