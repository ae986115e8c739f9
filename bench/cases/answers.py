"""Asking a case of the programs, and what differs."""
import difflib
import os
import re
import shutil
import subprocess
import tempfile
from functools import partial
from pathlib import Path
from typing import Callable, Union

from calls import Calls, can_count
from notation import shown, text, told
from rows import ANY, PROGRAMS, Case, Content, Step, bytes_of

# A run that says nothing of its loops is asked in each of these ways, and answers the same.
WAYS = [[], ["--loops", "0"], ["--loops", "3"], ["--loops", "3", "--steal"]]
SECONDS = 60  # after which a program is stopped
HOLE = 1 << 20  # zero bytes at the end of a file that are a hole on the disk from this number on
LINES = 40  # of a difference are shown


def is_as(wanted: Union[bytes, list], raw: bytes) -> bool:
    """Whether bytes are as lines, or other bytes, say."""
    if isinstance(wanted, bytes) or ANY not in wanted:
        return bytes_of(wanted) == raw
    parts = [rb"(?:.*\n)+" if line == ANY else re.escape(text([line])) for line in wanted]
    return re.fullmatch(b"".join(parts), raw) is not None


def parted(what: str, wanted: bytes, got: bytes) -> list:
    """What differs of two files or outputs, for people."""
    lines = list(difflib.unified_diff(told(wanted), told(got), "wanted", "got", "", "", 2, ""))
    return [f"    {what}:", *(f"      {line}" for line in lines[:LINES] if line[:2] != "@@")]


def missing(what: str, wanted: list, got: bytes) -> list:
    """The lines of a text with `...` that are not there, each with the one that is most like it."""
    lines, found = shown(got), [f"    {what}:"]
    for line in shown(text([line for line in wanted if line != ANY])):
        if line not in lines:
            like = difflib.get_close_matches(line, lines, 1)
            found += [f"      -{line}", *(f"      +{other}" for other in like)]
    if len(found) == 1:
        found += ["      its lines are there, and others, or in another order"]
    return found


def of_text(what: str, wanted: Union[bytes, list], got: bytes) -> list:
    """What differs of an output."""
    if is_as(wanted, got):
        return []
    if isinstance(wanted, list) and ANY in wanted:
        return missing(what, wanted, got)
    return parted(what, bytes_of(wanted), got)


def of_step(step: Step, ended: "subprocess.CompletedProcess[bytes]") -> list:
    """What differs of an answer, for people."""
    found = []
    if ended.returncode != step.status:
        found = [f"    status: wanted {step.status}, got {ended.returncode}"]
    return (found + of_text("standard output", step.out, ended.stdout)
            + of_text("standard error", step.errors, ended.stderr))


def of_file(label: str, path: bytes, content: Content) -> list:
    """What differs of a file that is to be left."""
    if not os.path.exists(path):
        return [f"    {label} is not left"]
    if isinstance(content, str):
        same = os.path.isdir(path) if content == "folder" else is_hole(path, int(content.split()[1]))
        return [] if same else [f"    {label} is no longer {content}"]
    if content == []:
        return []
    got = Path(os.fsdecode(path)).read_bytes()
    return [] if got == bytes_of(content) else parted(label, bytes_of(content), got)


def is_hole(path: bytes, size: int) -> bool:
    """Whether a file has this size and was not written to."""
    return os.path.getsize(path) == size and os.stat(path).st_blocks == 0


def of_files(case: Case, folder: bytes) -> list:
    """What differs of the files in a folder: those that were given and are left, and no others."""
    found = []
    wanted = {name: content for name, content in case.given.items() if name != b"-"}
    wanted.update(case.left)
    for name in sorted({*wanted, *os.listdir(folder), *case.none}):
        path, label = os.path.join(folder, name), shown(name)[0][:-1]
        if name in case.none or name not in wanted:
            if os.path.lexists(path):
                found += [f"    {label} is left, and should not be"]
        else:
            found += of_file(label, path, wanted[name])
    return found


def store(path: bytes, content: Content) -> None:
    """Makes a file or a folder."""
    if content == "folder":
        os.mkdir(path)
        return
    with open(path, "wb") as file:
        if isinstance(content, str):
            file.truncate(int(content.split()[1]))
            return
        raw = bytes_of(content)
        kept = raw.rstrip(b"\0") if raw.endswith(bytes(HOLE)) else raw
        file.write(kept)
        file.truncate(len(raw))


def ways_of(case: Case) -> list:
    """The options with which a case is asked, each a way of its own."""
    return WAYS if any(step.is_plain_run for step in case.steps) else [[]]


def ask_step(step: Step, run: Callable) -> list:
    """Asks a command line, counts its threads where the case says how many, and answers what differs."""
    if step.threads is None or not can_count():
        return of_step(step, run(env=None))
    with tempfile.TemporaryDirectory(prefix="pipegraph-calls-") as name:
        calls = Calls(Path(name))
        found = of_step(step, run(env=calls.environment))
        if calls.threads() != step.threads:
            found += [f"    threads: wanted {step.threads}, got {calls.threads()}"]
        return found


def in_folder(programs: dict, case: Case, way: list, folder: bytes) -> list:
    """Asks a case in an empty folder."""
    found = []
    for name, content in case.given.items():
        if name != b"-":
            store(os.path.join(folder, name), content)
    for step in case.steps:
        more = [word.encode() for word in way] if step.is_plain_run else []
        found += ask_step(step, partial(
            subprocess.run, step.words + more, executable=programs[step.program], cwd=folder,
            input=bytes_of(case.given.get(b"-", b"")), capture_output=True, timeout=SECONDS, check=False))
    return found + of_files(case, folder)


def ask(programs: dict, case: Case, way: list) -> list:
    """Asks a case in one way, and answers what differs."""
    folder = os.fsencode(tempfile.mkdtemp(prefix="pipegraph-case-"))
    try:
        return in_folder(programs, case, way, folder)
    except subprocess.TimeoutExpired:
        return [f"    it does not end within {SECONDS} seconds"]
    finally:
        shutil.rmtree(folder)


def programs_in(folders: list, names: set) -> dict:
    """The programs of these names: in the first of the folders that has one, under its own name, under that of its
    crate, or where the repository has it.
    """
    found = {}
    for name in sorted(names):
        place = PROGRAMS[name]
        crate = [Path(place).name] if place.startswith("crates/") else []
        tried = [folder / path for folder in folders for path in (name, *crate, place)]
        there = [path for path in tried if path.is_file()]
        if not there:
            raise SystemExit(f"{tried[0]} is not there")
        found[name] = there[0].resolve()
    return found
