"""A folder of programs that are kept: by a sum of what they were made of, whole or not at all."""
import fcntl
import hashlib
import os
import shutil
import tempfile
from contextlib import contextmanager
from pathlib import Path
from typing import Dict, Iterator

from .kit import identity
from .layers import below, uses_of

SUM = "sum"


def sum_of(kit: Path, checkout: Path, crates: Dict[str, str]) -> str:
    """A sum of the kit, of the source of programs, and of these tools."""
    summed, uses = hashlib.sha256(f"{kit} {identity(kit)} {sorted(crates)}".encode()), uses_of(checkout)
    names = sorted({name for crate in crates.values() for name in [crate, *below(uses, crate)]})
    files = [path for name in names for path in sorted((checkout / "crates" / name / "src").rglob("*.rt"))]
    for path in [checkout / "crates.txt", *files, *sorted(Path(__file__).parent.glob("*.py"))]:
        content = path.read_bytes()
        summed.update(f"{path.name} {len(content)} ".encode() + content)
    return summed.hexdigest()


def is_kept(folder: Path, wanted: str, crates: Dict[str, str]) -> bool:
    """Whether a folder has these programs, made of just what the sum is of."""
    path = folder / SUM
    whole = all(os.access(folder / name, os.X_OK) for name in crates)
    return whole and path.is_file() and path.read_text().strip() == wanted


@contextmanager
def alone(folder: Path, waits) -> Iterator[None]:
    """Holds the folder for one run at a time; says that it waits where another has it."""
    folder.mkdir(parents=True, exist_ok=True)
    with open(folder / "lock", "w") as lock:
        try:
            fcntl.flock(lock, fcntl.LOCK_EX | fcntl.LOCK_NB)
        except BlockingIOError:
            waits()
            fcntl.flock(lock, fcntl.LOCK_EX)
        yield


@contextmanager
def being_made(folder: Path) -> Iterator[Path]:
    """A folder beside the programs where new ones are made; nothing of it stays."""
    for left in folder.glob("making-*"):  # of a run that was killed
        shutil.rmtree(left, ignore_errors=True)
    made = Path(tempfile.mkdtemp(prefix="making-", dir=folder))
    try:
        yield made
    finally:
        shutil.rmtree(made, ignore_errors=True)


def put(made: Path, folder: Path, crates: Dict[str, str], summed: str) -> None:
    """Puts all programs that were made in their place; the sum comes last."""
    (folder / SUM).unlink(missing_ok=True)
    for name in crates:
        os.replace(made / name, folder / name)
    (made / SUM).write_text(summed + "\n")
    os.replace(made / SUM, folder / SUM)
