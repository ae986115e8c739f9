"""Where the three programs are: the one place that knows of which crate, or of which tool, each is."""
import os
from pathlib import Path
from typing import Dict, List, Optional

from .layers import below, uses_of

TOP = Path(__file__).resolve().parents[2]
UNPROVED = "build/unproved"
CRATES = {"pipegraph": "pw_main", "pipegraph-pods": "pw_pods"}
TOOLS = {"pipegraph-pictures": "tools/pictures/pipegraph-pictures"}
NAMES = [*CRATES, *TOOLS]


def tool_of(name: str, top: Path = TOP) -> Optional[Path]:
    """The script that a program is, if it is one: nothing of it is compiled or proved."""
    return top / TOOLS[name] if name in TOOLS else None


def proved(name: str, top: Path = TOP) -> Path:
    """Where a program is that is proved and built, or is a script."""
    return tool_of(name, top) or top / "crates" / CRATES[name] / "out" / CRATES[name]


def is_current(name: str, top: Path = TOP) -> bool:
    """Whether a proved program is there that is as new as each file it is proved of, by their times, as make has it."""
    program = proved(name, top)
    if name in TOOLS or not program.is_file():
        return program.is_file()
    uses, made = uses_of(top), program.stat().st_mtime
    files = [path for crate in [CRATES[name], *below(uses, CRATES[name])] for part in ("src", "specs", "proofs")
             for path in (top / "crates" / crate / part).rglob("*") if path.is_file()]
    return all(path.stat().st_mtime <= made for path in [top / "crates.txt", *files])


def unproved(name: str, top: Path = TOP) -> Path:
    """Where a program is that was compiled without proofs, or is a script."""
    return tool_of(name, top) or top / UNPROVED / name


def named_folder(name: str) -> List[Path]:
    """The program of the folder that PIPEGRAPH_PROGRAMS names, under its own name or its crate's; no script."""
    folder = os.environ.get("PIPEGRAPH_PROGRAMS")
    return [Path(folder).resolve() / it for it in (name, CRATES[name])] if folder and name in CRATES else []


def found(name: str, top: Path = TOP) -> Optional[Path]:
    """The program that is to be run: of the folder that is named, else the proved one of this source, else another."""
    tried = named_folder(name) or [unproved(name, top)]
    if not named_folder(name) and is_current(name, top):
        tried = [proved(name, top)]
    return next((path for path in tried if path.is_file() and os.access(path, os.X_OK)), None)
