"""The files that are installed: where each goes below a prefix, of which file, and with which mode."""
from pathlib import Path
from typing import Callable, List, NamedTuple

from compiling import places

PICTURES = "lib/pipegraph/pictures"  # where a program that is a script has its folder
LEFT_OUT = {"test", "tests", "__pycache__"}


class File(NamedTuple):
    """A file below the prefix; where `link` is not empty it is a symbolic link to that."""

    place: str
    source: Path
    mode: int
    link: str = ""


def scripts(name: str, top: Path) -> List[File]:
    """A program that is a script: its folder, and a link in bin."""
    tool = places.tool_of(name, top)
    if not tool:
        return []
    inside = [path for path in sorted(tool.parent.rglob("*")) if path.is_file()
              and not LEFT_OUT & set(path.relative_to(tool.parent).parts)]
    put = [File(f"{PICTURES}/{path.relative_to(tool.parent)}", path, 0o755 if path == tool else 0o644) for path in inside]
    return [*put, File(f"bin/{name}", tool, 0o755, f"../{PICTURES}/{tool.name}")]


def files(program: Callable[[str, Path], Path], top: Path) -> List[File]:
    """All files, with the programs that `program` names."""
    found: List[File] = []
    for name in places.NAMES:
        found += scripts(name, top) or [File(f"bin/{name}", program(name, top), 0o755)]
        found += [File(f"share/man/man1/{name}.1", top / f"docs/{name}.1", 0o644),
                  File(f"share/bash-completion/completions/{name}", top / f"completions/{name}.bash", 0o644),
                  File(f"share/fish/vendor_completions.d/{name}.fish", top / f"completions/{name}.fish", 0o644)]
    return [*found, File("share/zsh/site-functions/_pipegraph", top / "completions/_pipegraph", 0o644)]
