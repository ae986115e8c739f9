"""Puts files below a folder, and takes away what was put."""
import os
import shutil
from pathlib import Path
from typing import List

from .files import File

LIST = "share/pipegraph/installed"  # the places of the files that were put, one a line


def put_one(file: File, to: Path) -> Path:
    """Puts a file; one of that name is replaced, so that a program that runs goes on."""
    path = to / file.place
    path.parent.mkdir(parents=True, exist_ok=True)
    new = path.with_name(f".{path.name}.new")
    new.unlink(missing_ok=True)
    if file.link:
        new.symlink_to(file.link)
    else:
        shutil.copyfile(file.source, new)
        new.chmod(file.mode)
    os.replace(new, path)
    return path


def put_all(files: List[File], to: Path) -> None:
    """Puts all files, and the list of them by which they can be taken away."""
    for file in files:
        print(put_one(file, to))
    listed = to / LIST
    listed.parent.mkdir(parents=True, exist_ok=True)
    listed.write_text("".join(file.place + "\n" for file in files))
    print(listed)


def remove_all(to: Path) -> bool:
    """Takes away what was put below a folder, and the folders that are empty then; whether there was something."""
    listed = to / LIST
    if not listed.is_file():
        return False
    for place in [*listed.read_text().splitlines(), LIST]:
        path = to / place
        if path.is_symlink() or path.exists():
            path.unlink()
            print(path)
        for folder in path.parents:
            if folder == to or not folder.is_dir() or any(folder.iterdir()):
                break
            folder.rmdir()
    return True
