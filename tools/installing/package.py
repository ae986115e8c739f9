"""Packages of the proved programs: a .deb and a .tar.xz, the same bytes each time they are made of one commit."""
import io
import lzma
import os
import shutil
import subprocess
import tarfile
import tempfile
from pathlib import Path
from typing import List

from compiling.kit import Stopped

from .files import File
from .putting import put_one

VERSION = "0.1"
CONTROL = f"""Package: pipegraph
Version: {VERSION}
Section: sound
Priority: optional
Architecture: amd64
Depends: libc6 (>= 2.34)DEPENDS
Maintainer: Linnetchair maintainers <maintainers@users.noreply.linnetchair.example>
Description: PipeWire's graph engine on a script and files
 A script of WAV files, effects and links becomes WAV files; formats are
 filtered and traces are checked as PipeWire's graph has them. The programs
 were proved to do what their contracts say.
"""
COPYRIGHT = "No licence has been chosen for pipegraph.\n"


def seconds_of(top: Path) -> int:
    """The time of the commit, which all files in a package have."""
    done = subprocess.run(["git", "log", "-1", "--format=%ct"], cwd=top, stdout=subprocess.PIPE, text=True,
                          stderr=subprocess.DEVNULL)
    return int(done.stdout.strip() or 0)


def is_clean(top: Path) -> bool:
    done = subprocess.run(["git", "status", "--porcelain"], cwd=top, stdout=subprocess.PIPE, text=True,
                          stderr=subprocess.DEVNULL)
    return not done.stdout.strip()


def write_tar(files: List[File], to: Path, seconds: int) -> None:
    """Writes bin and share, with nothing in it of who made it and when."""
    root = f"pipegraph-{VERSION}"
    written = io.BytesIO()
    with tarfile.open(fileobj=written, mode="w", format=tarfile.USTAR_FORMAT) as tar:
        for file in sorted(files):
            entry = tarfile.TarInfo(f"{root}/{file.place}")
            entry.mtime, entry.mode = seconds, file.mode
            if file.link:
                entry.type, entry.linkname = tarfile.SYMTYPE, file.link
                tar.addfile(entry)
            else:
                content = file.source.read_bytes()
                entry.size = len(content)
                tar.addfile(entry, io.BytesIO(content))
    to.write_bytes(lzma.compress(written.getvalue(), preset=6))


def write_deb(files: List[File], to: Path, seconds: int) -> None:
    """Writes a package for `apt install`, by dpkg-deb."""
    if not shutil.which("dpkg-deb"):
        raise Stopped("dpkg-deb is not installed, which makes the .deb")
    with tempfile.TemporaryDirectory(prefix="pipegraph-deb-") as name:
        root = Path(name) / "root"
        for file in files:
            put_one(file, root / "usr")
        notes = root / "usr/share/doc/pipegraph/copyright"
        notes.parent.mkdir(parents=True)
        notes.write_text(COPYRIGHT)
        (root / "DEBIAN").mkdir()
        (root / "DEBIAN/control").write_text(CONTROL.replace("DEPENDS", ", python3" if any(it.link for it in files) else ""))
        for path in [root, *root.rglob("*")]:
            if not path.is_symlink():
                path.chmod(0o755 if path.is_dir() or os.access(path, os.X_OK) else 0o644)
            os.utime(path, (seconds, seconds), follow_symlinks=False)
        subprocess.run(["dpkg-deb", "--root-owner-group", "-Zxz", "--build", root, to], check=True,
                       stdout=subprocess.DEVNULL, env={**os.environ, "SOURCE_DATE_EPOCH": str(seconds)})


def write_packages(files: List[File], folder: Path, top: Path) -> List[Path]:
    """Writes both packages into a folder."""
    folder.mkdir(parents=True, exist_ok=True)
    deb, tar = folder / f"pipegraph_{VERSION}_amd64.deb", folder / f"pipegraph-{VERSION}-x86_64-linux.tar.xz"
    write_deb(files, deb, seconds_of(top))
    write_tar(files, tar, seconds_of(top))
    return [deb, tar]
