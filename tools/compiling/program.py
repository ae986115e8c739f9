"""One program: from its source to an executable file, without a proof."""
import os
import signal
import subprocess
import tempfile
import threading
from pathlib import Path
from typing import Any, Callable, List, Set

from .kit import Stopped, full
from .module import Ran, Run, lowered, unchecked

TARGET = "x86_64-unknown-linux-gnu"
Tell = Callable[[str], None]


class Commands:
    """Commands that are at work, each in a group of processes of its own, so that all of it can be ended."""

    def __init__(self) -> None:
        self.lock, self.ended = threading.Lock(), False
        self.running: Set["subprocess.Popen[bytes]"] = set()

    def run(self, folder: Path, words: List[Any], cwd: Any = None) -> Ran:
        with self.lock:
            if self.ended:
                raise Stopped("stopped")
            begun = subprocess.Popen([str(it) for it in words], cwd=cwd, stdin=subprocess.DEVNULL,
                                     stdout=subprocess.DEVNULL, stderr=subprocess.PIPE, start_new_session=True,
                                     env={**os.environ, "TMPDIR": str(folder)})
            self.running.add(begun)
        said = begun.communicate()[1].decode(errors="replace")
        with self.lock:
            self.running.discard(begun)
        return Ran(begun.returncode, said)

    def end(self) -> None:
        """Ends all that is at work; nothing can be begun after it."""
        with self.lock:
            self.ended = True
            for it in self.running:
                try:
                    os.killpg(it.pid, signal.SIGKILL)
                except ProcessLookupError:
                    pass


def compiled(run: Run, kit: Path, folder: Path, text: Path, crate: str, out: Path) -> None:
    """Writes the program of a module."""
    plain, made = folder / "plain.ll", folder / "plain.o"
    with text.open() as old, plain.open("w") as new:
        new.writelines(unchecked(old))
    text.unlink()
    ran = run([kit / "toolchain/bin/clang", "-O2", "-fPIE", "-march=x86-64-v2", "-mllvm",
               "-trap-unreachable", "-x", "ir", "-c", plain, "-o", made])
    if not ran.status:
        ran = run([kit / "bin/rattle-link", "--target", TARGET, "--toolchain", kit / "toolchain", "-o", out, made,
                   kit / "c/libos_c.a", kit / "c/liblibc_c.a"])
    if ran.status:
        raise Stopped(f"crates/{crate} was not compiled:\n{ran.said[-2000:].strip()}")
    out.chmod(0o755)


def compile_program(commands: Commands, kit: Path, checkout: Path, crate: str, out: Path, tell: Tell) -> None:
    """Writes the program of a crate; what is between is in a temporary folder that does not stay."""
    with tempfile.TemporaryDirectory(prefix="pipegraph-unproved-") as name:
        folder = Path(name)

        def run(words: List[Any], cwd: Any = None) -> Ran:
            return commands.run(folder, words, cwd)

        try:
            tell("reads the source")
            text = lowered(run, kit, folder, checkout, crate)
            tell("compiles")
            compiled(run, kit, folder, text, crate, out)
        except (Stopped, OSError):
            # whatever a tool says of it
            at = full([folder, out.parent])
            if at:
                raise Stopped(f"no room is left on the disk of {at.parent}" + (
                    "; TMPDIR names another folder for what is between" if at == folder else "")) from None
            raise
        tell("is there")
