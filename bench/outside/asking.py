"""Asking the programs once, and the count of what was asked."""
import os
import resource
import shutil
import signal
import subprocess
import tempfile
import threading
import time
from pathlib import Path
from typing import NamedTuple

TOP = Path(__file__).resolve().parents[2]
MAIN, PODS, PICTURES = "pipegraph", "pipegraph-pods", "pipegraph-pictures"
CRATES = {MAIN: "pw_main", PODS: "pw_pods"}
TOOL = TOP / "tools/pictures" / PICTURES  # it is no built program
NOBODY = 65534
SECONDS = 180  # after which a case is stopped: a difference
HANGS = 3  # so many such cases end their group
SHOWN = 300  # how much is shown of what differs
BEFORE = 60  # and how much of that is what is before


class Answer(NamedTuple):
    status: int  # below 0: the signal that ended it
    out: bytes
    errors: bytes
    seconds: float
    peak: float  # MiB


def programs_of(folder):
    """The program of each name: those of a folder, or those that the repository's gate built.

    In a folder they have the names of their crates, or those under which they are installed.
    """
    found = {}
    for name, crate in CRATES.items():
        built = [TOP / "crates" / crate / "out" / crate]
        tried = [Path(folder) / crate, Path(folder) / name] if folder else built
        there = [path.resolve() for path in tried if path.is_file()]
        if not there:
            raise SystemExit(f"{tried[0]} is not there: `rt ci` builds the two programs")
        found[name] = there[0]
    installed = Path(folder) / PICTURES if folder else TOOL
    found[PICTURES] = installed.resolve() if installed.is_file() else TOOL
    return found


def modules_of(tool):
    """The folder of the modules of pipegraph-pictures, beside it or where ./install puts them."""
    beside, installed = tool.parent / "pictures", tool.parent.parent / "share/pipegraph/pictures"
    return beside if beside.is_dir() else installed


def shown(value, other=None):
    """A value of a difference; where it is long, from shortly before it parts from the other."""
    text = repr(value)
    if len(text) <= SHOWN:
        return text
    start = max(0, len(os.path.commonprefix([text, repr(other)])) - BEFORE)
    return f"..{text[start:start + SHOWN]}.. ({len(text)} characters)"


def lower(nobody, limits):
    """Takes what this process may do from it."""
    if nobody:
        os.setgroups([])
        os.setgid(NOBODY)
        os.setuid(NOBODY)
    for limit, value in limits:
        resource.setrlimit(limit, (value, value))


class Place:
    """A folder with a copy of the programs, in which cases are asked, counted and compared.

    `part` says that of each random kind one case in so many is asked.
    """

    def __init__(self, programs, part=1):
        self.folder = Path(tempfile.mkdtemp(prefix="pipegraph-outside-"))
        self.folder.chmod(0o777)  # some cases are asked by nobody
        for name, path in programs.items():
            shutil.copy(path, self.folder / name)
            (self.folder / name).chmod(0o755)
        shutil.copytree(modules_of(programs[PICTURES]), self.folder / "pictures",
                        ignore=shutil.ignore_patterns("__pycache__"))
        self.part = part
        self.count, self.hangs, self.differences, self.passed_over = 0, 0, [], []

    def remove(self):
        shutil.rmtree(self.folder)

    def some(self, count):
        """How many random cases are asked where the long run asks so many."""
        return -(-count // self.part)

    def file(self, name, content):
        path = self.folder / name
        path.write_bytes(content if isinstance(content, bytes) else content.encode())
        return path

    def read(self, name):
        path = self.folder / name
        return path.read_bytes() if path.is_file() else None

    def forget(self, *names):
        for name in names:
            (self.folder / name).unlink(missing_ok=True)

    def feed(self, name, content):
        """Makes a named pipe, and gives whoever opens it this content, beside what follows."""
        os.mkfifo(self.folder / name)
        give = (self.folder / name).write_bytes
        threading.Thread(target=give, args=[content], daemon=True).start()

    def start(self, words, of, name, given, to, errors, prepare, environment):
        """The program of a name, started; what it says on standard error goes into a file."""
        with tempfile.TemporaryFile() as standard_input:
            standard_input.write(given)
            standard_input.seek(0)
            return subprocess.Popen(
                [name or of, *words], executable=self.folder / of, cwd=self.folder,
                preexec_fn=prepare, stdin=standard_input, stderr=errors,
                stdout=subprocess.PIPE if to is None else to,
                env={**os.environ, **environment})

    def ask(self, *words, of=MAIN, name=None, given=b"", to=None, errors_to=None, limits=(),
            nobody=False, ignored=(), closed=(), environment=()):
        """The answer to these words.

        `name` is what the program is told to be called, `given` what it reads from standard input;
        `to` and `errors_to` are standard output and standard error where these are not kept.
        """

        def prepare():
            signal.alarm(SECONDS)
            for number in ignored:
                signal.signal(number, signal.SIG_IGN)
            for fd in closed:
                os.close(fd)
            lower(nobody, limits)

        start = time.monotonic()
        with tempfile.TemporaryFile() as said:
            child = self.start(words, of, name, given, to, errors_to or said, prepare,
                               dict(environment))
            out = b"" if child.stdout is None else child.stdout.read()
            _, status, used = os.wait4(child.pid, 0)
            child.returncode = os.waitstatus_to_exitcode(status)
            self.note_hang(child.returncode, words)
            said.seek(0)
            return Answer(child.returncode, out, said.read(), time.monotonic() - start,
                          used.ru_maxrss / 1024)

    def note_hang(self, status, words):
        """Ends the group where too many cases had to be stopped."""
        self.hangs += status == -signal.SIGALRM
        if self.hangs == HANGS:
            raise RuntimeError(f"{HANGS} cases did not end, the last of them {shown(words)}")

    def same(self, what, wanted, got):
        """Counts a comparison, and keeps it where it fails."""
        self.count += 1
        if wanted != got:
            self.differences.append(
                f"{what}: wanted {shown(wanted, got)}, got {shown(got, wanted)}")
        return wanted == got

    def expect(self, what, words, status, out="", **how):
        """One answer by its status and its text; where it is refused, standard error says why."""
        answer = self.ask(*words, **how)
        wanted = out if isinstance(out, bytes) else out.encode()
        said = status == 0 or "errors_to" in how or answer.errors.endswith(b"\n")
        self.same(what, (status, wanted, True), (answer.status, answer.out, said))
        return answer

    def pass_over(self, why):
        """Says what cannot be tried here."""
        self.passed_over.append(why)
