"""Bad input and closed outputs: one sentence, the status, and nothing written."""
from __future__ import annotations

import os
import resource
import subprocess
import sys

from .asking import TOOL, Asking
from .waves import wav

from pictures import program

SCRIPT = "quantum 4\nsquare a 48000 1 4 9\nsink o o.wav\nlink a.out o.in\ncycles 2\n"
FRONT = "pipegraph-pictures: "


def refused(asking: Asking, words, status: int, line: str, sentence: str) -> None:
    done = asking.ask(*words)
    asking.same(str(words), (status, line + "\n", FRONT + sentence + "\n"),
                (done.returncode, done.stdout.decode(), done.stderr.decode()))


def nothing(asking: Asking) -> None:
    """46 MB of zeros, as each file that is read."""
    asking.file("s", SCRIPT)
    asking.file("zeros", bytes(46 << 20))
    refused(asking, ["graph", "s", "zeros"], 2, "line 1", "zeros:1: no line of a run")
    refused(asking, ["timeline", "s", "zeros"], 2, "line 1", "zeros:1: no line of a run")
    refused(asking, ["wave", "zeros"], 3, "wav 1 1", "zeros: this is no RIFF WAVE file")
    refused(asking, ["graph", "zeros"], 8, "limit 0 1", "cannot read zeros: it has more than 1048576 bytes")


def too_long(asking: Asking) -> None:
    """A file of more bytes than its kind may have, by the number of its limit."""
    asking.file("s", SCRIPT)
    with open(asking.folder / "long", "wb") as file:
        file.truncate((256 << 20) + 1)
    said = "cannot read long: it has more than 268435456 bytes"
    refused(asking, ["wave", "long"], 8, "limit 1 2", said)
    refused(asking, ["graph", "s", "long"], 8, "limit 4294967295 11", said)
    refused(asking, ["graph", "s", "s", "long"], 8, "limit 3 11", said)
    asking.file("t", "begin 0\n")
    refused(asking, ["graph", "s", "t", "long"], 8, "limit 3 11", said)


def cut_waves(asking: Asking) -> None:
    """A WAV file that is cut at each place before its end."""
    held = wav([1, 2, 3, 4], 2)
    for at in range(len(held)):
        done = asking.ask("wave", asking.file("cut.wav", held[:at]))
        asking.same(f"{at} bytes", (3, 1, True), (done.returncode, done.stderr.count(b"\n"),
                                                  done.stdout.startswith(b"wav 1 ")))


def other_scripts(asking: Asking) -> None:
    asking.file("s", SCRIPT)
    asking.file("t", "begin 0\nstart 0 voice\n")
    refused(asking, ["timeline", "s", "t"], 2, "line 2", "t:2: the run of another script: s has no node voice")


def no_text(asking: Asking) -> None:
    """Words that are no text in UTF-8."""
    done = subprocess.run([sys.executable.encode(), os.fsencode(TOOL / "pipegraph-pictures"), b"graph", b"\xff"],
                          stdout=subprocess.PIPE, stderr=subprocess.PIPE)
    asking.same("a word", (1, b"", b"pipegraph-pictures: word 2 is not text in UTF-8\n"),
                (done.returncode, done.stdout, done.stderr))


def outputs(asking: Asking) -> None:
    """A full disk, a pipe that nobody reads, and an output that is closed: one sentence and 7."""
    asking.file("s", SCRIPT)
    said = b"pipegraph-pictures: the picture could not be written\n"
    if os.path.exists("/dev/full"):
        with open("/dev/full", "wb") as full:
            done = asking.ask("graph", "s", stdout=full)
        asking.same("a full disk", (7, said), (done.returncode, done.stderr))
    read, write = os.pipe()
    os.close(read)
    done = asking.ask("graph", "s", stdout=write)
    os.close(write)
    asking.same("a broken pipe", (7, said), (done.returncode, done.stderr))
    done = asking.ask("graph", "s", preexec_fn=lambda: os.close(1))
    asking.same("a closed output", (7, said), (done.returncode, done.stderr))
    done = asking.ask("graph", "no", preexec_fn=lambda: os.close(1))
    absent = b"pipegraph-pictures: cannot read no: there is no such file\n"
    asking.same("a refusal keeps its status", (5, absent), (done.returncode, done.stderr))


def cut_outputs(asking: Asking) -> None:
    """A file that takes so many bytes and then no more, with a buffer and without: a prefix, and 7."""
    asking.file("s", SCRIPT)
    whole = asking.drawn("graph", "s").encode()
    for unbuffered in ("", "1"):
        with open(asking.folder / "cut", "wb") as cut:
            done = asking.ask("graph", "s", stdout=cut, env={**os.environ, "PYTHONUNBUFFERED": unbuffered},
                              preexec_fn=lambda: resource.setrlimit(resource.RLIMIT_FSIZE, (600, 600)))
        asking.same("status", 7, done.returncode)
        asking.same("prefix", whole[:600], (asking.folder / "cut").read_bytes())


def no_memory(asking: Asking) -> None:
    """Want of memory in any part of the work: 9, its line and its sentence."""
    kept = program.picture
    try:
        program.picture = out_of_memory
        got = program.answer([b"graph", b"s"])
    finally:
        program.picture = kept
    said = b"pipegraph-pictures: no memory was left\n"
    asking.same("answer", (9, b"memory\n", said), (got.status, got.text, got.said))


def out_of_memory(_: object) -> program.Answer:
    raise MemoryError


def stores(asking: Asking) -> None:
    """A Perfetto file that cannot be written; no other command writes a file."""
    asking.file("s", SCRIPT)
    asking.file("t", "begin 0\nend 0\n")
    refused(asking, ["timeline", "s", "t", "--perfetto", "no/such"], 7, "write 0", "no/such could not be written")
    asking.ask("graph", "s", "t")
    asking.same("files", ["s", "t"], sorted(os.listdir(asking.folder)))


def perfetto_over_input(asking: Asking) -> None:
    """A refused trace leaves the named file as it was."""
    asking.file("s", SCRIPT)
    asking.file("t", "begin 0\nx\n")
    asking.file("kept", "kept")
    asking.same("status", 2, asking.ask("timeline", "s", "t", "--perfetto", "kept").returncode)
    asking.same("file", "kept", (asking.folder / "kept").read_text())


def helps(asking: Asking) -> None:
    """Help and version on standard output, with 0."""
    for word, front in [("--help", b"usage: pipegraph-pictures graph"), ("--version", b"pipegraph-pictures 0.1\n")]:
        done = asking.ask(word)
        asking.same(word, (0, True, b""), (done.returncode, done.stdout.startswith(front), done.stderr))


TESTS = [nothing, too_long, cut_waves, other_scripts, no_text, outputs, cut_outputs, no_memory, stores,
         perfetto_over_input, helps]
