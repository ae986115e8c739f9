"""The files that are read, each once, and how the system refuses one.

Source: POSIX, "open", "read" and their errors; the sentences are this project's.
"""
from __future__ import annotations

import errno
import os

from .shown import shown
from .status import Ended, memory

SCRIPT_LIMIT = 1048576
FILE_LIMIT = 268435456
# The numbers of the limits: bytes of a script, of a WAV file, of a trace or of notes.
SCRIPT_BYTES, WAV_BYTES, TRACE_BYTES = 1, 2, 11

REASONS = {
    errno.ENOTDIR: b": there is no such folder, or it can have no such file",
    errno.EISDIR: b": it is a folder",
    errno.EACCES: b": the system does not permit it",
    errno.EPERM: b": the system does not permit it",
    errno.ENOSPC: b": no room is left",
}


def shell_hint(name: bytes) -> bytes:
    """The sign of the shell that is a part of a file's name."""
    if b"'" in name or b'"' in name:
        return b"; quotes are a part of the name"
    if name.startswith(b"~"):
        return b"; ~ is a part of the name, no folder"
    if b"$" in name:
        return b"; $ is a part of the name, no value stands for it"
    return b""


def refused(name: bytes, place: int, error: OSError) -> Ended:
    said = b"cannot read " + shown(name)
    if error.errno == errno.ENOENT:
        return Ended(5, b"absent %d\n" % place, said + b": there is no such file" + shell_hint(name))
    return Ended(6, b"read %d\n" % place, said + b": the system refuses it" + REASONS.get(error.errno, b""))


def too_long(name: bytes, place: int, which: int) -> Ended:
    said = b"cannot read %s: it has more than %d bytes" % (shown(name), limit_of(which))
    return Ended(8, b"limit %d %d\n" % (place, which), said)


def limit_of(which: int) -> int:
    return SCRIPT_LIMIT if which == SCRIPT_BYTES else FILE_LIMIT


def load(name: bytes, place: int, which: int) -> bytes:
    """All bytes of a file, or how it is refused; `which` limit it has."""
    limit = limit_of(which)
    try:
        with open(name, "rb") as file:
            if os.fstat(file.fileno()).st_size > limit:
                raise too_long(name, place, which)
            held = file.read(limit + 1)
    except OSError as error:
        raise refused(name, place, error) from error
    except MemoryError as error:
        raise memory() from error
    if len(held) > limit:
        raise too_long(name, place, which)
    return held
