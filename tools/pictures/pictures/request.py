"""The command line: which picture is asked for, of which files.

Source: docs/pipegraph-pictures.1.
"""
from __future__ import annotations

import re
from dataclasses import dataclass
from typing import List, Optional, Tuple, Union

from .shown import guesses, shown
from .status import Ended

FORMS = b"""usage: pipegraph-pictures graph SCRIPT [RUN [NOTES]] [--partial]
       pipegraph-pictures timeline SCRIPT TRACE [FROM TO] [VERDICT] [--perfetto FILE]
       pipegraph-pictures wave FILE [--db]
"""
VERSION = (b"version 0.1; the manual: man pipegraph-pictures where it is installed, "
           b"and man -l docs/pipegraph-pictures.1\n")
COMMANDS = [b"graph", b"timeline", b"wave"]
NUMBER = re.compile(rb"0|[1-9][0-9]{0,9}")
GREATEST = 4294967295


@dataclass(frozen=True)
class Help:
    """The commands, or only the version."""

    text: bytes


@dataclass(frozen=True)
class Graph:
    """The graph of a script, with what a run and its notes say of the links."""

    script: bytes
    run: Optional[bytes]
    notes: Optional[bytes]
    partial: bool


@dataclass(frozen=True)
class Timeline:
    """The events of a trace, of all cycles or of a range; the event of an illegal verdict, 0 for none."""

    script: bytes
    trace: bytes
    cycles: Optional[Tuple[int, int]]
    illegal: int
    perfetto: Optional[bytes]


@dataclass(frozen=True)
class Wave:
    """The peaks of a WAV file, over a linear scale or one in decibels."""

    file: bytes
    decibels: bool


Request = Union[Help, Graph, Timeline, Wave]


def usage(index: int, sentence: Optional[bytes] = None) -> Ended:
    """Words that are no command line: the index of the first that is wrong, and the forms."""
    return Ended(1, b"usage %d\n" % index, sentence, FORMS + VERSION)


def no_command(word: bytes) -> Ended:
    names = [b"pipegraph-pictures " + name for name in guesses(word, COMMANDS)[:2]]
    question = b"; did you mean: " + b" or ".join(names) + b"?" if names else b""
    return usage(0, shown(word) + b" is no command" + question)


def is_file(word: bytes) -> bool:
    return 0 < len(word) <= 255 and not word.startswith(b"-")


def number(word: bytes, least: int) -> Optional[int]:
    """The number that a word is, digits without a leading zero."""
    if not NUMBER.fullmatch(word) or not least <= int(word) <= GREATEST:
        return None
    return int(word)


class Words:
    """The words of a command line, from left to right."""

    def __init__(self, words: List[bytes]) -> None:
        self.words, self.at = words, 1

    def left(self) -> int:
        return len(self.words) - self.at

    def next(self) -> bytes:
        self.at += 1
        return self.words[self.at - 1]

    def file(self) -> bytes:
        if not self.left() or not is_file(self.words[self.at]):
            raise usage(self.at)
        return self.next()

    def is_next(self, word: bytes) -> bool:
        """Whether a word comes next; it is passed over then."""
        if self.left() and self.words[self.at] == word:
            self.at += 1
            return True
        return False

    def end(self) -> None:
        if self.left():
            raise usage(self.at)


def graph(words: Words) -> Graph:
    files = [words.file()]
    while words.left() and len(files) < 3 and words.words[words.at] != b"--partial":
        files.append(words.file())
    partial = words.is_next(b"--partial")
    words.end()
    script, run, notes = (files + [None, None])[:3]
    return Graph(script, run, notes, partial)


def cycles(words: Words) -> Optional[Tuple[int, int]]:
    """A range of cycles, where a number comes next."""
    if not words.left() or number(words.words[words.at], 0) is None:
        return None
    first = int(words.next())
    last = number(words.words[words.at], first) if words.left() else None
    if last is None:
        raise usage(words.at)
    words.next()
    return first, last


def verdict(words: Words) -> int:
    """The event that a verdict names, 0 for a legal trace or none."""
    if words.is_next(b"legal") or not words.is_next(b"illegal"):
        return 0
    event = number(words.words[words.at], 1) if words.left() else None
    if event is None:
        raise usage(words.at)
    words.next()
    return event


def timeline(words: Words) -> Timeline:
    script, trace = words.file(), words.file()
    asked = cycles(words)
    illegal = verdict(words)
    perfetto = words.file() if words.is_next(b"--perfetto") else None
    words.end()
    return Timeline(script, trace, asked, illegal, perfetto)


def wave(words: Words) -> Wave:
    file = words.file()
    decibels = words.is_next(b"--db")
    words.end()
    return Wave(file, decibels)


def is_text(word: bytes) -> bool:
    try:
        word.decode()
    except UnicodeDecodeError:
        return False
    return True


def read(words: List[bytes]) -> Request:
    """What the words after the program's own name ask for."""
    if not words:
        raise usage(0)
    if words[0] in (b"--help", b"-h"):
        return Help(FORMS + VERSION)
    if words[0] == b"--version":
        return Help(b"pipegraph-pictures 0.1\n")
    readers = {b"graph": graph, b"timeline": timeline, b"wave": wave}
    if words[0] not in readers:
        raise no_command(words[0])
    return readers[words[0]](Words(words))
