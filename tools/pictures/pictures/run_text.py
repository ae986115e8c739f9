"""The text of a run: its events, what became of links, and its first line that the run of a script cannot have.

Source: docs/FORMATS.md, "The text of a run".
"""
from __future__ import annotations

import re
from dataclasses import dataclass
from typing import Dict, Iterator, List, Optional, Tuple

from .script import Link, Script
from .shown import shown
from .status import Ended

OF_LINK = (b"link ", b"nolink ", b"unlink ", b"nounlink ")
OF_END = (b"wrote ", b"peak ", b"unused ")
OF_NODE = (b"start ", b"finish ", b"tick ")
GREATEST = 4294967295
DUMMY = b"dummy"


@dataclass(frozen=True)
class Event:
    """A line of an event: its kind, its cycle, and the node or the late nodes that it names."""

    kind: bytes
    cycle: int
    nodes: Tuple[bytes, ...]


@dataclass(frozen=True)
class Made:
    """What a run made of a `link` line: its rate and channels, or why it refused it and what both sides admit."""

    line: int
    rate: int = 0
    channels: int = 0
    cause: bytes = b""
    sides: bytes = b""


def lines_of(text: bytes) -> List[bytes]:
    """The lines of a text, the last of which may lack its line feed."""
    lines = text.split(b"\n")
    return lines[:-1] if not lines[-1] else lines


def word_at(line: bytes, index: int) -> bytes:
    words = line.split()
    return words[index] if index < len(words) else b""


class Reader:
    """Reads lines of the run of one script."""

    def __init__(self, script: Script) -> None:
        self.names = [*script.nodes, DUMMY]
        self.numbers: Dict[bytes, int] = {name: at for at, name in enumerate(self.names)}
        self.links = {link.words() for link in script.links}
        self.unlinks = {link.words() for link in script.unlinks}
        node = b"(?:" + b"|".join(self.names) + b")"
        cycle = rb"(?:0|[1-9][0-9]{0,9})"
        forms = rb"(?:begin|end) %s|(?:start|finish) %s %s|tick %s(?: %s)+" % (cycle, cycle, node, cycle, node)
        self.event = re.compile(forms)
        self.no_event = re.compile(rb"^(?!(?:" + forms + rb")$).*$", re.M)

    def strange_node(self, line: bytes) -> Optional[bytes]:
        """The first node that a line names and the script does not have."""
        places = (1, 2) if line.startswith(OF_LINK) else (1,) if line.startswith(OF_END) else (
            (2,) if line.startswith(OF_NODE) else ())
        for place in places:
            name = word_at(line, place).split(b".")[0]
            if name and name not in self.numbers:
                return name
        return None

    def unasked(self, line: bytes) -> Optional[bytes]:
        """The line of the script that a line of a link would answer, where there is none."""
        if not line.startswith(OF_LINK):
            return None
        is_unlink = line.startswith((b"unlink ", b"nounlink "))
        ends = word_at(line, 1) + b" " + word_at(line, 2)
        if ends in (self.unlinks if is_unlink else self.links):
            return None
        return (b"unlink " if is_unlink else b"link ") + ends

    def is_event(self, line: bytes) -> bool:
        if not self.event.fullmatch(line):
            return False
        words = line.split(b" ")
        numbers = [self.numbers[name] for name in words[2:]]
        rises = all(a < b for a, b in zip(numbers, numbers[1:]))
        return int(words[1]) <= GREATEST and (words[0] != b"tick" or rises)

    def why_bad(self, line: bytes) -> Optional[bytes]:
        """Why a line is of no run of the script, or None where it is of one."""
        name, asked = self.strange_node(line), self.unasked(line)
        if name is not None or asked is not None:
            return b"no node " + shown(name) if name is not None else b"no line " + shown(asked or b"")
        if line.startswith(OF_LINK + OF_END) or self.is_event(line):
            return None
        return b""

    def doubtful(self, text: bytes) -> Iterator[int]:
        """The places of lines that need a look: no event by its form, a late check, or a great number."""
        ticks = re.compile(rb"^tick .* .* |^[a-z]+ [0-9]{10}", re.M)
        places = {match.start() for match in self.no_event.finditer(text)}
        places |= {match.start() for match in ticks.finditer(text)}
        return iter(sorted(place for place in places if place < len(text)))

    def check(self, text: bytes, file: bytes, script: bytes) -> None:
        """Refuses a text with a line that no run of the script prints."""
        for place in self.doubtful(text):
            end = text.find(b"\n", place)
            why = self.why_bad(text[place:] if end < 0 else text[place:end])
            if why is not None:
                raise bad_line(text.count(b"\n", 0, place) + 1, file, script, why)


def bad_line(number: int, file: bytes, script: bytes, why: bytes) -> Ended:
    said = b"the run of another script: " + shown(script) + b" has " + why if why else b"no line of a run"
    return Ended(2, b"line %d\n" % number, b"%s:%d: %s" % (shown(file), number, said))


def event_of(line: bytes) -> Event:
    words = line.split(b" ")
    return Event(words[0], int(words[1]), tuple(words[2:]))


EVENT_LINE = re.compile(rb"^(?:begin|end|start|finish|tick) ([0-9]+)[^\n]*$", re.M)
OTHER_LINE = re.compile(rb"^(?:no|un|noun)?link |^(?:wrote|peak|unused) ", re.M)
# A range of at most so many cycles is looked for by its numbers.
FEW_CYCLES = 200


def in_cycles(text: bytes, cycles: Optional[Tuple[int, int]]) -> Iterator["re.Match[bytes]"]:
    """The lines of events of a range of cycles, or of all."""
    if cycles is None:
        return EVENT_LINE.finditer(text)
    low, high = cycles
    if high - low < FEW_CYCLES:
        numbers = b"|".join(b"%d" % number for number in range(low, high + 1))
        return re.finditer(rb"^[a-z]+ (?:%s)(?: [^\n]*)?$" % numbers, text, re.M)
    return (match for match in EVENT_LINE.finditer(text) if low <= int(match[1]) <= high)


def events_of(text: bytes, cycles: Optional[Tuple[int, int]], most: int) -> Tuple[int, int, List[Event]]:
    """How many events come before the first of a range, how many it has, and the first of these."""
    found, before, count = [], 0, 0
    for match in in_cycles(text, cycles):
        if not found:
            place = match.start()
            before = text.count(b"\n", 0, place) - len(OTHER_LINE.findall(text, 0, place))
        if len(found) < most:
            found.append(event_of(match[0]))
        count += 1
    return before, count, found


def causes(key: bytes) -> bytes:
    """The cause of a refused link, as it is drawn."""
    names = {b"1": b"media type", b"2": b"media subtype", b"65537": b"sample format", b"65539": b"rate",
             b"65540": b"channels"}
    words = {b"twice": b"it is there already", b"loop": b"it would close a loop", b"buffers": b"too many buffers"}
    if key in words:
        return words[key]
    return b"no common " + names.get(key, b"key " + key)


def sides_of(notes: List[bytes], file: bytes, link: Link, key: bytes) -> bytes:
    """What both sides of a refused link admit, by the sentence of the run on it."""
    front = b'pipegraph: %s:%d: "%s" to "%s" is no link: ' % (
        shown(file), link.line, b".".join(link.output), b".".join(link.input))
    for line in notes:
        if line.startswith(front):
            _, found, values = line.partition(b"(key %s): " % key)
            return values.partition(b";")[0] if found else b""
    return b""


def made_of(text: bytes, notes: bytes, script: Script, file: bytes) -> List[Made]:
    """What became of each `link` line: the n-th line of a link is about the n-th of them, if it names its ends."""
    told = [line for line in lines_of(text) if line.startswith((b"link ", b"nolink "))]
    said, found = lines_of(notes), []
    for link, line in zip(script.links, told):
        words = line.split()
        if b" ".join(words[1:3]) != link.words() or len(words) < 4:
            continue
        if words[0] == b"nolink":
            found.append(Made(link.line, cause=words[3], sides=sides_of(said, file, link, words[3])))
        elif len(words) == 6 and words[3].isdigit() and words[4].isdigit():
            found.append(Made(link.line, int(words[3]), int(words[4])))
    return found
