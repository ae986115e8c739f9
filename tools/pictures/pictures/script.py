"""A graph script: its nodes, its links and what its lines say of both, or its first fault.

Source: docs/FORMATS.md, "Scripts".
"""
from __future__ import annotations

import re
from dataclasses import dataclass, field
from typing import Dict, List, Optional, Tuple

INPUTS: Dict[bytes, Tuple[bytes, ...]] = {
    b"gain": (b"in",), b"mix2": (b"a", b"b"), b"delay": (b"in",), b"map": (b"in",), b"split": (b"in",),
    b"sink": (b"in",), b"meter": (b"in",)}
OUTPUTS: Dict[bytes, Tuple[bytes, ...]] = {
    b"source": (b"out",), b"square": (b"out",), b"gain": (b"out",), b"mix2": (b"out",), b"delay": (b"out",),
    b"map": (b"out",), b"split": (b"left", b"right")}
KINDS = (*INPUTS, b"source", b"square")

# What follows a command: a name, a file and so on, or the least and the greatest value of a number.
GAIN = (-32767, 32767)
FORMS: Dict[bytes, tuple] = {
    b"quantum": ((1, 8192),), b"source": ("new", "file"), b"split": ("new",), b"sink": ("new", "file"),
    b"meter": ("new",), b"square": ("new", (1, 384000), (1, 8), (1, 1000000), (0, 32767)),
    b"gain": ("new", GAIN), b"mix2": ("new", GAIN, GAIN), b"delay": ("new", (0, 65536)),
    b"map": ("new", (1, 8), "list"), b"driver": ("node", (0, 1000000)), b"loop": ("node", (0, 15)),
    b"offer": ("node", "port", "file"), b"buffers": ("node", "port", (1, 8)), b"link": ("output", "input"),
    b"unlink": ("output", "input"), b"on": ("node",), b"off": ("node",), b"async": ("node",),
    b"cycles": ((1, 1000000),), b"drain": ()}
ALLOWED = bytes([9, 10, 13, *range(0x20, 0x7F)])
NAME = re.compile(rb"[a-z][a-z0-9_]{0,30}")
WORD = re.compile(rb"[^\t\r ]+")
NODES, EPOCHS = 63, 1024

BYTE, COMMAND, ARGUMENTS, NUMBER, NAME_FORM, NAME_TAKEN, NAME_UNKNOWN, PORT_UNKNOWN = range(1, 9)
QUANTUM_LATE, NOT_DRIVER, OFFER_LATE, TOO_MANY, ASYNC_LATE = 9, 10, 11, 12, 14

SENTENCES = {
    BYTE: b"a byte that no script may have", COMMAND: b"the first word is no command",
    ARGUMENTS: b"too few words, or too many", NUMBER: b"a number is out of range, or has the wrong form",
    NAME_FORM: b"a name, a port or a file word has the wrong form", NAME_TAKEN: b"the name is taken",
    NAME_UNKNOWN: b"no line before this one makes a node of this name",
    PORT_UNKNOWN: b"the node has no such output, or no such input",
    QUANTUM_LATE: b"quantum comes before every other command", NOT_DRIVER: b"only a sink or a meter may drive",
    OFFER_LATE: b"offers come before the links of their node", ASYNC_LATE: b"async comes before the links of its node"}
LIMITS = {5: b"more than %d nodes" % NODES, 6: b"more than %d lines of cycles and drain" % EPOCHS}


@dataclass
class Node:
    """A node: the line that makes it, and what later lines say of it."""

    name: bytes
    kind: bytes
    values: List[bytes]
    line: int
    priority: Optional[int] = None
    loop: Optional[int] = None
    is_off: bool = False
    is_late: bool = False


@dataclass(frozen=True)
class Link:
    """A `link` or an `unlink` line: an output and an input, each a node and a port."""

    line: int
    output: Tuple[bytes, bytes]
    input: Tuple[bytes, bytes]

    def words(self) -> bytes:
        return b".".join(self.output) + b" " + b".".join(self.input)


@dataclass(frozen=True)
class Fault:
    """The first line at fault, why it is, which limit it passes, and its bytes."""

    line: int
    why: int
    limit: int
    text: bytes

    def printed(self) -> bytes:
        return b"script %d %d%s\n" % (self.line, self.why, b" %d" % self.limit if self.limit else b"")

    def cause(self) -> bytes:
        return LIMITS[self.limit] if self.limit else SENTENCES[self.why]


@dataclass
class Script:
    """What the lines say up to the first at fault."""

    nodes: Dict[bytes, Node] = field(default_factory=dict)
    links: List[Link] = field(default_factory=list)
    unlinks: List[Link] = field(default_factory=list)
    fault: Optional[Fault] = None
    commands: int = 0
    epochs: int = 0


class Wrong(Exception):
    """Why a line is at fault, and which limit it passes."""

    def __init__(self, why: int, limit: int = 0) -> None:
        super().__init__(why)
        self.why, self.limit = why, limit


def number(word: bytes, least: int, most: int) -> int:
    form = rb"0|-?[1-9][0-9]*" if least < 0 else rb"0|[1-9][0-9]*"
    if not re.fullmatch(form, word) or len(word) > 20 or not least <= int(word) <= most:
        raise Wrong(NUMBER)
    return int(word)


def known(script: Script, word: bytes) -> Node:
    if not NAME.fullmatch(word):
        raise Wrong(NAME_FORM)
    if word not in script.nodes:
        raise Wrong(NAME_UNKNOWN)
    return script.nodes[word]


def endpoint(script: Script, word: bytes, ports: Dict[bytes, Tuple[bytes, ...]]) -> None:
    if word.count(b".") != 1:
        raise Wrong(NAME_FORM)
    name, port = word.split(b".")
    if port not in ports.get(known(script, name).kind, ()):
        raise Wrong(PORT_UNKNOWN)


def channel_list(word: bytes, channels: int) -> None:
    parts = word.split(b",")
    for part in parts:
        number(part, 0, channels - 1)
    if len(parts) > 8:
        raise Wrong(NUMBER)


def argument(script: Script, form, words: List[bytes], at: int) -> None:
    """Looks at one argument; those before it are looked at already."""
    word = words[at]
    if form == "new":
        if not NAME.fullmatch(word):
            raise Wrong(NAME_FORM)
        if word in script.nodes or word == b"dummy":
            raise Wrong(NAME_TAKEN)
    elif form == "node":
        known(script, word)
    elif form == "file":
        if len(word) > 255:
            raise Wrong(NAME_FORM)
    elif form == "port":
        kind = script.nodes[words[at - 1]].kind
        if word not in INPUTS.get(kind, ()) + OUTPUTS.get(kind, ()):
            raise Wrong(PORT_UNKNOWN)
    elif form in ("output", "input"):
        endpoint(script, word, OUTPUTS if form == "output" else INPUTS)
    elif form == "list":
        channel_list(word, int(words[at - 1]))
    else:
        number(word, *form)


def earlier(script: Script, words: List[bytes]) -> None:
    """Looks at what earlier lines forbid."""
    command = words[0]
    linked = {name for link in script.links for name in (link.output[0], link.input[0])}
    if command == b"quantum" and script.commands:
        raise Wrong(QUANTUM_LATE)
    if command == b"driver" and script.nodes[words[1]].kind not in (b"sink", b"meter"):
        raise Wrong(NOT_DRIVER)
    if command in (b"offer", b"async") and words[1] in linked:
        raise Wrong(OFFER_LATE if command == b"offer" else ASYNC_LATE)
    if command in KINDS and len(script.nodes) == NODES:
        raise Wrong(TOO_MANY, 5)
    if command in (b"cycles", b"drain") and script.epochs == EPOCHS:
        raise Wrong(TOO_MANY, 6)


def take(script: Script, line: int, words: List[bytes]) -> None:
    """Keeps what a line without a fault says."""
    command = words[0]
    script.commands += 1
    script.epochs += command in (b"cycles", b"drain")
    if command in KINDS:
        script.nodes[words[1]] = Node(words[1], command, words[2:], line)
    elif command in (b"link", b"unlink"):
        output, input = (tuple(word.split(b".")) for word in words[1:])
        (script.links if command == b"link" else script.unlinks).append(Link(line, output, input))
    elif command in (b"on", b"off"):
        script.nodes[words[1]].is_off = command == b"off"
    elif command == b"async":
        script.nodes[words[1]].is_late = True
    elif command == b"driver":
        script.nodes[words[1]].priority = int(words[2])
    elif command == b"loop":
        script.nodes[words[1]].loop = int(words[2])


def look(script: Script, text: bytes) -> List[bytes]:
    """The words of a line without a fault, none of a line that says nothing."""
    if text.translate(None, ALLOWED):
        raise Wrong(BYTE)
    words = WORD.findall(text)
    if not words or words[0].startswith(b"#"):
        return []
    if words[0] not in FORMS:
        raise Wrong(COMMAND)
    forms = FORMS[words[0]]
    if len(words) != 1 + len(forms):
        raise Wrong(ARGUMENTS)
    for at, form in enumerate(forms, 1):
        argument(script, form, words, at)
    earlier(script, words)
    return words


def read(text: bytes) -> Script:
    """A script up to its first fault, which it has then."""
    script = Script()
    for line, row in enumerate(text.split(b"\n"), 1):
        try:
            words = look(script, row)
        except Wrong as wrong:
            script.fault = Fault(line, wrong.why, wrong.limit, row)
            return script
        if words:
            take(script, line, words)
    return script
