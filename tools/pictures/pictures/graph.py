"""The graph of a script in DOT, which Graphviz lays out from sources to sinks.

Source: graphviz.org, "DOT Language", "Node Shapes" (HTML-like labels) and "splines".
"""
from __future__ import annotations

from typing import Dict, List, Optional, Set, Tuple

from .look import DARK, GREY, LETTERS, RED, said, xml
from .run_text import Made, causes
from .script import INPUTS, OUTPUTS, Link, Node, Script
from .timeline import ranks as depths

FILLS = {b"source": "#d5ead6", b"square": "#d5ead6", b"sink": "#fbe0c8", b"meter": "#fcf1bd"}
FILTER_FILL = "#dae6f5"
CORNERED = (b"source", b"square", b"sink", b"meter")
FILE_SHOWN = 32
# Of more links than this one format that most of them have is told once, below the graph.
MANY_LINKS = 40
# Many links between so few ranks need more room.
FEW_RANKS = 4


def file_said(name: bytes) -> str:
    """A file's name; the middle of a long one is left out."""
    text = said(name)
    return text if len(text) <= FILE_SHOWN else f"{text[:15]}..{text[-15:]}"


def details(node: Node) -> List[str]:
    """What stands below the name of a node."""
    values = [file_said(value) if node.kind in (b"source", b"sink") else said(value) for value in node.values]
    lines = [" ".join([node.kind.decode(), *values])]
    if node.loop is not None:
        lines.append(f"loop {node.loop}")
    if node.priority is not None:
        lines.append(f"driver {node.priority}")
    if node.is_off:
        lines.append("off at the end")
    return lines


def cell(text: str, more: str) -> str:
    return f"<TD {more}>{text}</TD>"


def node_text(number: int, node: Node) -> str:
    """A box: inputs, name with details, outputs."""
    inputs, outputs = INPUTS.get(node.kind, ()), OUTPUTS.get(node.kind, ())
    rows = max(len(inputs), len(outputs), 1)
    small = "".join(f'<BR/><FONT POINT-SIZE="10">{xml(line)}</FONT>' for line in details(node))
    middle = cell(f"<B>{xml(node.name.decode())}</B>{small}", f'ROWSPAN="{rows}" CELLPADDING="9"')
    text = ""
    for row in range(rows):
        left = port_cell(inputs, row, rows, "i")
        right = port_cell(outputs, row, rows, "o")
        text += f"<TR>{left}{middle if row == 0 else ''}{right}</TR>"
    style = [] if node.kind in CORNERED else ["ROUNDED"]
    style += ["DOTTED"] if node.is_off else []
    drives = node.priority is not None
    look = f'BGCOLOR="{FILLS.get(node.kind, FILTER_FILL)}" BORDER="{3 if drives else 1}" COLOR="{DARK}"'
    shape = f' STYLE="{",".join(style)}"' if style else ""
    table = f'<TABLE {look}{shape} CELLBORDER="0" CELLSPACING="0" CELLPADDING="4">{text}</TABLE>'
    return f"  n{number} [label=<{table}>];"


def port_cell(ports: Tuple[bytes, ...], row: int, rows: int, side: str) -> str:
    """The cell of a port; one port has the whole side."""
    if row >= len(ports):
        return ""
    rowspan = rows if len(ports) == 1 else 1
    text = f'<FONT POINT-SIZE="9" COLOR="{GREY}">{ports[row].decode()}</FONT>'
    return cell(text, f'PORT="{side}{row}" ROWSPAN="{rowspan}"')


class Edges:
    """The edges of a script, with what a run made of its links."""

    def __init__(self, script: Script, made: List[Made]) -> None:
        self.script, self.made = script, {it.line: it for it in made}
        self.numbers: Dict[bytes, int] = {name: at for at, name in enumerate(script.nodes)}
        self.ways = self.onward()
        formats = [(it.rate, it.channels) for it in made if it.rate]
        most = max(formats, key=formats.count) if len(formats) > MANY_LINKS else None
        self.told_once: Optional[Tuple[int, int]] = most

    def is_late(self, link: Link) -> bool:
        return self.script.nodes[link.output[0]].is_late or self.script.nodes[link.input[0]].is_late

    def is_refused(self, link: Link) -> bool:
        return link.line in self.made and bool(self.made[link.line].cause)

    def onward(self) -> Dict[bytes, Set[bytes]]:
        """Of each node those that links lead to at once, but for late and refused ones."""
        ways: Dict[bytes, Set[bytes]] = {name: set() for name in self.script.nodes}
        for link in self.script.links:
            if not self.is_late(link) and not self.is_refused(link):
                ways[link.output[0]].add(link.input[0])
        return ways

    def reaches(self, name: bytes, other: bytes) -> bool:
        """Whether a way along links that are not late leads from a node to another, or it is the same."""
        seen, left = {name}, [name]
        while left:
            for way in self.ways[left.pop()] - seen:
                seen.add(way)
                left.append(way)
        return other in seen

    def is_back(self, link: Link) -> bool:
        """Whether an edge goes back, towards the sources: its place in the ranks counts for nothing then."""
        may = self.is_late(link) or self.is_refused(link)
        return may and self.reaches(link.input[0], link.output[0])

    def unlinked(self, link: Link) -> Optional[int]:
        """The first later line that takes a link away."""
        lines = [it.line for it in self.script.unlinks if it.line > link.line and it.words() == link.words()]
        return min(lines) if lines else None

    def port(self, end: Tuple[bytes, bytes], ports: Dict[bytes, Tuple[bytes, ...]]) -> int:
        return ports[self.script.nodes[end[0]].kind].index(end[1])

    def ends(self, link: Link, back: bool) -> str:
        """Both ends: an edge that goes back leaves and enters above, or below where a second port is in it."""
        out, into = self.port(link.output, OUTPUTS), self.port(link.input, INPUTS)
        over = "s" if out == 1 or into == 1 else "n"
        leave, enter = (over, over) if back else ("e", "w")
        one, other = self.numbers[link.output[0]], self.numbers[link.input[0]]
        return f"n{one}:o{out}:{leave} -> n{other}:i{into}:{enter}"

    def refusal(self, link: Link) -> List[str]:
        made = self.made[link.line]
        lines = [f"line {link.line}: {said(causes(made.cause))}"] + ([said(made.sides)] if made.sides else [])
        label = "<BR/>".join(xml(line) for line in lines)
        return [f"label=<{label}>", f'color="{RED}"', f'fontcolor="{RED}"', "penwidth=2.2", "arrowhead=tee"]

    def format(self, link: Link) -> List[str]:
        made = self.made.get(link.line)
        if made is None or not made.rate or (made.rate, made.channels) == self.told_once:
            return []
        return [f'label="{made.rate} Hz\\n{made.channels} ch"']

    def text(self, link: Link) -> str:
        """An edge from port to port."""
        back, cut = self.is_back(link), self.unlinked(link)
        more = self.refusal(link) if self.is_refused(link) else self.format(link)
        more += ["style=dashed"] if self.is_late(link) else []
        if cut and not self.is_refused(link):
            more += [f'color="{GREY}"', f'taillabel=<<FONT COLOR="{GREY}">until line {cut}</FONT>>']
        more += ["constraint=false"] if back else []
        return f"  {self.ends(link, back)}{' [' + ', '.join(more) + ']' if more else ''};"

    def legend(self) -> List[str]:
        """What the marks mean that occur."""
        nodes, links = self.script.nodes.values(), self.script.links
        marks = [
            (self.told_once is not None, "links without a format: %d Hz, %d ch" % (self.told_once or (0, 0))),
            (any(self.is_late(it) for it in links), "dashed: one cycle late, since one end is async"),
            (any(self.unlinked(it) and not self.is_refused(it) for it in links), "grey: a later line unlinks it"),
            (any(self.is_refused(it) for it in links), "red with a bar: the run refused it, and why"),
            (any(it.priority is not None for it in nodes), "thick border: may drive, by its priority"),
            (any(it.is_off for it in nodes), "dotted border: off at the end")]
        return [text for occurs, text in marks if occurs]


def ranks(script: Script) -> List[str]:
    """Sources stand in the first rank, sinks and meters in the last."""
    lines = []
    for rank, kinds in (("source", (b"source", b"square")), ("sink", (b"sink", b"meter"))):
        names = [f"n{at}" for at, node in enumerate(script.nodes.values()) if node.kind in kinds]
        lines += [f"  {{ rank={rank}; {'; '.join(names)} }}"] if names else []
    return lines


def room(script: Script) -> str:
    """How far ranks and boxes stand apart."""
    if len(script.links) <= MANY_LINKS:
        return "ranksep=0.8; nodesep=0.35"
    is_flat = max(depths(script).values()) < FEW_RANKS
    return f"ranksep={3.2 if is_flat else 1.6}; nodesep=0.08"


def about(script: Script, made: List[Made]) -> str:
    """What the graph shows, in words."""
    refused = sum(bool(it.cause) for it in made)
    return f"{len(script.nodes)} nodes and {len(script.links)} links, {refused} of them refused"


def below(script: Script, edges: Edges, fault: str) -> str:
    lines = [f'<FONT COLOR="{RED}">{xml(fault)}</FONT>'] if fault else []
    lines += [xml(line) for line in edges.legend()]
    return "".join(f'{line}<BR ALIGN="LEFT"/>' for line in lines)


def draw(script: Script, made: List[Made], title: str, fault: str = "") -> bytes:
    """The graph; `fault` is a sentence on the line up to which a script at fault is drawn."""
    edges = Edges(script, made)
    label = below(script, edges, fault)
    lines = [
        "digraph pipegraph {",
        f"  rankdir=LR; {room(script)}; outputorder=edgesfirst;",
        f'  fontname="{LETTERS}"; fontsize=11; labelloc=b; labeljust=l; tooltip="{dot(title)}: {about(script, made)}";',
        f'  node [shape=plain, fontname="{LETTERS}", fontsize=12, fontcolor="{DARK}"];',
        f'  edge [arrowsize=0.7, color="{DARK}", fontname="{LETTERS}", fontsize=9, fontcolor="{DARK}"];',
        *(node_text(number, node) for number, node in enumerate(script.nodes.values())),
        *ranks(script),
        *(edges.text(link) for link in script.links),
        f"  label=<{label}>;" if label else '  label="";', "}"]
    return ("\n".join(lines) + "\n").encode()


def dot(text: str) -> str:
    """A text in a string of DOT."""
    return text.replace("\\", "\\\\").replace('"', '\\"')
