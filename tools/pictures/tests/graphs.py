"""What a graph shows: its nodes, its edges and their labels, parsed out of the DOT, and laid out by Graphviz."""
from __future__ import annotations

import html
import random
import re
import shutil
import subprocess
from typing import Dict, List, Tuple
from xml.etree import ElementTree

from .asking import Asking
from .large import deep_script, text_of, wide_script

import model

KINDS = """quantum 4
square q 48000 2 100 8000
source s a"b\\{c}|<d>&e.wav
gain g -128
mix2 m 256 -1
delay d 480
map p 2 1,0
split t
sink o 0123456789abcdefghijklmnopqrstuvwxyz.wav
meter l
driver o 7
loop g 3
async d
link s.out g.in
link g.out m.a
link d.out m.b
link m.out d.in
unlink g.out m.a
link t.right o.in
link q.out o.in
off p
cycles 2
"""
RUN = "link s.out g.in 48000 1 2\nlink g.out m.a 48000 1 2\nnolink q.out o.in 65540\n"
NODE = re.compile(r"^  n(\d+) \[label=<(.*)>\];$", re.M)
EDGE = re.compile(r"^  n(\d+):([io])(\d):\w -> n(\d+):([io])(\d):\w(?: \[(.*)\])?;$", re.M)
LETTERS = {"INPUTS": {"mix2": "ab"}, "OUTPUTS": {"split": ["left", "right"]}}


def plain(text: str) -> str:
    """The words of an HTML-like label."""
    return html.unescape(re.sub(r"\s+", " ", re.sub(r"<[^>]*>", " ", text))).strip()


def nodes_of(dot: str) -> List[str]:
    return [plain(label) for _, label in NODE.findall(dot)]


def ports(kind: str) -> Tuple[List[str], List[str]]:
    inputs = {"square": [], "source": [], "mix2": ["a", "b"]}.get(kind, ["in"])
    outputs = {"sink": [], "meter": [], "split": ["left", "right"]}.get(kind, ["out"])
    return inputs, outputs


def edges_of(dot: str, script: str) -> List[Tuple[str, str]]:
    """Each edge as the two words of its `link` line, and what is said of it."""
    made = [line.split() for line in script.split("\n") if line.split()[:1] and line.split()[0] in (
        "square", "source", "gain", "mix2", "delay", "map", "split", "sink", "meter")]
    found = []
    for one, _, out, other, _, into, more in EDGE.findall(dot):
        source, target = made[int(one)], made[int(other)]
        ends = (f"{source[1]}.{ports(source[0])[1][int(out)]} {target[1]}.{ports(target[0])[0][int(into)]}")
        found.append((ends, more))
    return found


def label_of(more: str) -> str:
    found = re.match(r'label=(?:"([^"]*)"|<(.*?)>, color)', more)
    return "" if not found else found[1].replace("\\n", " ") if found[1] else plain(found[2])


def kinds(asking: Asking) -> None:
    """Each kind with what its line says."""
    dot = asking.drawn("graph", asking.file("s", KINDS))
    wanted = ["q square 48000 2 100 8000 out", 's source a"b\\\\{c}|<d>&e.wav out', "in g gain -128 loop 3 out",
              "a m mix2 256 -1 out b", "in d delay 480 out", "in p map 2 1,0 off at the end out",
              "in t split left right",
              "in o sink 0123456789abcde..pqrstuvwxyz.wav driver 7", "in l meter"]
    asking.same("nodes", wanted, nodes_of(dot))
    links = [line[5:] for line in KINDS.split("\n") if line.startswith("link ")]
    asking.same("edges", links, [ends for ends, _ in edges_of(dot, KINDS)])
    fills = [re.search(r'BGCOLOR="(#\w+)"', label)[1] for _, label in NODE.findall(dot)]
    asking.same("a fill for sources, filters, sinks and meters", 4, len(set(fills)))


def marks(asking: Asking) -> None:
    """Late, unlinked and refused links, and the format of those that a run made."""
    dot = asking.drawn("graph", asking.file("s", KINDS), asking.file("t", ""))
    said = dict(edges_of(dot, KINDS))
    asking.same("late", True, "style=dashed" in said["d.out m.b"] and "style=dashed" in said["m.out d.in"])
    asking.same("unlinked", True, "until line 18" in said["g.out m.a"])
    asking.same("no format without a run", {""}, {label_of(more) for more in said.values()})


def refused(asking: Asking) -> None:
    """A refused link is red and bold, with its line and what both sides admit."""
    script = "square q 48000 2 100 9\nsink o o.wav\nsink p p.wav\nlink q.out o.in\nlink q.out p.in\ncycles 1\n"
    run = "nolink q.out o.in 65540\nlink q.out p.in 48000 2 2\n"
    notes = 'pipegraph: s:4: "q.out" to "o.in" is no link: no common channels (key 65540): 2 and 1; a hint\n'
    words = asking.file("s", script), asking.file("t", run), asking.file("n", notes)
    dot = asking.drawn("graph", *words)
    (_, one), (_, other) = edges_of(dot, script)
    asking.same("label", "line 4: no common channels 2 and 1", label_of(one))
    asking.same("bold", True, 'color="#c00000"' in one and "penwidth=2.2" in one)
    asking.same("format", "48000 Hz 2 ch", label_of(other))
    asking.same("legend", True, "red with a bar: the run refused it, and why" in dot)
    asking.file("n", notes.replace("s:4", "r:4"))
    asking.same("notes of another script", "line 4: no common channels",
                label_of(edges_of(asking.drawn("graph", *words), script)[0][1]))


def partial(asking: Asking) -> None:
    """A script at fault as far as it goes, with the sentence in the picture."""
    script = "square q 48000 1 100 9\nmeter m\nlink q.out m.in\nlink q.out m.inn\nmeter n\n"
    done = asking.ask("graph", asking.file("s", script), "--partial")
    said = "s:4: link q.out m.inn: the node has no such output, or no such input"
    dot = done.stdout.decode()
    asking.same("status", (2, f"pipegraph-pictures: {said}\n"), (done.returncode, done.stderr.decode()))
    asking.same("nodes", ["q square 48000 1 100 9 out", "in m meter"], nodes_of(dot))
    asking.same("edges", ["q.out m.in"], [ends for ends, _ in edges_of(dot, script)])
    asking.same("sentence", True, f">{said}<" in dot)


def random_script(draw: random.Random) -> str:
    """Sources, mixers and ends with links, forward or back; the model refuses what cannot be."""
    lines, outs, ins = ["quantum 4"], [], []
    for at in range(draw.randint(1, 4)):
        lines.append(f"square q{at} {draw.choice([8000, 48000])} {draw.choice([1, 2])} 4 9")
        outs.append(f"q{at}.out")
    for at in range(draw.randint(0, 5)):
        lines.append(f"mix2 m{at} 256 128")
        outs.append(f"m{at}.out")
        ins += [f"m{at}.a", f"m{at}.b"]
    for at in range(draw.randint(1, 3)):
        lines.append(f"meter v{at}")
        ins.append(f"v{at}.in")
    lines += [f"link {draw.choice(outs)} {draw.choice(ins)}" for _ in range(draw.randint(0, 14))]
    return "\n".join([*lines, "cycles 1", ""])


def random_graphs(asking: Asking) -> None:
    """Nodes and edges are those of the script; their labels are those of the run that the model has of it."""
    draw = random.Random(91)
    for _ in range(40):
        script = random_script(draw)
        text = model.run(script, {}, {})[1]
        text = text if isinstance(text, str) else text.decode()
        dot = asking.drawn("graph", asking.file("s", script), asking.file("t", text))
        lines = [line.split() for line in text.split("\n") if line.split()[:1] in (["link"], ["nolink"])]
        drawn = edges_of(dot, script)
        asking.same(script, [" ".join(words[1:3]) for words in lines], [ends for ends, _ in drawn])
        wanted = [words[0] == "nolink" or f"{words[3]} Hz {words[4]} ch" for words in lines]
        asking.same(text, wanted, ["color=\"#c00000\"" in more or label_of(more) for _, more in drawn])


def boxes_of(svg: str) -> Dict[str, Tuple[float, float, float, float]]:
    """The box of each node: left, right, top, bottom."""
    found = {}
    for group in ElementTree.fromstring(svg).iter("{http://www.w3.org/2000/svg}g"):
        if group.get("class") == "node":
            title = group.findtext("{http://www.w3.org/2000/svg}title") or ""
            numbers = [float(it) for shape in group for it in re.findall(
                r"-?\d+\.?\d*", shape.get("points") or shape.get("d") or "")]
            found[title] = (min(numbers[::2]), max(numbers[::2]), min(numbers[1::2]), max(numbers[1::2]))
    return found


Point = Tuple[float, float]


def curves_of(svg: str) -> Dict[str, List[Point]]:
    """Points along each edge, eight of each curve of three that SVG calls C."""
    found = {}
    for group in ElementTree.fromstring(svg).iter("{http://www.w3.org/2000/svg}g"):
        if group.get("class") == "edge":
            path = group.find(".//{http://www.w3.org/2000/svg}path")
            numbers = [float(it) for it in re.findall(r"-?\d+\.?\d*", "" if path is None else path.get("d") or "")]
            bends = list(zip(numbers[::2], numbers[1::2]))
            parts = [bends[at : at + 4] for at in range(0, len(bends) - 3, 3)]
            found[group.get("id") or ""] = [on_curve(part, at / 8) for part in parts for at in range(9)]
    return found


def on_curve(bends: List[Point], share: float) -> Point:
    """The point of a Bézier curve that is so far along it."""
    rest = 1 - share
    weights = (rest ** 3, 3 * rest ** 2 * share, 3 * rest * share ** 2, share ** 3)
    x, y = (sum(weight * bend[axis] for weight, bend in zip(weights, bends)) for axis in (0, 1))
    return x, y


def passing(svg: str) -> List[str]:
    """The edges that have a point within a box, two points and more from its border."""
    boxes = boxes_of(svg).values()
    return [edge for edge, points in curves_of(svg).items() if any(
        box[0] + 2 < x < box[1] - 2 and box[2] + 2 < y < box[3] - 2 for x, y in points for box in boxes)]


def svg_of(asking: Asking, *words: str) -> str:
    """A graph as Graphviz lays it out."""
    dot = asking.drawn("graph", *words)
    return subprocess.run(["dot", "-Tsvg"], input=dot.encode(), stdout=subprocess.PIPE, check=True).stdout.decode()


def laid_out(asking: Asking) -> None:
    """Of 62 nodes and 230 links sources stand left, ends right, no two boxes meet, and no edge passes through one."""
    if not shutil.which("dot"):
        print("Graphviz is not installed: what it lays out is passed over")
        return
    for script, sources, ends in ((deep_script(), 8, 44), (wide_script(), 31, 61)):
        svg = svg_of(asking, asking.file("s", script), asking.file("t", text_of(script)))
        legible(asking, svg, sources, ends)


def legible(asking: Asking, svg: str, sources: int, ends: int) -> None:
    """The first nodes are sources, those from `ends` on have no output."""
    boxes = boxes_of(svg)
    asking.same("boxes", 62, len(boxes))
    inner = [boxes[f"n{at}"] for at in range(sources, ends)]
    asking.same("sources left", True, max(boxes[f"n{at}"][1] for at in range(sources)) < min(it[0] for it in inner))
    asking.same("ends right", True, min(boxes[f"n{at}"][0] for at in range(ends, 62)) > max(it[1] for it in inner))
    pairs = [(a, b) for a in boxes.values() for b in boxes.values() if a < b]
    meet = [1 for a, b in pairs if a[0] < b[1] and b[0] < a[1] and a[2] < b[3] and b[2] < a[3]]
    asking.same("boxes that meet", [], meet)
    asking.same("edges", 230, len(curves_of(svg)))
    asking.same("edges through a box", [], passing(svg))


def small_ones_laid_out(asking: Asking) -> None:
    """No edge passes through a box where links go back, are refused, or are late."""
    if not shutil.which("dot"):
        return
    draw = random.Random(93)
    for _ in range(12):
        script = random_script(draw)
        asking.same(script, [], passing(svg_of(asking, asking.file("s", script))))
    loop = ("square q 48000 1 4 9\nmix2 m 9 9\ndelay d 9\nmeter v\nasync d\nlink q.out m.a\nlink m.out d.in\n"
            "link d.out m.b\nlink m.out v.in\n")
    asking.same(loop, [], passing(svg_of(asking, asking.file("s", loop))))


TESTS = [kinds, marks, refused, partial, random_graphs, laid_out, small_ones_laid_out]
