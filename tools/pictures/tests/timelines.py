"""What a timeline shows: its rows, bars, rules and marks, parsed out of the SVG; and the events for Perfetto."""
from __future__ import annotations

import json
import re
from typing import Dict, List, Tuple
from xml.etree import ElementTree

from .asking import Asking

SVG = "{http://www.w3.org/2000/svg}"
SCRIPT = """quantum 4
sink o o.wav
mix2 m 256 128
square a 48000 1 4 9
gain b 256
driver o 1
async b
loop a 0
loop m 2
link a.out m.a
link m.out b.in
link b.out m.b
link m.out o.in
cycles 9
"""
STEP = 8


def cycle(number: int, late: str = "") -> str:
    tick = f"tick {number} {late}\n" if late else ""
    order = "".join(f"start {number} {name}\n{tick if name == 'm' else ''}finish {number} {name}\n" for name in "ambo")
    return f"begin {number}\n{order}end {number}\n"


TRACE = "link a.out m.a 48000 1 2\n" + cycle(0) + cycle(1, "m") + "wrote o 8\n"


class Picture:
    """A timeline that was parsed: bands, with the row of each name and what is drawn."""

    def __init__(self, svg: str) -> None:
        self.root = ElementTree.fromstring(svg)
        self.bands = [it for it in self.root.findall(f"{SVG}g") if it.findall(f"{SVG}path[@class='r']")]
        self.words = [it.text for it in self.root.iter(f"{SVG}text")]

    def rows(self) -> Dict[str, int]:
        """The height of each name's row."""
        texts = [it for it in self.bands[0].findall(f"{SVG}text") if it.get("text-anchor") == "end"]
        return {it.text or "": int(it.get("y") or 0) - 4 for it in texts[1:]}

    def marks(self, name: str, band: int = 0) -> List[Tuple[int, ...]]:
        """The numbers in the path of each mark of a class."""
        paths = [it.get("d") or "" for it in self.bands[band].findall(f"{SVG}path[@class='{name}']")]
        return [tuple(int(number) for number in re.findall(r"-?\d+", path)) for path in paths]

    def left(self) -> int:
        return self.marks("r")[0][0]

    def bars(self, band: int = 0) -> List[Tuple[str, int, int]]:
        """The name, the first and the last event of each bar."""
        names = {y: name for name, y in self.rows().items()}
        return [(names[y + 6], (x - self.left()) // STEP, (x - self.left() + width) // STEP)
                for x, y, width, *_ in self.marks("bar", band)]


def picture(asking: Asking, trace: str, *words: str) -> Picture:
    return Picture(asking.drawn("timeline", asking.file("s", SCRIPT), asking.file("t", trace), *words))


def rows(asking: Asking) -> None:
    """Nodes stand below those they depend on, the sink last; bars go from each start to its finish."""
    it = picture(asking, TRACE)
    asking.same("rows", ["a", "b", "m", "o"], sorted(it.rows()))
    asking.same("order", True, it.rows()["a"] < it.rows()["m"] < it.rows()["o"] and max(
        it.rows(), key=lambda name: it.rows()[name]) == "o")
    wanted = [("a", 1, 2), ("m", 3, 4), ("b", 5, 6), ("o", 7, 8), ("a", 11, 12), ("m", 13, 15), ("b", 16, 17),
              ("o", 18, 19)]
    asking.same("bars", wanted, it.bars())
    asking.same("not to scale", True, "21 events: order of events, not to scale" in it.words)
    asking.same("links and sinks are passed over", [0, 10], [(mark[0] - it.left()) // STEP for mark in it.marks("c")])


def late(asking: Asking) -> None:
    """A late check: a rule, a diamond in the row, and its words in the legend, only where it occurs."""
    it = picture(asking, TRACE)
    x, y = it.marks("late")[0][:2]
    asking.same("diamond", (14, it.rows()["m"]), ((x + 5 - it.left()) // STEP, y))
    asking.same("legend", True, "not finished at the check" in it.words)
    asking.same("no legend", False, "not finished at the check" in picture(asking, cycle(0)).words)


def loops(asking: Asking) -> None:
    """A colour a loop, where the script names loops."""
    it = picture(asking, TRACE)
    asking.same("legend", True, "loop 0" in it.words and "loop 2" in it.words)
    fills = {bar.get("fill") for bar in it.bands[0].findall(f"{SVG}path[@class='bar']")}
    asking.same("colours of loop 0, loop 2 and none", True, len(fills) >= 2)


def ranges(asking: Asking) -> None:
    """A range that is cut to the cycles that there are, numbered as the trace numbers them."""
    trace = "".join(cycle(number) for number in range(9))
    for words, cycles in [(("2", "4"), "234"), (("7", "99"), "78"), (("0", "0"), "0")]:
        it = picture(asking, trace, *words)
        named = [text.text for text in it.root.iter(f"{SVG}text") if text.get("class") == "cycle"]
        asking.same(str(words), list(cycles), named)
    done = asking.ask("timeline", "s", "t", "9", "12")
    asking.same("none of the range", (1, b"usage 3\n", b"pipegraph-pictures: t: it has no event of cycle 9\n"),
                (done.returncode, done.stdout, done.stderr))


def bands(asking: Asking) -> None:
    """A band ends before a begin; of more than 1,000 events the first are drawn, which is said."""
    trace = "".join(cycle(number) for number in range(45)) * 3
    it = picture(asking, trace)
    asking.same("bands", 5, len(it.bands))
    asking.same("each begins with a begin", True, all(it.left() in [mark[0] for mark in it.marks("c", band)]
                                                      for band in range(5)))
    asking.same("said", True, "the first 1000 of 1350 events: order of events, not to scale" in it.words)


def unended(asking: Asking) -> None:
    """A bar without a finish in its cycle goes to the end."""
    it = picture(asking, "begin 0\nstart 0 a\nstart 0 m\nfinish 1 a\nend 0\n")
    asking.same("bars", [("a", 1, 5), ("m", 2, 5)], it.bars())


def verdicts(asking: Asking) -> None:
    """The event of a verdict has a rule before it, where it is drawn, or behind the last."""
    for words, at in [(("illegal", "3"), 2), (("illegal", "21"), 20), (("illegal", "22"), 21), (("legal",), None),
                      (("illegal", "23"), None), (("1", "1", "illegal", "13"), 2)]:
        it = picture(asking, TRACE, *words)
        rules = [(mark[0] - it.left()) // STEP for mark in it.marks("v")]
        asking.same(str(words), [] if at is None else [at], rules)
        asking.same(f"{words}: legend", at is not None, "no legal history from here on" in it.words)


def alternative(asking: Asking) -> None:
    """A title and a description, no script, and nothing from elsewhere."""
    svg = asking.drawn("timeline", asking.file("s", SCRIPT), asking.file("t", TRACE))
    root = ElementTree.fromstring(svg)
    asking.same("title", "t, a run of s", root.findtext(f"{SVG}title"))
    asking.same("role", "img", root.get("role"))
    asking.same("no script", False, "<script" in svg or "href" in svg or "url(" in svg)
    asking.same("the same again", svg, asking.drawn("timeline", "s", "t"))


def perfetto(asking: Asking) -> None:
    """The same events in the Trace Event format: one slice for each bar and each cycle, their order as microseconds."""
    it = picture(asking, TRACE, "--perfetto", "out.json")
    held = json.loads((asking.folder / "out.json").read_text())
    tracks = {event["tid"]: event["args"]["name"] for event in held["traceEvents"] if event["name"] == "thread_name"}
    slices = [(tracks[event["tid"]], event["ts"], event["ts"] + event["dur"]) for event in held["traceEvents"]
              if event["ph"] == "X"]
    asking.same("slices", sorted(it.bars() + [("cycles", 0, 9), ("cycles", 10, 20)]), sorted(slices))
    checks = [(tracks[event["tid"]], event["ts"]) for event in held["traceEvents"] if event["ph"] == "i"]
    asking.same("checks", [("m", 14)], checks)
    asking.same("said", "the order of events as microseconds, not to scale", held["otherData"]["times"])


TESTS = [rows, late, loops, ranges, bands, unended, verdicts, alternative, perfetto]
