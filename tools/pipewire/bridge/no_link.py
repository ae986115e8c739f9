"""Why two ports or nodes get no common format: each key of both, as `pipegraph filter` and the daemon
have it."""
import shutil
import subprocess
import tempfile
from dataclasses import dataclass
from pathlib import Path
from typing import Any, List, Optional

from bridge.fault import Fault, shown
from bridge.judge import TOP
from bridge.pods import format_text
from bridge.spa_filter import parts_of, taken


def program_of(name, crate):
    """A program on the path, or as it is built here."""
    built = TOP / "crates" / crate / "out" / crate
    found = shutil.which(name) or (str(built) if built.exists() else None)
    if found is None:
        raise Fault(f"{name} is not there: ./install builds it")
    return found


class Filter:
    """`pipegraph filter` over formats as pw-dump prints them."""

    def __init__(self):
        self.pods, self.asked = program_of("pipegraph-pods", "pw_pods"), program_of("pipegraph", "pw_main")
        self.scratch = tempfile.TemporaryDirectory(prefix="pipegraph-filter-")
        self.folder = Path(self.scratch.name)

    def __enter__(self):
        return self

    def __exit__(self, *_):
        self.scratch.cleanup()

    def has_common(self, place, output, input):
        """Whether two formats have one in common."""
        for name, format in (("a.pod", output), ("b.pod", input)):
            self.ask(self.pods, "pod", "-", name, text=format_text(place, "EnumFormat", format))
        said = self.ask(self.asked, "filter", "a.pod", "b.pod", "c.pod").stdout
        if said != "common\n" and not said.startswith("clash "):
            raise Fault(f"{place}: pipegraph filter says {shown(said.strip())}")
        return said == "common\n"

    def ask(self, *words, text=""):
        return subprocess.run(words, cwd=self.folder, input=text, text=True, stdout=subprocess.PIPE,
                              stderr=subprocess.PIPE)


@dataclass
class Key:
    """A key of two formats: whether `filter` finds a common value, and what the daemon takes."""
    name: str
    output: Any
    input: Any
    is_common: bool
    taken: Optional[list]

    @property
    def is_told(self):
        """The daemon and the filter differ, or neither has a common value."""
        return not self.is_common or self.taken is None or self.is_odd

    @property
    def is_odd(self):
        """The daemon takes a value that one of the sides does not offer."""
        return self.taken is not None and not all(
            offers(side, self.taken[0]) for side in (self.output, self.input))

    def said(self, one, other):
        """The key in a line."""
        line = f"{self.name}: {one} offers {value_said(self.output)}, {other} {value_said(self.input)}: " \
            + ("common" if self.is_common else "nothing in common")
        if self.taken is None:
            return line
        value = value_said(self.taken[0])
        if not self.is_common:
            return f"{line}; a daemon with spa_pod_filter of 0.3.65 would take {value} all the same"
        return f"{line}; a daemon with spa_pod_filter of 0.3.65 would take {value}, which one side " \
            "does not offer" if self.is_odd else line


def offers(value, wanted):
    """Whether a value, a choice or an array has another one."""
    parts = parts_of(value)
    if parts.kind in ("range", "step"):
        return parts.rest[0] <= wanted <= parts.rest[1] and (
            parts.kind == "range" or (wanted - parts.rest[0]) % parts.rest[2] == 0)
    return wanted in parts.rest


def value_said(value):
    """A value in words."""
    parts = parts_of(value)
    if parts.kind == "none":
        return " ".join(map(str, value)) if isinstance(value, list) else str(value)
    if parts.kind in ("range", "step"):
        step = f" in steps of {parts.rest[2]}" if parts.kind == "step" else ""
        return f"{parts.rest[0]} to {parts.rest[1]}{step}"
    return " or ".join(map(str, parts.rest or [parts.default]))


def keys_of(ask: Filter, place, output, input) -> List[Key]:
    """The keys that both formats have."""
    return [Key(name, output[name], input[name],
                ask.has_common(f"{place}, {name}", {name: output[name]}, {name: input[name]}),
                taken(output[name], input[name])) for name in output if name in input]


def lines_of(ask: Filter, one, other):
    """What is said of two parameters, which were picked."""
    keys = keys_of(ask, one.place_said, one.value, other.value)
    place = f"EnumFormat.{one.place} of {one.said}, EnumFormat.{other.place} of {other.said}"
    common = all(key.is_common for key in keys)
    daemon = all(key.taken is not None for key in keys)
    verdict = "a format in common" if common else "no format in common"
    if daemon != common:
        verdict += ", but a daemon would link them" if daemon else ", but a daemon would refuse them"
    yield f"{place}: {verdict}"
    for key in keys:
        if key.is_told:
            yield f"  {key.said(one.title, other.title)}"
