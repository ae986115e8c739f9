"""The links of a script: all links of PipeWire between two steps, each of a channel, as one."""
from dataclasses import dataclass

MOST_LINKS = 256


@dataclass(eq=False)
class Wire:
    """All channels between two steps."""
    source: object
    target: object
    ids: list
    of_monitor: bool = False

    @property
    def is_late(self):
        return self.source.is_asynchronous or self.target.is_asynchronous

    @property
    def said(self):
        return f"{self.source.said} to {self.target.said}"

    @property
    def links(self):
        """The links of PipeWire, in words."""
        ids = [str(id) for id in self.ids]
        if not ids:
            return "no link of PipeWire: the driver waits for each of its followers"
        return f"link {ids[0]}" if len(ids) == 1 else f"links {' '.join(ids)}"


def make_wires(dump, engine):
    """The links between steps, without those that the engine cannot have, which are reported."""
    pairs, wires = {}, []
    for link in sorted(dump.links, key=lambda link: link.id):
        source, target = engine.step_of(link.output_node), engine.step_of(link.input_node)
        if source is None or target is None:
            continue
        why = no_channel(dump, link)
        if why:
            engine.leave_out(f"link {link.id} from {Wire(source, target, []).said}", why)
        else:
            pair = pairs.setdefault((source, target), Wire(source, target, []))
            pair.ids.append(link.id)
            pair.of_monitor |= dump.ports[link.output_port].is_monitor
    for wire in pairs.values():
        why = refusal(wire, wires)
        if why:
            engine.leave_out(f"{wire.links} from {wire.said}", why)
        else:
            wires.append(wire)
            wire.source.gives = True
    return from_sources(engine, wires)


def from_sources(engine, wires):
    """The links in the order in which each meets a format that is known: from the sources on, and
    of several the one whose source stands first. A link of which both sides are open would fix the
    engine's own rate and channels, which those of a source that comes later need not meet."""
    known = {step for step in engine.steps if step.kind == "square"}
    depth, rest, ordered = depths(wires), list(wires), []
    while rest:
        near = [wire for wire in rest if wire.source in known or wire.target in known] or rest
        first = min(near, key=lambda wire: (depth[wire.source], wire.ids[0]))
        rest.remove(first)
        ordered.append(first)
        known |= {first.source, first.target}
    return ordered


def depths(wires):
    """For each step of the links how many of them the longest way to it has; late ones do not count."""
    depth = {step: 0 for wire in wires for step in (wire.source, wire.target)}
    for _ in depth:
        for wire in wires:
            if not wire.is_late:
                depth[wire.target] = max(depth[wire.target], depth[wire.source] + 1)
    return depth


def no_channel(dump, link):
    """Why a link is no channel of audio, if it is none."""
    if not dump.ports[link.output_port].is_audio or not dump.ports[link.input_port].is_audio:
        return "it carries no audio"
    return "PipeWire says that it is in error" if link.state == "error" else None


def refusal(wire, wires):
    """Why the engine cannot have a link beside these, if it cannot."""
    if wire.source.drives:
        return "the driver ends the cycle, so its output comes after it"
    if wire.of_monitor and len(wire.source.nodes) > 1:
        return "a monitor of streams that are written as one node"
    if wire.source is wire.target:
        return "both ends are one node"
    if reaches(wires, wire.target, wire.source):
        return "it closes a loop, and none of the nodes is async"
    if len(wires) == MOST_LINKS:
        return f"a graph has at most {MOST_LINKS} links"
    return None


def reaches(wires, start, goal):
    """Whether links that are not late lead from a step to another."""
    open_steps, seen = [start], set()
    while open_steps:
        step = open_steps.pop()
        if step is goal:
            return True
        if step not in seen:
            seen.add(step)
            open_steps += [it.target for it in wires if it.source is step and not it.is_late]
    return False
