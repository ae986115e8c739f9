"""A graph of PipeWire as the engine can have it: steps, links, drivers, and what is left out."""
from dataclasses import dataclass, field

from bridge.fault import Fault, shown
from bridge.joining import Sets, driven_groups
from bridge.steps import make_steps, name_steps
from bridge.wires import MOST_LINKS, Wire, make_wires

MOST_NODES, MOST_CHANNELS, MOST_LOOPS, MOST_PRIORITY = 63, 8, 16, 1000000


@dataclass(eq=False)
class Engine:
    """Steps in the order of their nodes, links in theirs, and a sentence for what is left out."""
    steps: list = field(default_factory=list)
    wires: list = field(default_factory=list)
    groups: list = field(default_factory=list)
    told: list = field(default_factory=list)

    def step_of(self, id):
        """The step that stands for a node, if one does."""
        return next((step for step in self.steps if id in step.ids), None)

    def leave_out(self, what, why):
        self.told.append(f"left out: {what}: {why}")


def engine_of(dump, only=None, apart=()):
    """The graph of a dump; with `only`, a group, of only its nodes. `apart` names the groups whose
    streams are nodes of their own."""
    engine = Engine()
    nodes = audio_nodes(dump, engine)
    if only is None:
        engine.groups = driven_groups(dump, nodes)
    else:
        engine.groups = [only]
        nodes = without_async(engine, of_group(engine, nodes, only), only)
    if not nodes:
        raise Fault(f"{dump.path}: no node with audio ports, of which a script could be")
    engine.steps = limited(engine, make_steps(nodes, apart))
    name_steps(engine.steps)
    drivers = [group.driver for group in engine.groups if group.driver]
    for step in engine.steps:
        step.drives = step.entry in drivers and bool(step.entry.audio(True))
    engine.wires = make_wires(dump, engine)
    if only is not None:
        wait_for_all(engine)
    number_loops(dump, engine)
    agree_on_channels(engine)
    return engine


def wait_for_all(engine):
    """Links to the driver from where a part ends that no link joins to it: in PipeWire each follower
    has the driver among its targets, so it waits for them too."""
    lead = leader(engine)
    if lead is None:
        return
    live = active_steps(engine, lead)
    for step in engine.steps:
        is_end = not any(wire.source is step for wire in engine.wires)
        if step.is_on and step not in live and is_end and len(engine.wires) < MOST_LINKS \
                and any(wire.target is step for wire in engine.wires):
            engine.wires.append(Wire(step, lead, []))
            step.gives = True
            engine.told.append(f"note: {step.said} is written with a link to {lead.said}, which "
                               "waits for all its followers")


def audio_nodes(dump, engine):
    """The nodes with audio ports, in the order in which they came."""
    kept = []
    for node in sorted(dump.nodes.values(), key=lambda node: node.serial):
        if any(port.is_audio for port in node.ports):
            kept.append(node)
            for port in node.ports:
                if not port.is_audio:
                    engine.leave_out(f"port {shown(port.name)} (id {port.id}) of {node.said}",
                                     "it carries no audio")
        else:
            engine.leave_out(node.said, "it has no audio port")
    return kept


def of_group(engine, nodes, group):
    """The nodes of a group; the others are reported."""
    for node in nodes:
        if node.id not in group.ids:
            engine.leave_out(node.said, "another driver's, of which the log tells nothing")
    return [node for node in nodes if node.id in group.ids]


def without_async(engine, nodes, group):
    """The nodes of a group that its driver waits for."""
    for node in nodes:
        if node.is_asynchronous and node is not group.driver:
            engine.leave_out(node.said, "it is async: the driver does not wait for it, and what the "
                             "log has of it may be of the cycle before")
    return [node for node in nodes if node is group.driver or not node.is_asynchronous]


def limited(engine, steps):
    """At most 63 steps: those that run come first, then the others."""
    kept = sorted(steps, key=lambda step: (not step.is_on, step.serial))[:MOST_NODES]
    for step in steps:
        if step not in kept:
            engine.leave_out(step.said, f"a graph has at most {MOST_NODES} nodes")
    return [step for step in steps if step in kept]


def number_loops(dump, engine):
    """A loop for each process, the daemon's first; beyond 16 they share the last."""
    numbers = {0: 0}
    for step in engine.steps:
        number = numbers.setdefault(dump.process(step.exit), len(numbers))
        step.loop = min(number, MOST_LOOPS - 1)
        if number >= MOST_LOOPS:
            engine.told.append(f"note: {step.said} shares loop {step.loop} with another process: "
                               f"a graph has {MOST_LOOPS} loops")


def agree_on_channels(engine):
    """Linked steps have the same channels in a script: the driver's, else the most of them."""
    sets = Sets(engine.steps)
    for wire in engine.wires:
        sets.join(wire.source, wire.target)
    for steps in sets.groups():
        lead = next((step for step in steps if step.drives), None)
        if len(steps) == 1:
            lead = None
        most = lead.width if lead else max(step.width for step in steps)
        for step in steps:
            step.channels = max(1, min(most, MOST_CHANNELS))
            if step.width != step.channels:
                engine.told.append(f"note: {step.said} has {step.width} channels, and is written "
                                   f"with the {step.channels} of its part")


def candidates(engine):
    """The steps that may drive, with their priorities: the sinks of each group that a sink drives,
    as far as PipeWire lets them."""
    found = []
    for group in engine.groups:
        lead = engine.step_of(group.driver.id) if group.driver else None
        if lead and lead.drives:
            found += [(step, max(0, min(step.entry.priority, MOST_PRIORITY)))
                      for step in engine.steps if step.kind == "sink" and step.entry.may_drive
                      and step.entry.id in group.ids]
    return found


def leader(engine):
    """The step that drives a script, None for the built-in driver: of the candidates that are on
    the first of greatest priority."""
    able = [(step, priority) for step, priority in candidates(engine) if step.is_on]
    first = min(able, key=lambda it: (-it[1], engine.steps.index(it[0])), default=(None, 0))
    return first[0]


def active_steps(engine, lead):
    """The steps that run in a cycle: those joined to the leader by links between running steps,
    or, where the built-in driver leads, those that have such a link."""
    live = [wire for wire in engine.wires if wire.source.is_on and wire.target.is_on]
    if lead is None:
        return [step for step in engine.steps
                if any(step in (wire.source, wire.target) for wire in live)]
    sets = Sets(engine.steps)
    for wire in live:
        sets.join(wire.source, wire.target)
    return [step for step in engine.steps if sets.find(step) is sets.find(lead)]
