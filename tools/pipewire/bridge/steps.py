"""The nodes of a script: a step stands for one node of PipeWire, or for the streams of a client.

The streams of a node.link-group are one step where some take samples and others give them, inside
their client (a loopback, a filter chain, an echo canceller, a combined stream); PipeWire has no link
between them. By its ports a step is a source (outputs alone), a sink (inputs alone, or it drives),
or stands between.
"""
from dataclasses import dataclass

from bridge.dump import Node

from bridge.names import fit_names


@dataclass(eq=False)
class Step:
    """The entries take samples and the exits give them; as a rule they are one node."""
    entries: list[Node]
    exits: list[Node]
    name: str = ""
    drives: bool = False
    gives: bool = False
    loop: int = 0
    channels: int = 0

    @property
    def nodes(self):
        return self.entries + [node for node in self.exits if node not in self.entries]

    @property
    def entry(self):
        return self.entries[0]

    @property
    def exit(self):
        return self.exits[0]

    @property
    def ids(self):
        return [node.id for node in self.nodes]

    @property
    def serial(self):
        return min(node.serial for node in self.nodes)

    @property
    def is_on(self):
        return all(any(node.state == "running" for node in side)
                   for side in (self.entries, self.exits))

    @property
    def is_asynchronous(self):
        return any(node.is_asynchronous for node in self.nodes)

    @property
    def said(self):
        """The step in a sentence."""
        return " and ".join(node.said for node in self.nodes)

    @property
    def width(self):
        """How many audio channels the step has, in or out."""
        return max(len(ports) for node in self.nodes for ports in
                   (node.audio(True), node.audio(False), node.audio(False, monitor=True)))

    @property
    def kind(self):
        """What the step is in a script. One that gives through its monitor is between."""
        if not self.entry.audio(True):
            return "square"
        is_end = not self.exit.audio(False) and not self.gives
        return "sink" if self.drives or is_end else "gain"


def make_steps(nodes, apart=()):
    """A step for each node, and one for the streams of a group, in the order in which they came.
    The streams of a group that is said to run apart are nodes of their own."""
    steps, taken = [], set()
    for name, (entries, exits) in stream_groups(nodes).items():
        if name not in apart:
            steps.append(Step(entries, exits))
            taken.update(node.id for node in entries + exits)
    steps += [Step([node], [node]) for node in nodes if node.id not in taken]
    return sorted(steps, key=lambda step: step.serial)


def stream_groups(nodes):
    """By its name each node.link-group whose streams take samples and give them: who does which."""
    by_group, found = {}, {}
    for node in nodes:
        for name in node.groups("node.link-group")[:1]:
            by_group.setdefault(name, []).append(node)
    for name, members in by_group.items():
        entries = [node for node in members if node.audio(True) and not node.audio(False)]
        exits = [node for node in members if node.audio(False) and not node.audio(True)]
        if entries and exits and len(entries) + len(exits) == len(members):
            found[name] = entries, exits
    return found


def name_steps(steps):
    """Names the steps after their nodes; streams after the description that all have."""
    names = fit_names([(step.ids[0], wanted_name(step)) for step in steps])
    for step in steps:
        step.name = names[step.ids[0]]


def wanted_name(step):
    said = {str(node.properties.get("node.description", "")) for node in step.nodes}
    return said.pop() or step.entry.name if len(step.nodes) > 1 and len(said) == 1 \
        else step.entry.name
