"""Which nodes share a driver, and which node it is.

Source: PipeWire's documentation, "Graph Scheduling": nodes that are linked, or have a node.group or
a node.link-group in common, have one driver: of those that may drive the one of greatest
priority.driver, and of equal ones the one that was there first. Where none may drive, the daemon's
own fallback does (its dummy driver, or a sink that runs).
"""
from dataclasses import dataclass


@dataclass(eq=False)
class Group:
    """The nodes of one driver: its node, if it is one of them, and their ids."""
    driver: object
    ids: list


class Sets:
    """Nodes that are joined, by a representative of each set."""

    def __init__(self, members):
        self.above = {member: member for member in members}

    def find(self, member):
        while self.above[member] != member:
            member = self.above[member]
        return member

    def join(self, one, other):
        self.above[self.find(one)] = self.find(other)

    def groups(self):
        """The sets, each in the order of the members."""
        found = {}
        for member in self.above:
            found.setdefault(self.find(member), []).append(member)
        return list(found.values())


def driven_groups(dump, nodes):
    """The nodes that share a driver, group by group."""
    sets = Sets([node.id for node in nodes])
    for link in dump.links:
        if link.state != "error" and link.output_node in sets.above and link.input_node in sets.above:
            sets.join(link.output_node, link.input_node)
    for key in ("node.group", "node.link-group"):
        first = {}
        for node in nodes:
            for name in node.groups(key):
                sets.join(node.id, first.setdefault(name, node.id))
    for node in nodes:
        if node.driver_id in sets.above:
            sets.join(node.id, node.driver_id)
    return [Group(driver_of(dump, ids), ids) for ids in sets.groups()]


def driver_of(dump, ids):
    """The node that drives a group, if one of it may: where the daemon says it, as it says."""
    said = {dump.nodes[id].driver_id for id in ids} & set(ids)
    if len(said) == 1:
        return dump.nodes[said.pop()]
    able = [dump.nodes[id] for id in ids if dump.nodes[id].may_drive]
    return min(able, key=lambda node: (-node.priority, node.serial), default=None)
