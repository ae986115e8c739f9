"""Which parameter of which node or port a word means."""
import re

from bridge.fault import Fault, shown
from bridge.names import fit
from bridge.pods import format_text

CHOICE = re.compile(r"(.+):(EnumFormat|Format)(?:\.([0-9]{1,4}))?")


class Picked:
    """A node's or a port's parameter, its text, and a name for a file of it."""

    def __init__(self, dump, word):
        spelled = CHOICE.fullmatch(word)
        what = spelled[1] if spelled else word
        self.param = spelled[2] if spelled else "EnumFormat"
        self.place = int(spelled[3] or 0) if spelled else 0
        holder, self.said, self.name = holder_of(dump, what)
        found = holder.params.get(self.param, [])
        self.count = len(found)
        where = f"{dump.path}: {self.said}"
        if self.place >= self.count:
            raise Fault(f"{where} has {self.count} parameters {self.param}: there is no number "
                        f"{self.place}" if found else f"{where} has no {self.param}")
        self.place_said, self.value = f"{where}, {self.param}.{self.place}", found[self.place]
        self.title = what if not what.isdigit() else self.said
        self.holder = holder
        self.text = format_text(self.place_said, self.param, self.value)

    @property
    def file(self):
        return f"{self.name}.{self.param.lower()}.{self.place}.text"


def holder_of(dump, what):
    """A node or a port by its id, a node by its name, or a port as pw-link names it."""
    if what.isdigit():
        id = int(what)
        if id in dump.nodes:
            return dump.nodes[id], f"node {dump.nodes[id].said}", fit(dump.nodes[id].name)
        if id in dump.ports:
            return port_of(dump, dump.ports[id])
        raise Fault(f"{dump.path}: no node and no port has the id {id}")
    nodes = [node for node in dump.nodes.values() if node.name == what]
    ports = [port for port in dump.ports.values()
             if f"{dump.nodes[port.node].name}:{port.name}" == what]
    if len(nodes) + len(ports) > 1:
        ids = " ".join(str(it.id) for it in nodes + ports)
        raise Fault(f"{dump.path}: {shown(what)} names more than one: say one of the ids {ids}")
    if nodes:
        return nodes[0], f"node {nodes[0].said}", fit(nodes[0].name)
    if ports:
        return port_of(dump, ports[0])
    raise Fault(f"{dump.path}: no node and no port is called {shown(what)}")


def port_of(dump, port):
    node = dump.nodes[port.node]
    return port, f"port {shown(port.name)} (id {port.id}) of {node.said}", \
        f"{fit(node.name)}.{fit(port.name)}"


def others(picked):
    """What else the node has, for a note; nothing where there is one."""
    if picked.count < 2:
        return None
    return (f"{picked.said} has {picked.count} parameters {picked.param}; this is number "
            f"{picked.place}: say {picked.param}.N for another")


