"""What `pw-dump` prints: the nodes, ports, links and clients of a daemon.

Source: the tool's own output (PipeWire 0.3.65) and PipeWire's documentation of the properties,
"pipewire/keys.h": node.driver, priority.driver, node.group, node.link-group, port.monitor; and of
1.4.2 node.async, link.async, node.driver-id, and the lists of `pw-dump -m`.
"""
import json
import re
from dataclasses import dataclass, field

from bridge.fault import Fault, shown

KINDS = {"PipeWire:Interface:Node": "node", "PipeWire:Interface:Port": "port",
         "PipeWire:Interface:Link": "link", "PipeWire:Interface:Client": "client",
         "PipeWire:Interface:Metadata": "metadata"}
SPACES, NAMES = re.compile(r"[ \t\r\n]*"), re.compile(r"[^][\s,\"]+")
LINK_ENDS = ["output-node-id", "output-port-id", "input-node-id", "input-port-id"]


@dataclass(eq=False)
class Port:
    """One channel of a node, or its control values or notes."""
    id: int
    node: int
    is_input: bool
    properties: dict
    params: dict

    @property
    def name(self):
        return str(self.properties.get("port.name", self.id))

    @property
    def is_monitor(self):
        return is_true(self.properties.get("port.monitor"))

    @property
    def is_audio(self):
        """A DSP port says what it carries; any other one by its formats."""
        if is_true(self.properties.get("port.control")):
            return False
        if "format.dsp" in self.properties:
            return str(self.properties["format.dsp"]).endswith("audio")
        formats = self.params.get("Format", []) + self.params.get("EnumFormat", [])
        return any(it.get("mediaType") == "audio" for it in formats if isinstance(it, dict))


@dataclass(eq=False)
class Node:
    """A node with its ports, in the order of their ids."""
    id: int
    state: str
    properties: dict
    params: dict
    ports: list = field(default_factory=list)
    has_async_link: bool = False

    @property
    def name(self):
        return str(self.properties.get("node.name", self.id))

    @property
    def said(self):
        """The node in a sentence."""
        return f"{shown(self.name)} (id {self.id})"

    @property
    def serial(self):
        """Ids are used again; serial numbers are not, so they tell who came first."""
        return whole(self.properties.get("object.serial"), self.id)

    @property
    def may_drive(self):
        return is_true(self.properties.get("node.driver"))

    @property
    def priority(self):
        return whole(self.properties.get("priority.driver"), 0)

    @property
    def is_asynchronous(self):
        """The daemon says so of its links too: before 1.2 node.async was a word that none knew."""
        return is_true(self.properties.get("node.async")) and self.has_async_link

    @property
    def driver_id(self):
        """The node that drives it, where the daemon says so."""
        return whole(self.properties.get("node.driver-id"), None)

    def groups(self, key):
        """The names of a node.group or node.link-group, which may be several."""
        value = self.properties.get(key)
        if isinstance(value, str) and value.lstrip().startswith("["):
            return NAMES.findall(value)
        return [str(it) for it in value] if isinstance(value, list) else [str(value)] if value else []

    def audio(self, is_input, monitor=False):
        """The audio ports of a direction."""
        return [port for port in self.ports
                if port.is_audio and port.is_input == is_input and port.is_monitor == monitor]


@dataclass(eq=False)
class Link:
    """From an output port to an input port: one channel."""
    id: int
    output_node: int
    output_port: int
    input_node: int
    input_port: int
    state: str
    is_async: bool = False


@dataclass(eq=False)
class Dump:
    """The objects of a daemon, by their ids, and the settings that its metadata has."""
    path: str
    nodes: dict
    ports: dict
    links: list
    clients: dict
    settings: dict

    def process(self, node):
        """The process that a node runs in: its client's, or 0, the daemon."""
        client = whole(node.properties.get("client.id"), None)
        if client not in self.clients:
            return 0
        said = self.clients[client]
        pid = said.get("pipewire.sec.pid", said.get("application.process.id"))
        return whole(pid, f"client {client}")


def whole(value, otherwise):
    """A number of the settings, which some releases print as a text."""
    if isinstance(value, str) and value.isdigit():
        return int(value)
    return value if isinstance(value, int) and not isinstance(value, bool) else otherwise


def is_true(value):
    """A property is a JSON value, or a text of one."""
    return value is True or value == "true" or value == "1"


def read_json(path):
    """The values of a file, one after the other."""
    try:
        with open(path, encoding="utf-8") as file:
            text = file.read()
        values, at, decoder = [], 0, json.JSONDecoder()
        while True:
            at = SPACES.match(text, at).end()
            if at == len(text) and values:
                return values
            value, at = decoder.raw_decode(text, at)
            values.append(value)
    except json.JSONDecodeError as error:
        raise Fault(f"{path}:{error.lineno}:{error.colno}: this is no JSON: {error.msg}") from None
    except UnicodeDecodeError as error:
        raise Fault(f"{path}: this is no text in UTF-8, at byte {error.start}") from None
    except RecursionError:
        raise Fault(f"{path}: values stand too deep") from None
    except OSError as error:
        raise Fault(f"{path}: {error.strerror}") from None


def last_objects(path):
    """The objects of a dump, or of the lists of `pw-dump -m`: each as the last list has it that has
    it, without those of which a list says that they are gone."""
    found = {}
    for objects in read_json(path):
        if not isinstance(objects, list):
            raise Fault(f"{path}: this is no list of objects, as pw-dump prints it")
        for place, it in enumerate(objects):
            if not isinstance(it, dict) or not isinstance(it.get("id"), int):
                raise Fault(f"{path}: object {place} of the list has no \"id\", as pw-dump prints it")
            if "type" not in it and it.get("info", 0) is None:
                found.pop(it["id"], None)
            else:
                found[it["id"]] = it
    return list(found.values())


def part(path, holder, where, key, kind):
    """A field of an object, which has to be there and of this type."""
    value = holder.get(key)
    if not isinstance(value, kind) or isinstance(value, bool):
        raise Fault(f"{path}: {where} has no {shown(key)}, as pw-dump prints it")
    return value


def read_dump(path):
    """The dump of a file; every id that a port or a link names is in it."""
    dump = Dump(path, {}, {}, [], {}, {})
    for it in last_objects(path):
        add(dump, it)
    for port in dump.ports.values():
        if port.node not in dump.nodes:
            raise Fault(f"{path}: port {port.id} is of node {port.node}, "
                        "which is not in the dump")
        dump.nodes[port.node].ports.append(port)
    for link in dump.links:
        check_ends(dump, link)
        for id in (link.output_node, link.input_node):
            dump.nodes[id].has_async_link |= link.is_async
    return dump


def add(dump, it):
    """Takes in an object; what is neither node, port, link, client nor settings says nothing."""
    kind, id = KINDS.get(str(it.get("type"))), it["id"]
    where = f"{kind} {id}"
    if kind == "metadata":
        if isinstance(it.get("props"), dict) and it["props"].get("metadata.name") == "settings":
            dump.settings = settings(it.get("metadata"))
        return
    if kind is None or it.get("info", 0) is None:
        return
    info = part(dump.path, it, where, "info", dict)
    properties, params = info.get("props") or {}, info.get("params") or {}
    if not isinstance(properties, dict) or not isinstance(params, dict) \
            or not all(isinstance(it, list) for it in params.values()):
        raise Fault(f"{dump.path}: {where} has other \"props\" or \"params\" than pw-dump prints")
    if kind == "client":
        dump.clients[id] = properties
    elif kind == "node":
        dump.nodes[id] = Node(id, str(info.get("state", "")), properties, params)
    elif kind == "port":
        node = part(dump.path, properties, where, "node.id", int)
        direction = part(dump.path, info, where, "direction", str)
        dump.ports[id] = Port(id, node, direction in ("input", "in"), properties, params)
    else:
        ends = [part(dump.path, info, where, key, int) for key in LINK_ENDS]
        dump.links.append(Link(id, *ends, str(info.get("state", "")),
                               is_true(properties.get("link.async"))))


def settings(entries):
    """The keys and values of the daemon's settings."""
    entries = entries if isinstance(entries, list) else []
    return {str(entry.get("key")): entry.get("value") for entry in entries
            if isinstance(entry, dict)}


def check_ends(dump, link):
    """The nodes and ports of a link are in the dump."""
    for what, id, known in [("node", link.output_node, dump.nodes),
                            ("port", link.output_port, dump.ports),
                            ("node", link.input_node, dump.nodes),
                            ("port", link.input_port, dump.ports)]:
        if id not in known:
            raise Fault(f"{dump.path}: link {link.id} names {what} {id}, which is not in the dump")
