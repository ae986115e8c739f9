"""Dumps and logs that are made up: a few objects with the fields that pw-dump has."""
import json

AUDIO = "32 bit float mono audio"
MIDI = "8 bit raw midi"


class MadeUp:
    """A dump that grows by nodes, ports and links; ids are numbered as they come."""

    def __init__(self):
        self.objects, self.next = [], 30

    def add(self, kind, info):
        self.next += 1
        self.objects.append({"id": self.next, "type": f"PipeWire:Interface:{kind}", "info": info})
        return self.next

    def node(self, name, inputs=0, outputs=0, dsp=AUDIO, state="running", **properties):
        """A node with so many ports: its id, its inputs and its outputs."""
        said = {"node.name": name, **{key.replace("_", "."): value
                                      for key, value in properties.items()}}
        id = self.add("Node", {"state": state, "props": said})
        ports = [[self.add("Port", {"direction": direction,
                                    "props": {"node.id": id, "port.name": f"{direction}_{at}",
                                              "format.dsp": dsp}}) for at in range(count)]
                 for direction, count in (("input", inputs), ("output", outputs))]
        return id, ports[0], ports[1]

    def link(self, source, target, at=0, state="active", **properties):
        """A link of a channel."""
        said = {key.replace("_", "."): value for key, value in properties.items()}
        return self.add("Link", {"output-node-id": source[0], "output-port-id": source[2][at],
                                 "input-node-id": target[0], "input-port-id": target[1][at],
                                 "state": state, "props": said})

    def text(self):
        return json.dumps(self.objects)


def log(*rows):
    """A log of rows: the driver's four columns, and of each follower id, awake, finish, status."""
    lines = []
    for driver, *followers in rows:
        columns = list(driver)
        for id, awake, finish, status in followers:
            columns += [id, awake, awake, finish, 0, max(0, finish - awake), status, 0]
        lines.append("\t".join(map(str, columns)) + "\t\n")
    return "".join(lines)
