"""What the tools read of a recording, and nothing of the machine that it was made on."""
KEPT = {
    "PipeWire:Interface:Client": ["application.name", "object.serial", "pipewire.sec.pid"],
    "PipeWire:Interface:Node": ["client.id", "media.class", "media.filename", "node.async",
                                "node.description", "node.driver", "node.driver-id", "node.group", "node.link-group",
                                "node.name", "object.serial", "priority.driver"],
    "PipeWire:Interface:Port": ["audio.channel", "format.dsp", "node.id", "object.serial",
                                "port.control", "port.monitor", "port.name"],
    "PipeWire:Interface:Link": ["link.async"],
}
FIELDS = ["direction", "state", "output-node-id", "output-port-id", "input-node-id",
          "input-port-id"]
PARAMS = ["EnumFormat", "Format"]
FIRST_PROCESS = 1000


def trimmed_dump(objects):
    """The objects of a dump with the fields that the tools read; processes are numbered anew."""
    kept, processes = [], {}
    for it in objects:
        if it["type"] == "PipeWire:Interface:Metadata":
            if it.get("props", {}).get("metadata.name") == "settings":
                kept.append({key: it[key] for key in ("id", "type", "props", "metadata")})
        elif it["type"] in KEPT and it.get("info"):
            kept.append({"id": it["id"], "type": it["type"],
                         "info": trimmed_info(it["info"], KEPT[it["type"]], processes)})
    return kept


def trimmed_info(info, properties, processes):
    """The fields of an object."""
    kept = {key: info[key] for key in FIELDS if key in info}
    said = info.get("props", {})
    kept["props"] = {key: said[key] for key in properties if key in said}
    if "pipewire.sec.pid" in kept["props"]:
        number = processes.setdefault(kept["props"]["pipewire.sec.pid"], len(processes))
        kept["props"]["pipewire.sec.pid"] = FIRST_PROCESS + number
    params = {key: info["params"][key] for key in PARAMS if info.get("params", {}).get(key)}
    return {**kept, "params": params} if params else kept


def trimmed_log(text, most):
    """At most so many lines of a log, without the columns of followers that never were."""
    rows = [line.removesuffix("\t").split("\t") for line in text.splitlines()[:most]]
    while rows and len(rows[0]) > 4 and all(not column.strip()
                                            for row in rows for column in row[-8:]):
        rows = [row[:-8] for row in rows]
    return "".join("\t".join(row) + "\t\n" for row in rows)
