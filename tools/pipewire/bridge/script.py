"""The script of a graph, by the grammar of docs/FORMATS.md, "Scripts"."""
from bridge.dump import whole
from bridge.engine import candidates
from bridge.fault import shown

CYCLES = 100
LOUDEST = 2000
FULL_SCALE = 32767


def rate_of(dump, engine=None):
    """The rate of the graph: of the Format of a node that drives, else as the settings have it."""
    for group in engine.groups if engine else []:
        for it in group.driver.params.get("Format", []) if group.driver else []:
            rate = it.get("rate") if isinstance(it, dict) else None
            if isinstance(rate, int) and 1 <= rate <= 384000:
                return rate
    rate = setting(dump, "clock.force-rate", 0) or setting(dump, "clock.rate", 48000)
    return rate if 1 <= rate <= 384000 else 48000


def quantum_of(dump, rate, period=None):
    """Frames a cycle: those of the log's period, or as the settings have them."""
    if period:
        quantum = round(period * rate / 1e6)
    else:
        quantum = setting(dump, "clock.force-quantum", 0) or setting(dump, "clock.quantum", 1024)
    return quantum if 1 <= quantum <= 8192 else 1024


def setting(dump, key, otherwise):
    return whole(dump.settings.get(key), otherwise)


def script_of(dump, engine, cycles=CYCLES, period=None):
    """The lines of a script, with what each node is in PipeWire above it."""
    lines = [f"# {printable(dump.path)}: {counted(engine.steps, 'node')}, "
             f"{counted(engine.wires, 'link')}"]
    lines += ["# " + line for line in group_lines(engine)]
    rate = rate_of(dump, engine)
    lines.append(f"quantum {quantum_of(dump, rate, period)}")
    sources = [step for step in engine.steps if step.kind == "square"]
    for step in engine.steps:
        lines += ["", *(f"# {remark}" for remark in remarks(step))]
        lines.append(making_line(step, rate, sources))
        if step.is_asynchronous:
            lines.append(f"async {step.name}")
        if step.loop:
            lines.append(f"loop {step.name} {step.loop}")
        if not step.is_on:
            lines.append(f"off {step.name}")
    lines += [""] + driver_lines(engine)
    for wire in engine.wires:
        lines.append(f"# {wire.links}")
        lines.append(f"link {wire.source.name}.out {wire.target.name}.in")
    lines += ["", f"cycles {cycles}"]
    return "".join(line + "\n" for line in lines)


def group_lines(engine):
    """For each driver who follows it."""
    for group in engine.groups:
        steps = [step for step in engine.steps if step.entry.id in group.ids]
        driver = group.driver.said if group.driver else "the built-in driver"
        names = [step.name for step in steps if group.driver not in step.nodes]
        yield f"{driver} drives {', '.join(names) if names else 'nobody'}"


def remarks(step):
    """What a step is in PipeWire."""
    for node in step.nodes:
        ports = f"{len(node.audio(True))} in, {len(node.audio(False))} out"
        monitors = len(node.audio(False, monitor=True))
        more = f", {monitors} of a monitor" if monitors else ""
        kind = printable(node.properties.get("media.class", "no media.class"))
        yield (f"id {node.id} {shown(node.name)}, {kind}, {printable(node.state)}: "
               f"{ports}{more}")
        if "media.filename" in node.properties:
            yield f"its file is {shown(node.properties['media.filename'])}"


def printable(text):
    return shown(text)[1:-1]


def counted(items, name):
    return f"{len(items)} {name}" if len(items) == 1 else f"{len(items)} {name}s"


def making_line(step, rate, sources):
    """The line that makes a step. A source is a square wave, each of another pitch, so that the
    script runs without files."""
    if step.kind == "square":
        at = sources.index(step)
        level = min(LOUDEST, FULL_SCALE // len(sources))
        return f"square {step.name} {rate} {step.channels} {100 + 20 * at} {level}"
    if step.kind == "sink":
        return f"sink {step.name} {step.name}.wav"
    return f"gain {step.name} 256"


def driver_lines(engine):
    """Who may drive."""
    lines = [f"driver {step.name} {priority}" for step, priority in candidates(engine)]
    return lines + [""] if lines else []
