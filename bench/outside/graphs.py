"""Seeded random graphs, asked of the program with some number of loops and of the model."""
import random
import struct

import formats
import grammar
import model
from worked import pod, wav

COUNT = 600
WAVES = {"mono.wav": (1, 48000), "stereo.wav": (2, 48000), "slow.wav": (1, 44100)}
KINDS = ["source", "source", "square", "gain", "mix2", "delay", "map", "split", "sink", "sink",
         "meter"]


OFFERS = 12  # files of offers


def make_offers(place, draw):
    """The fields of random offers, by the names of their files."""
    number = lambda kind, n: pod(kind, struct.pack("<i", n))
    choice = lambda how, *ns: pod(19, struct.pack("<IIII", how, 0, 4, 4)
                                  + struct.pack(f"<{len(ns)}i", *ns))
    fields = {
        model.RATE: [number(4, 48000), number(4, 44100), choice(1, 44100, 44100, 96000),
                     choice(3, 44100, 44100, 48000), choice(2, 8000, 8000, 96000, 8000)],
        model.CHANNELS: [number(4, 1), number(4, 2), choice(1, 1, 1, 2), choice(3, 3, 1, 2, 3),
                         choice(2, 2, 2, 8, 2)],
        1: [number(3, 1)], 65537: [number(3, 0x103)], 65541: [number(3, 3), number(3, 4)]}
    offers = {}
    for i in range(OFFERS):
        keys = draw.sample(list(fields), draw.randint(1, 3))
        body = struct.pack("<II", 0x40003, 3)
        for key in keys:
            flags = draw.choice([0, 0, 0, 0, 0, 8])
            body += struct.pack("<II", key, flags) + draw.choice(fields[key])
        place.file(f"{i}.pod", pod(15, body))
        offers[f"{i}.pod"] = formats.format_of(pod(15, body))[2]
    return offers


def port_of(draw, nodes):
    """A node and one of its ports."""
    name = draw.choice(list(nodes))
    ports = grammar.INPUTS.get(nodes[name], []) + grammar.OUTPUTS.get(nodes[name], [])
    return f"{name} {draw.choice(ports)}"


def node_line(draw, kind, name):
    if kind == "source":
        return f"source {name} {draw.choice(['mono.wav', 'mono.wav', 'stereo.wav', 'slow.wav'])}"
    if kind == "square":
        return f"square {name} 48000 {draw.choice([1, 1, 2])} {draw.choice([1, 2, 5])} 30000"
    if kind == "gain":
        return f"gain {name} {draw.choice([256, -300, 128, 1, 32767, -32767])}"
    if kind == "mix2":
        return f"mix2 {name} {draw.choice([256, 32767, -1])} {draw.choice([128, 32767])}"
    if kind == "delay":
        return f"delay {name} {draw.choice([0, 1, 3, 10])}"
    if kind == "map":
        return f"map {name} {draw.choice(['1 0', '2 1,0', '2 1', '1 0,0'])}"
    if kind == "sink":
        return f"sink {name} {name}.out"
    return f"{kind} {name}"


def change(draw, nodes, links):
    """A line that changes the graph, or runs it."""
    ends = lambda ports: [f"{n}.{p}" for n, k in nodes.items() for p in ports.get(k, [])]
    name, way = draw.choice(list(nodes)), draw.randrange(20)
    if way < 11:
        link = f"{draw.choice(ends(grammar.OUTPUTS))} {draw.choice(ends(grammar.INPUTS))}"
        links.append(link)
        return "link " + link
    if way < 14 and links:
        return "unlink " + draw.choice(links)
    if way < 16:
        return f"{draw.choice(['on', 'off'])} {name}"
    return draw.choice(["drain", "cycles 1", "cycles 2", "cycles 3"])


def random_graph(draw):
    """Nodes, what is said of them, and changes between epochs."""
    nodes = {"s0": "source", "o0": "sink"}
    nodes.update({f"n{i}": draw.choice(KINDS) for i in range(draw.randint(1, 9))})
    names = list(nodes)
    draw.shuffle(names)
    nodes = {name: nodes[name] for name in names}
    lines = [f"quantum {draw.choice([1, 2, 3, 5])}"]
    lines += [node_line(draw, kind, name) for name, kind in nodes.items()]
    ends = [name for name, kind in nodes.items() if kind in ("sink", "meter")]
    lines += [f"driver {draw.choice(ends)} {draw.randint(0, 2)}" for _ in range(draw.randint(0, 3))]
    lines += [f"loop {draw.choice(names)} {draw.randint(0, 15)}" for _ in range(draw.randint(0, 3))]
    lines += [f"async {draw.choice(names)}" for _ in range(draw.choice([0, 0, 0, 1, 2]))]
    lines += [f"buffers {port_of(draw, nodes)} {draw.choice([1, 3, 8])}"
              for _ in range(draw.choice([0, 0, 1, 2]))]
    lines += [f"offer {port_of(draw, nodes)} {draw.randrange(OFFERS)}.pod"
              for _ in range(draw.choice([0, 0, 1, 2, 3]))]
    links = []
    lines += [change(draw, nodes, links) for _ in range(draw.randint(2, 40))]
    return "\n".join(lines + ["drain"])


def make_waves(place, draw):
    """The files of sources: channels, rate and frames by name."""
    waves = {}
    for name, (channels, rate) in WAVES.items():
        frames = [[draw.randint(-32768, 32767) for _ in range(channels)] for _ in range(9)]
        waves[name] = channels, rate, frames
        place.file(name, wav([s for frame in frames for s in frame], channels, rate))
    return waves


def graphs(place):
    """Random graphs: their text, their files and their traces."""
    draw = random.Random(5)
    waves, offers = make_waves(place, draw), make_offers(place, draw)
    for _ in range(place.some(COUNT)):
        script = random_graph(draw)
        loops = str(draw.choice([0, 1, 2, 5, 16]))
        status, text, files = model.run(script, waves, offers)
        place.file("random.graph", script)
        good = place.expect(script, ["run", "random.graph", "--loops", loops], status, text)
        for name, (samples, channels, rate) in files.items():
            place.same(f"{name} of {script!r}", wav(samples, channels, rate), place.read(name))
        if status:
            continue
        traced = place.ask("run", "random.graph", "--loops", loops, "--trace").out.splitlines()
        events = [line for line in traced if line not in good.out.splitlines()]
        place.file("random.trace", b"".join(line + b"\n" for line in events))
        place.expect(f"trace of {script}", ["check", "random.graph", "random.trace"], 0, "legal\n")
