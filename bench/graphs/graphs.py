"""Graphs whose cost is the engine's, their files, and runs of pipegraph and of the twin in C.

A graph is the lines of a script, its WAV files, and how many nodes are active in how many cycles.
"""
import os
import shutil
import subprocess
import tempfile
from pathlib import Path
from typing import NamedTuple

HERE = Path(__file__).resolve().parent
TOP = HERE.parents[1]
SECONDS = 120  # after which a run is stopped
EIGHT_GAINS = [128, -96, 200, 64, -256, 180, 33, 90]
EIGHT_DELAYS = [0, 480, 1023, 4800, 65536, 7, 256, 24000]


class Graph(NamedTuple):
    name: str
    lines: list
    waves: list  # name, channels, frames
    nodes: int
    cycles: int


def chain(count, cycles, longest=None, quantum=64):
    """One source, a chain of gains, one sink."""
    lines = [f"quantum {quantum}", "source s chain_in.wav"]
    lines += [f"gain g{i} {250 if i % 2 else 262}" for i in range(count)]
    lines += ["sink o OUT", "driver o 1", "link s.out g0.in"]
    lines += [f"link g{i}.out g{i + 1}.in" for i in range(count - 1)]
    lines += [f"link g{count - 1}.out o.in", f"cycles {cycles}"]
    waves = [("chain_in.wav", 1, (longest or cycles) * quantum)]
    return Graph(f"chain{count}_{cycles}", lines, waves, count + 2, cycles)


def fan(count=30, cycles=60000, quantum=64):
    """One source to many gains to one sink."""
    lines = [f"quantum {quantum}", "source s fan_in.wav"]
    lines += [f"gain g{i} {16 + i if i % 3 else -20 - i}" for i in range(count)]
    lines += ["sink o OUT", "driver o 1"] + [f"link s.out g{i}.in" for i in range(count)]
    lines += [f"link g{i}.out o.in" for i in range(count)] + [f"cycles {cycles}"]
    return Graph("fan", lines, [("fan_in.wav", 1, cycles * quantum)], count + 2, cycles)


def long_stereo():
    """Four minutes of stereo through a gain."""
    lines = ["source s long_in.wav", "gain g 200", "sink o OUT", "driver o 1",
             "link s.out g.in", "link g.out o.in", "drain"]
    return Graph("stereo", lines, [("long_in.wav", 2, 11520000)], 3, 11250)


def eight():
    """Eight mono sources of five minutes with gain and delay, into a sink and a meter."""
    lines = ["quantum 256"]
    for i in range(8):
        lines += [f"source s{i} eight_in{i}.wav", f"gain g{i} {EIGHT_GAINS[i]}",
                  f"delay d{i} {EIGHT_DELAYS[i]}"]
    lines += ["sink mix OUT", "meter level", "driver mix 1"]
    for i in range(8):
        lines += [f"link s{i}.out g{i}.in", f"link g{i}.out d{i}.in", f"link d{i}.out mix.in",
                  f"link d{i}.out level.in"]
    waves = [(f"eight_in{i}.wav", 1, 14400000) for i in range(8)]
    return Graph("eight", lines + ["drain"], waves, 26, 56250)


def wide(loops=0):
    """31 stereo sources of a minute with gains, into one sink: as many nodes as there may be. Where
    there are loops, each source and its gain name one."""
    lines = []
    for i in range(31):
        lines += [f"source s{i} wide_in{i}.wav", f"gain g{i} {20 + i}"]
    lines += ["sink o OUT", "driver o 1"]
    if loops:
        lines += [f"loop {name}{i} {i % loops}" for i in range(31) for name in "sg"]
    for i in range(31):
        lines += [f"link s{i}.out g{i}.in", f"link g{i}.out o.in"]
    waves = [(f"wide_in{i}.wav", 2, 2880000) for i in range(31)]
    return Graph(f"wide_{loops}" if loops else "wide", lines + ["drain"], waves, 63, 2813)


def lanes(count=4, length=14, quantum=8192, cycles=2000):
    """Chains with a loop each, to one meter: what threads can win."""
    lines = [f"quantum {quantum}"]
    for i in range(count):
        names = [f"s{i}"] + [f"g{i}_{j}" for j in range(length)]
        lines += [f"source s{i} lane_in{i}.wav"]
        lines += [f"gain {name} {250 if j % 2 else 262}" for j, name in enumerate(names[1:])]
        lines += [f"loop {name} {i}" for name in names]
    lines += ["meter o", "driver o 1"]
    for i in range(count):
        names = [f"s{i}"] + [f"g{i}_{j}" for j in range(length)]
        lines += [f"link {a}.out {b}.in" for a, b in zip(names, names[1:])]
        lines += [f"link {names[-1]}.out o.in"]
    waves = [(f"lane_in{i}.wav", 2, 8 * quantum) for i in range(count)]
    return Graph("lanes", lines + [f"cycles {cycles}"], waves, count * (length + 1) + 1, cycles)


def squares(name, count, length, cycles, kind, loops=0):
    """Stereo squares with a chain of nodes each, into one sink; `kind` gives the line of each node
    after the square. Where there are loops, each chain names one."""
    nodes, named, links = ["quantum 1024"], [], []
    for i in range(count):
        names = [f"s{i}"] + [f"g{i}_{j}" for j in range(length)]
        nodes += [f"square s{i} 48000 2 {90 + i} 1000"]
        nodes += [kind(i, j, node) for j, node in enumerate(names[1:])]
        named += [f"loop {node} {i % loops}" for node in names] if loops else []
        links += [f"link {a}.out {b}.in" for a, b in zip(names, names[1:])]
        links += [f"link {names[-1]}.out o.in"]
    lines = nodes + ["sink o OUT", "driver o 1"] + named + links + [f"cycles {cycles}"]
    return Graph(f"{name}_{loops}" if loops else name, lines, [], count * (length + 1) + 1, cycles)


def squares_with_gains(loops=0):
    """31 squares with a gain each."""
    return squares("squares", 31, 1, 2813, lambda i, j, node: f"gain {node} {20 + i}", loops)


def chains(loops=0):
    """Four squares with 14 gains each."""
    return squares("chains", 4, 14, 3000, lambda i, j, node: f"gain {node} 255", loops)


def squares_with_delays(loops=0):
    """Eight squares with a gain and a delay each."""
    return squares("delays", 8, 2, 6000,
                   lambda i, j, node: f"delay {node} {100 * i}" if j else f"gain {node} 200", loops)


def two(name, cycles, quantum=64, channels=1, frames=1000):
    """Two sources, one sink."""
    lines = [f"quantum {quantum}", "source a two_in.wav", "source b two_in.wav", "sink o OUT",
             "driver o 1", "link a.out o.in", "link b.out o.in", f"cycles {cycles}"]
    return Graph(name, lines, [("two_in.wav", channels, frames)], 3, cycles)


def one_square():
    """One square to a sink, a sample a cycle."""
    lines = ["quantum 1", "square s 48000 1 480 8000", "sink o OUT", "driver o 1",
             "link s.out o.in", "cycles 100000"]
    return Graph("square", lines, [], 2, 100000)


def many(epochs=1):
    """31 squares to 30 gains to one sink: 62 nodes and 230 links, 1,024 cycles of 16 samples."""
    lines = ["quantum 16"] + [f"square s{i} 48000 1 {5 + i} {100 + i}" for i in range(31)]
    lines += [f"gain g{i} {16 + i}" for i in range(30)] + ["sink o OUT", "driver o 1"]
    lines += [f"link s{(i + j) % 31}.out g{i}.in" for i in range(30) for j in range(6 + i // 20)]
    lines += [f"link g{i}.out o.in" for i in range(30)] + [f"link s{i}.out o.in" for i in range(10)]
    lines += [f"cycles {1024 // epochs}"] * epochs
    return Graph("many" if epochs == 1 else f"many_{epochs}", lines, [], 62, 1024)


WAITING = [(str(k), ["--loops", str(k)]) for k in (0, 1, 2, 4, 16)]
WAITING += [("3 --steal", ["--loops", "3", "--steal"])]
ONE_PROCESSOR = ["taskset", "-c", "0"]


class Took(NamedTuple):
    wall: float  # seconds
    own: float  # processor seconds
    peak: float  # MiB
    status: int
    sleeps: int  # how often its threads went to sleep

    def least(self, other):
        return Took(min(self.wall, other.wall), min(self.own, other.own), max(self.peak, other.peak),
                    self.status or other.status, min(self.sleeps, other.sleeps))


class Bench:
    """A folder in memory with the twin and with graphs; it goes with the block."""

    def __init__(self, program=None):
        self.program = Path(program).resolve() if program else built()

    def __enter__(self):
        place = "/dev/shm" if os.access("/dev/shm", os.W_OK) else None
        self.folder = Path(tempfile.mkdtemp(prefix="pipegraph-bench-", dir=place))
        self.twin = self.folder / "twin"
        subprocess.run(["gcc", "-O3", "-march=native", "-std=gnu11", "-pthread", "-o", self.twin,
                        *sorted(HERE.glob("*.c"))], check=True)
        return self

    def __exit__(self, *_):
        shutil.rmtree(self.folder)

    def make(self, graph):
        """The script of a graph, and its files where they are not there."""
        for seed, (name, channels, frames) in enumerate(graph.waves):
            path = self.folder / name
            if not path.exists() or path.stat().st_size != 44 + 2 * channels * frames:
                subprocess.run([self.twin, "make", path, str(channels), str(frames),
                                str(40 + seed)], check=True)
        path = self.folder / f"{graph.name}.graph"
        path.write_text("\n".join(graph.lines).replace("OUT", f"{graph.name}.out.wav") + "\n")
        return path.name

    def drop(self, graph):
        """Removes the files of a graph."""
        for name, _, _ in graph.waves:
            (self.folder / name).unlink(missing_ok=True)
        (self.folder / f"{graph.name}.out.wav").unlink(missing_ok=True)

    def ours(self, script, loops):
        return [self.program, "run", script, "--loops", str(loops)]

    def board(self, script, loops):
        return [self.twin, "run", script, "board", str(loops)]

    def plain(self, script):
        return [self.twin, "run", script, "plain"]

    def take(self, command):
        """What one run took."""
        told = self.folder / "took"
        subprocess.run([self.twin, "take", told, str(SECONDS), *command], cwd=self.folder,
                       stderr=subprocess.DEVNULL, check=True)
        wall, own, peak, status, sleeps = told.read_text().split()
        return Took(float(wall), float(own), int(peak) / 1024, int(status), int(sleeps))

    def text(self, command):
        """What one run prints."""
        return subprocess.run(command, cwd=self.folder, capture_output=True, check=False).stdout

    def best(self, commands, rounds):
        """The least that each of some commands took, one after the other in each round."""
        took = {}
        for _ in range(rounds):
            for name, command in commands.items():
                now = self.take(command)
                took[name] = took[name].least(now) if name in took else now
        return took


def built():
    """The program, which is built if need be."""
    crate = TOP / "crates/pw_main"
    program = crate / "out/pw_main"
    if not program.exists():
        subprocess.run(["rt", "run", "--", "run", "/dev/null"], cwd=crate, check=False,
                       stdout=subprocess.DEVNULL)
    return program
