"""Seeded random traces, asked of `check` and of a reading apart from it."""
import random

import graphs
import model

COUNT = 400


class Cycle:
    """One cycle of a history as it goes on."""

    def __init__(self, number, names, driver, before):
        self.number, self.names, self.driver = number, names, driver
        self.before = before  # by node: all that must finish first
        self.started, self.finished, self.ticked, self.late = [], [], False, set()
        self.begun = False

    def take(self, words):
        """Whether an event may come next; it is kept where it may."""
        if not self.begun:
            self.begun = words == ["begin", str(self.number)]
            return self.begun
        if words[1] != str(self.number):
            return False
        if words[0] == "tick":
            good = not self.ticked and self.driver not in self.started and set(
                words[2:]) <= set(self.names) - {self.driver} - set(self.finished)
            self.ticked = True
            return good
        if words[0] == "start":
            good = words[2] in self.names and words[2] not in self.started
            good = good and set(self.before[words[2]]) <= set(self.finished)
            self.started.append(words[2])
            return good
        if words[0] == "finish":
            good = words[2] in self.started and words[2] not in self.finished
            self.finished.append(words[2])
            return good
        return words[0] == "end" and set(self.finished) == set(self.names)


def verdict(cycles, lines):
    """`legal`, or the first event that cannot be where it is."""
    at = 0
    for i, line in enumerate(lines, 1):
        words = line.split()
        if at == len(cycles) or not cycles[at].take(words):
            return f"illegal {i}\n"
        at += words[0] == "end"
    return "legal\n" if at == len(cycles) else f"illegal {len(lines) + 1}\n"


class Epochs(model.Model):
    """A model that notes its cycles."""

    def __init__(self, waves, pods):
        super().__init__(waves, pods)
        self.cycles = []

    def cycle(self, live, names, before):
        drivers = [n for n in self.nodes.values() if n.on and n.priority is not None]
        driver = max(drivers, key=lambda n: n.priority).name if drivers else "dummy"
        names = sorted(names | {driver})
        first = {n: {x[0][0] for x in live if x[1][0] == n and not self.is_late(x)}
                 for n in names}
        first[driver] = set(names) - {driver}
        self.cycles.append(Cycle(len(self.cycles), names, driver, first))
        return super().cycle(live, set(names) - {"dummy"}, before)


def cycles_of(script, waves, pods):
    made = Epochs(waves, pods)
    for line in script.split("\n"):
        if line.split():
            made.line(line.split())
    return made.cycles


def altered(draw, lines):
    """A trace with a few events exchanged, taken out, repeated or put in."""
    lines = list(lines)
    for _ in range(draw.choice([0, 1, 1, 1, 2])):
        at, other = (draw.randrange(len(lines) + 1) for _ in range(2))
        way = draw.randrange(6)
        if way == 0 and max(at, other) < len(lines):
            lines[at], lines[other] = lines[other], lines[at]
        elif way == 1 and at + 1 < len(lines):
            lines[at], lines[at + 1] = lines[at + 1], lines[at]
        elif way == 2:
            del lines[at:at + 1]
        elif way == 3 and lines:
            lines.insert(at, draw.choice(lines))
        elif way == 4:
            del lines[at:]
        elif lines:
            late = draw.choice(["", " s0", " o0", " s0 o0"])
            lines.insert(at, f"tick {draw.choice(lines).split()[1]}{late}")
    return lines


def traces(place):
    """Random traces, and whether they are legal."""
    draw = random.Random(8)
    waves, offers = graphs.make_waves(place, draw), graphs.make_offers(place, draw)
    asked = 0
    while asked < place.some(COUNT):
        script = graphs.random_graph(draw)
        if script.index(" s0") > script.index(" o0"):
            continue  # the late names of a tick ascend by number
        if model.run(script, waves, offers)[0]:
            continue
        asked += 1
        place.file("random.graph", script)
        words = ["run", "random.graph", "--trace", "--loops", str(draw.choice([0, 3]))]
        words += draw.choice([[], ["--ticks", str(draw.randint(1, 5))]])
        heads = ("begin ", "start ", "finish ", "tick ", "end ")
        lines = [line for line in place.ask(*words).out.decode().splitlines()
                 if line.startswith(heads)]
        for _ in range(3):
            trace = altered(draw, lines)
            place.file("random.trace", "\n".join(trace) + "\n" * bool(trace))
            place.expect(f"{script!r}: {trace}", ["check", "random.graph", "random.trace"], 0,
                         verdict(cycles_of(script, waves, offers), trace))
