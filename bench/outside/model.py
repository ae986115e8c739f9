"""What a script prints and stores, from docs/FORMATS.md and the README, apart from the program.

It knows no limits. Blocks are lists of frames, and a frame is a list of
samples; the block of a port without a form is None.
"""
import struct

import formats
import grammar
import readers

RATE, CHANNELS = 65539, 65540
ANY_CHANNELS = ("gain", "mix2", "delay", "sink", "meter")


def clamp(value):
    return max(-32768, min(32767, value))


def only(kind, n):
    return 0, ("only", (kind, struct.pack("<i", n)))


def between(pick, low, high):
    return 0, ("range", formats.INT, pick, low, high, 1)


def single(field):
    """The number of a field of one value, or None."""
    return formats.number(field[1][1]) if field[1][0] == "only" else None


class Node:
    def __init__(self, kind, words, waves):
        self.kind, self.name, self.words = kind, words[1], words
        self.on, self.marked, self.priority = True, False, None
        self.formats, self.buffers, self.offers = {}, {}, {}  # by port
        self.given, self.line, self.kept, self.peak, self.was_active = 0, [], [], 0, False
        self.inputs = grammar.INPUTS.get(kind, [])
        self.outputs = grammar.OUTPUTS.get(kind, [])
        if kind == "source":
            self.wave_channels, self.wave_rate, self.frames = waves[words[2]]
        for port in self.inputs + self.outputs:
            rate, channels = self.numbers(port)
            self.offers[port] = {
                1: only(3, 1), 2: only(3, 1), 65537: only(3, 0x103),
                RATE: only(4, rate) if rate else between(48000, 1, 384000),
                CHANNELS: only(4, channels) if channels else between(2, 1, 8)}

    def numbers(self, port):
        """The rate and the channels that a port offers on its own, None for any."""
        if self.kind == "source":
            return self.wave_rate, self.wave_channels
        if self.kind == "square":
            return int(self.words[2]), int(self.words[3])
        if self.kind == "map":
            return None, int(self.words[2]) if port == "in" else self.words[3].count(",") + 1
        if self.kind == "split":
            return None, 2 if port == "in" else 1
        return None, None

    def shared(self):
        """The fields of one value that a format gave all ports of the node."""
        keys = [RATE, CHANNELS] if self.kind in ANY_CHANNELS else [RATE]
        return {key: form[key] for form in self.formats.values() for key in keys}

    def offered(self, port):
        """What a port offers now, or the least key of which its own offer lacks the value."""
        if port in self.formats:
            return None, self.formats[port]
        for key, field in sorted(self.shared().items()):
            if not formats.is_member(field[1][1], self.offers[port][key][1]):
                return key, None
        shared = {key: (self.offers[port][key][0], field[1])
                  for key, field in self.shared().items()}
        return None, self.offers[port] | shared

    def form(self, port):
        """The rate and the channels of a port, each None where it is open."""
        fields = self.formats.get(port) or self.offers[port] | self.shared()
        return single(fields[RATE]), single(fields[CHANNELS])

    def has_form(self, port):
        if self.kind in ("sink", "meter"):
            return port in self.formats
        return None not in self.form(port)

    def give_up(self):
        self.formats = {}
        self.fresh = True

    fresh = False  # gave up since the last cycle

    def restart(self):
        """The stream begins anew."""
        if self.fresh:
            self.line, self.peak, self.fresh = [], 0, False

    def run(self, inputs, quantum):
        """The blocks of the outputs, of those of the inputs."""
        if self.kind == "source":
            part = self.frames[self.given:self.given + quantum]
            self.given += quantum
            return [part + [[0] * self.wave_channels] * (quantum - len(part))]
        if self.kind == "square":
            channels, period, amp = (int(word) for word in self.words[3:6])
            at = range(self.given, self.given + quantum)
            self.given += quantum
            return [[[amp if 2 * (i % period) < period else -amp] * channels for i in at]]
        if self.kind == "sink":
            self.kept += inputs[0] or []
            return []
        if self.kind == "meter":
            self.peak = max([self.peak] + [abs(s) for frame in inputs[0] or [] for s in frame])
            return []
        return self.effect(*inputs)

    def effect(self, a, b=None):
        if self.kind == "gain":
            g = int(self.words[2])
            return [[[clamp(s * g >> 8) for s in frame] for frame in a]]
        if self.kind == "mix2":
            ga, gb = int(self.words[2]), int(self.words[3])
            return [[[clamp(s * ga + t * gb >> 8) for s, t in zip(x, y)] for x, y in zip(a, b)]]
        if self.kind == "delay":
            held = int(self.words[2])
            line = (self.line or [[0] * len(a[0])] * held) + a
            self.line = line[len(a):]
            return [line[:len(a)]]
        if self.kind == "map":
            return [[[frame[int(j)] for j in self.words[3].split(",")] for frame in a]]
        return [[frame[:1] for frame in a], [frame[1:] for frame in a]]


class Model:
    def __init__(self, waves, pods=None):
        self.waves, self.pods = waves, pods
        self.nodes, self.links, self.text, self.quantum = {}, [], [], 1024

    def is_late(self, link):
        return self.nodes[link[0][0]].marked or self.nodes[link[1][0]].marked

    def reaches(self, start, end):
        """A walk along links that are not late."""
        return start == end or any(
            link[0][0] == start and not self.is_late(link) and self.reaches(link[1][0], end)
            for link in self.links)

    def link(self, words):
        (a, p), (b, q) = link = tuple(tuple(word.split(".")) for word in words[1:])
        source, target = self.nodes[a], self.nodes[b]
        where = " ".join(words[1:])
        counts = {count for count in (source.buffers.get(p), target.buffers.get(q)) if count}
        if link in self.links:
            return self.text.append(f"nolink {where} twice")
        if a == b or not self.is_late(link) and self.reaches(b, a):
            return self.text.append(f"nolink {where} loop")
        (lack, given), (lack2, taken) = source.offered(p), target.offered(q)
        clash, common = lack or lack2, None
        if not clash:
            clash, common = formats.common_of(given, taken)
        if clash:
            return self.text.append(f"nolink {where} {clash}")
        if len(counts) > 1:
            return self.text.append(f"nolink {where} buffers")
        form = {key: (0, ("only", formats.pick_of(field[1]))) for key, field in common.items()}
        source.formats.setdefault(p, form)
        target.formats.setdefault(q, form)
        self.links.append(link)
        agreed = f"{single(form[RATE])} {single(form[CHANNELS])} {max(counts, default=2)}"
        return self.text.append(f"link {where} {agreed}")

    def unlink(self, words):
        link = tuple(tuple(word.split(".")) for word in words[1:])
        if link not in self.links:
            return self.text.append("no" + " ".join(words))
        self.links.remove(link)
        for name in {link[0][0], link[1][0]}:
            node = self.nodes[name]
            if not any(name in (a, b) for (a, _), (b, _) in self.links) and not (
                    node.kind == "sink" and node.was_active):
                node.give_up()
        return self.text.append(" ".join(words))

    def active(self):
        """The live links and the names of the active nodes."""
        live = [x for x in self.links if self.nodes[x[0][0]].on and self.nodes[x[1][0]].on]
        drivers = [n for n in self.nodes.values() if n.on and n.priority is not None]
        if not drivers:
            return live, {end[0] for link in live for end in link}
        found = {max(drivers, key=lambda n: n.priority).name}
        while True:
            more = {end[0] for x in live if {x[0][0], x[1][0]} & found for end in x} | found
            if more == found:
                return [x for x in live if x[0][0] in found], found
            found = more

    def epoch(self, cycles):
        live, names = self.active()
        if cycles is None:
            rests = [len(n.frames) - n.given for n in self.nodes.values()
                     if n.kind == "source" and n.name in names]
            cycles = max([0] + [-(-rest // self.quantum) for rest in rests])
        before = {}
        for i in range(cycles):
            if i == 0:
                for node in self.nodes.values():
                    node.restart()
            before = self.cycle(live, names, before)

    def cycle(self, live, names, before):
        """One cycle; what each output port gave in it."""
        made, todo = {}, [n for n in self.nodes.values() if n.name in names]
        while todo:
            node = next(n for n in todo if all(
                x[0] in made for x in live if x[1][0] == n.name and not self.is_late(x)))
            todo.remove(node)
            inputs = [self.block(node, port, live, made, before) for port in node.inputs]
            node.was_active |= node.kind == "sink" and inputs[0] is not None
            made.update({(node.name, port): block for port, block in
                         zip(node.outputs, node.run(inputs, self.quantum))})
        return made

    def block(self, node, port, live, made, before):
        """The input of a port: the sum of what its links bring, clamped once."""
        if not node.has_form(port):
            return None
        silence = [[0] * node.form(port)[1]] * self.quantum
        brought = [before.get(x[0], silence) if self.is_late(x) else made[x[0]]
                   for x in live if x[1] == (node.name, port)]
        return [[clamp(sum(samples)) for samples in zip(*frames)]
                for frames in zip(*brought)] if brought else silence

    def line(self, words):
        command, node = words[0], self.nodes.get(words[1] if len(words) > 1 else None)
        if command == "quantum":
            self.quantum = int(words[1])
        elif grammar.FORMS[command][:1] == ["new"]:
            self.nodes[words[1]] = Node(command, words, self.waves)
        elif command == "link":
            self.link(words)
        elif command == "unlink":
            self.unlink(words)
        elif command in ("cycles", "drain"):
            self.epoch(int(words[1]) if command == "cycles" else None)
        elif command == "driver":
            node.priority = int(words[2])
        elif command == "offer":
            clash, node.offers[words[2]] = formats.common_of(node.offers[words[2]],
                                                             self.pods[words[3]])
            if clash:
                raise readers.Refused(18, clash)
        elif command == "buffers":
            node.buffers[words[2]] = int(words[3])
        elif command in ("on", "off"):
            node.on = command == "on"
        elif command == "async":
            node.marked = True

    def end(self):
        """The text, and the channels, the rate and the samples of each file."""
        files = {}
        for node in self.nodes.values():
            if node.kind not in ("sink", "meter"):
                continue
            if not node.formats:
                self.text.append(f"unused {node.name}")
            elif node.kind == "meter":
                self.text.append(f"peak {node.name} {node.peak}")
            else:
                rate, channels = node.form("in")
                self.text.append(f"wrote {node.name} {len(node.kept)}")
                files[node.words[2]] = [s for frame in node.kept for s in frame], channels, rate
        return "\n".join(self.text) + "\n" if self.text else "", files


def run(script, waves, pods):
    """Status, text and files of a script in the grammar; `waves` and `pods` by name."""
    model = Model(waves, pods)
    for number, line in enumerate(script.split("\n"), 1):
        try:
            if line.split():
                model.line(line.split())
        except readers.Refused as fault:
            return 4, f"pod {number} " + " ".join(map(str, fault.args)) + "\n", {}
    return 0, *model.end()
