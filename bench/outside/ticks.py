"""The ticks of a history: after every Nth question of the driver to its ticker, and no others.

Without loops the order of a run is fixed. In each round the driver's thread runs the follower of
the lowest number that is ready, and then asks, unless that was the cycle's last follower or the
cycle has had its check; every Nth question of the whole run is a check, which names the followers
that have not finished.
"""
import model

FAN = ("quantum 2\n" + "".join(f"square s{i} 48000 1 2 {100 + i}\n" for i in range(5))
       + "sink o o.wav\ndriver o 1\n" + "".join(f"link s{i}.out o.in\n" for i in range(5)))
CHAIN = ("quantum 2\nmeter m\ndriver m 1\ngain c 100\ngain b 300\nsquare a 48000 1 2 100\n"
         "gain z 256\nlink a.out b.in\nlink b.out c.in\nlink c.out m.in\nlink a.out z.in\n"
         "link z.out m.in\n")
# A single node drives: it has no follower, so nothing is asked.
LONE = "sink o o.wav\ndriver o 1\n"
SCRIPTS = [FAN + "cycles 20\n", CHAIN + "cycles 9\noff z\ncycles 8\n", LONE + "cycles 5\n"]


class Ordered(model.Model):
    """A model that notes the events of a run without loops."""

    def __init__(self, ticks):
        super().__init__({}, {})
        self.ticks, self.asked, self.cycles, self.events = ticks, 0, 0, []

    def asks(self):
        self.asked += 1
        return self.ticks and self.asked % self.ticks == 0

    def cycle(self, live, names, before):
        drivers = [n for n in self.nodes.values() if n.on and n.priority is not None]
        driver = max(drivers, key=lambda n: n.priority).name
        number = self.cycles
        waits = {name: {x[0][0] for x in live if x[1][0] == name} for name in names}
        followers = [name for name in self.nodes if name in names and name != driver]
        self.events.append(f"begin {number}")
        done, checked = [], False
        while len(done) < len(followers):
            name = next(n for n in followers if n not in done and waits[n] <= set(done))
            self.events += [f"start {number} {name}", f"finish {number} {name}"]
            done.append(name)
            late = [n for n in followers if n not in done]
            if late and not checked and self.asks():
                self.events.append(" ".join([f"tick {number}", *late]))
                checked = True
        self.events += [f"start {number} {driver}", f"finish {number} {driver}", f"end {number}"]
        self.cycles += 1
        return super().cycle(live, names, before)


def text_of(script, ticks):
    """The text of a traced run without loops."""
    run = Ordered(ticks)
    for line in script.splitlines():
        run.line(line.split())
    count = len(run.text)
    text = run.end()[0].splitlines()
    return "".join(line + "\n" for line in text[:count] + run.events + text[count:])


def ticks(place):
    """The whole history of runs without loops, with a tick at every Nth question and with none."""
    for script in SCRIPTS:
        place.file("ticks.graph", script)
        words = ["run", "ticks.graph", "--trace", "--loops", "0"]
        for n in [1, 2, 7, 13, 1000000]:
            place.expect(f"--ticks {n}: {script[:40]!r}", [*words, "--ticks", str(n)], 0,
                         text_of(script, n))
        plain = text_of(script, 0)
        place.same("no tick without --ticks", 0, plain.count("tick"))
        place.expect(f"no --ticks: {script[:40]!r}", words, 0, plain)
        for more in [["--loops", "2"], ["--loops", "3", "--steal"], []]:
            traced = place.ask("run", "ticks.graph", "--trace", *more)
            place.same(f"no --ticks, {more}: {script[:40]!r}", (0, 0),
                       (traced.status, traced.out.count(b"tick")))
    # Of two cycles the first has four questions and the second three, the last of them a check.
    place.same("ticks at every seventh question of the fan", 10,
               text_of(FAN + "cycles 20\n", 7).count("tick"))
