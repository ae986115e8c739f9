"""Scripts of made-up dumps: names, limits, loops, and what the engine cannot have."""
from tests.asking import commands
from tests.made_up import MIDI, MadeUp, log


def told(answer):
    """The sentences without the tool's name."""
    return [line.removeprefix("graph: ") for line in answer.errors.splitlines()]


def names_are_made_fit(asking):
    """Lower case, no other characters, at most 31, none twice, none the built-in driver's."""
    dump = MadeUp()
    dump.node("9 Lives!", outputs=1)
    dump.node("Übung", outputs=1)
    dump.node("a" * 40, outputs=1)
    dump.node("dummy", outputs=1)
    dump.node("Twin", outputs=1)
    dump.node("twin", outputs=1)
    dump.node("twin-39", outputs=1)
    made = asking.tool("graph", asking.store("names.json", dump.text()))
    made_names = [line.split()[1] for line in commands(made.text) if line.startswith("square")]
    asking.same("names", ["n9_lives", "bung", "a" * 31, "dummy_37", "twin_39_", "twin_41",
                          "twin_39"], made_names)
    asking.same("names in remarks", True, '"\\xdcbung"' in made.text)
    asking.same("names: run", 0, asking.program(
        "pipegraph", "run", asking.store("names.graph", made.text)).status)


def what_cannot_be_is_told(asking):
    """Ports and nodes that are no audio, links in error, loops, links to oneself."""
    dump = MadeUp()
    sink = dump.node("sink", inputs=1, node_driver=True)
    one, two = dump.node("one", inputs=1, outputs=1), dump.node("two", inputs=1, outputs=1)
    keys, synth = dump.node("keys", outputs=1, dsp=MIDI), dump.node("synth", inputs=1, dsp=MIDI)
    dump.link(one, two)
    back = dump.link(two, one)
    itself = dump.link(one, one)
    broken = dump.link(one, sink, state="error")
    dump.link(two, sink)
    dump.link(keys, synth)
    made = asking.tool("graph", asking.store("left.json", dump.text()))
    asking.same("left out", [
        f'left out: "keys" (id {keys[0]}): it has no audio port',
        f'left out: "synth" (id {synth[0]}): it has no audio port',
        f'left out: link {broken} from "one" (id {one[0]}) to "sink" (id {sink[0]}): PipeWire says '
        'that it is in error',
        f'left out: link {back} from "two" (id {two[0]}) to "one" (id {one[0]}): it closes a loop, '
        'and none of the nodes is async',
        f'left out: link {itself} from "one" (id {one[0]}) to "one" (id {one[0]}): both ends are '
        'one node'], told(made))
    asking.same("left out: links", ["link one.out two.in", "link two.out sink.in"],
                [line for line in commands(made.text) if line.startswith("link")])


def an_async_node_may_close_a_loop(asking):
    """Its links are late, as in the engine."""
    dump = MadeUp()
    sink = dump.node("sink", inputs=1, node_driver=True, priority_driver=7)
    one = dump.node("one", inputs=1, outputs=1)
    two = dump.node("two", inputs=1, outputs=1, node_async=True)
    dump.link(one, two, link_async=True)
    dump.link(two, one, link_async=True)
    dump.link(one, sink)
    made = asking.tool("graph", asking.store("async.json", dump.text()))
    asking.same("async", ["quantum 1024", "sink sink sink.wav", "gain one 256", "gain two 256",
                          "async two", "driver sink 7", "link one.out two.in",
                          "link two.out one.in", "link one.out sink.in", "cycles 100"],
                commands(made.text))
    done = asking.program("pipegraph", "run", asking.store("async.graph", made.text))
    asking.same("async: links", (0, False), (done.status, "nolink" in done.text))


def nodes_beyond_63_are_told(asking):
    """Those that run stay."""
    dump = MadeUp()
    sink = dump.node("sink", inputs=1, node_driver=True)
    idle = dump.node("idle", outputs=1, state="idle")
    for at in range(64):
        dump.link(dump.node(f"s{at}", outputs=1), sink)
    made = asking.tool("graph", asking.store("many.json", dump.text()))
    asking.same("many: nodes", 63, sum(line.split()[0] in ("square", "sink")
                                       for line in commands(made.text)))
    asking.same("many: told", [f'left out: {who}: a graph has at most 63 nodes' for who in
                               [f'"idle" (id {idle[0]})', '"s62" (id 221)', '"s63" (id 224)']],
                told(made))
    asking.same("many: run", 0, asking.program(
        "pipegraph", "run", asking.store("many.graph", made.text)).status)


def drivers_have_their_order(asking):
    """Each group has its driver; a source that drives is the built-in driver's first follower."""
    dump = MadeUp()
    low = dump.node("low", inputs=2, node_driver=True, priority_driver=10)
    high = dump.node("high", inputs=2, node_driver=True, priority_driver=5000000)
    both = dump.node("both", outputs=2)
    dump.link(both, low)
    dump.link(both, low, at=1)
    dump.link(both, high)
    made = asking.tool("graph", asking.store("drivers.json", dump.text()))
    asking.same("drivers", ["driver low 10", "driver high 1000000"],
                [line for line in commands(made.text) if line.startswith("driver")])
    asking.same("drivers: remark", True,
                f'# "high" (id {high[0]}) drives low, both' in made.text.splitlines())

    dump = MadeUp()
    mic = dump.node("mic", outputs=1, node_driver=True)
    tape = dump.node("tape", inputs=1)
    dump.link(mic, tape)
    text = log([(21333, 90, 0, 21333), (tape[0], 40, 60, 3)])
    files = asking.store("mic.json", dump.text()), asking.store("mic.log", text)
    script, trace = asking.tool("graph", *files).text, asking.tool("trace", *files).text
    asking.same("a source drives", ["begin 0", "start 0 mic", "finish 0 mic", "start 0 tape",
                                    "finish 0 tape", "start 0 dummy", "finish 0 dummy", "end 0"],
                trace.splitlines())
    asking.same("a source drives: verdict", "legal\n", asking.program(
        "pipegraph", "check", asking.store("mic.graph", script),
        asking.store("mic.trace", trace)).text)


def monitors_of_followers_are_links(asking):
    """A sink that follows may be heard in the same cycle: it is between."""
    dump = MadeUp()
    driver = dump.node("driver", inputs=1, node_driver=True, priority_driver=2)
    middle = dump.node("middle", inputs=1, outputs=1, node_driver=True)
    dump.objects[-1]["info"]["props"]["port.monitor"] = True
    source = dump.node("source", outputs=1)
    dump.link(source, middle)
    dump.link(middle, driver)
    made = asking.tool("graph", asking.store("monitor.json", dump.text()))
    asking.same("monitor", ["gain middle 256", "driver driver 2", "link source.out middle.in",
                            "link middle.out driver.in"],
                [line for line in commands(made.text)
                 if line.split()[0] in ("gain", "driver", "link")])


def channels_of_a_part_are_one(asking):
    """A mono source into a stereo sink is reported, and the script runs."""
    dump = MadeUp()
    sink = dump.node("sink", inputs=2, node_driver=True)
    mono = dump.node("mono", outputs=1)
    dump.add("Link", {"output-node-id": mono[0], "output-port-id": mono[2][0],
                      "input-node-id": sink[0], "input-port-id": sink[1][0], "state": "active"})
    dump.add("Link", {"output-node-id": mono[0], "output-port-id": mono[2][0],
                      "input-node-id": sink[0], "input-port-id": sink[1][1], "state": "active"})
    made = asking.tool("graph", asking.store("mono.json", dump.text()))
    asking.same("mono: told", [f'note: "mono" (id {mono[0]}) has 1 channels, and is written with '
                               'the 2 of its part'], told(made))
    done = asking.program("pipegraph", "run", asking.store("mono.graph", made.text))
    asking.same("mono: run", "link mono.out sink.in 48000 2 2\nwrote sink 102400\n", done.text)


TESTS = [names_are_made_fit, what_cannot_be_is_told, an_async_node_may_close_a_loop,
         nodes_beyond_63_are_told, drivers_have_their_order, monitors_of_followers_are_links,
         channels_of_a_part_are_one]
