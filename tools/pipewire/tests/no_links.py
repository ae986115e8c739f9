"""`why-no-link`: the keys in which two sides do not meet, and where a daemon links them all the same."""
from tests.asking import recording
from tests.made_up import MadeUp

CROSSED = ({"default": 96000, "min": 64000, "max": 192000}, {"default": 44100, "min": 8000, "max": 48000})
STEPPED = ({"default": 48000, "min": 8000, "max": 96000, "step": 8000},
           {"default": 44100, "alt1": 44100, "alt2": 48000})


def format(**values):
    return {"mediaType": "audio", "mediaSubtype": "raw", **values}


def dump_of(outputs, inputs, links=()):
    """A player's port with some EnumFormats and a sink's with others; the ids are 31 to 34."""
    dump = MadeUp()
    player, sink = dump.node("player", outputs=1), dump.node("sink", inputs=1)
    dump.objects[1]["info"]["params"] = {"EnumFormat": outputs}
    dump.objects[3]["info"]["params"] = {"EnumFormat": inputs}
    for state in links:
        dump.link(player, sink, state=state)
    return dump.text()


def place(number=0):
    return (f'EnumFormat.{number} of port "output_0" (id 32) of "player" (id 31), EnumFormat.0 of port '
            '"input_0" (id 34) of "sink" (id 33): ')


SAYS = "a daemon with spa_pod_filter of 0.3.65 would take"
ENDS = ("player:output_0", "sink:input_0")
PAIRS = [
    ("plain", [format(rate=48000)], [format(rate=48000)], [place() + "a format in common"]),
    ("two keys", [format(rate=48000, channels=6)], [format(rate=44100, channels={"default": 2, "alt1": 2,
                                                                              "alt2": 1})],
     [place() + "no format in common", "  rate: player:output_0 offers 48000, sink:input_0 44100: nothing in "
      "common", "  channels: player:output_0 offers 6, sink:input_0 2 or 1: nothing in common"]),
    ("crossed", [format(rate=CROSSED[0])], [format(rate=CROSSED[1])],
     [place() + "no format in common, but a daemon would link them",
      "  rate: player:output_0 offers 64000 to 192000, sink:input_0 8000 to 48000: nothing in common; "
      f"{SAYS} 48000 all the same"]),
    ("stepped", [format(rate=STEPPED[0])], [format(rate=STEPPED[1])],
     [place() + "a format in common", "  rate: player:output_0 offers 8000 to 96000 in steps of 8000, "
      f"sink:input_0 44100 or 48000: common; {SAYS} 96000, which one side does not offer"]),
    ("two of an output", [format(rate=1), format(rate=48000)], [format(rate=48000)],
     [place() + "no format in common", "  rate: player:output_0 offers 1, sink:input_0 48000: nothing in "
      "common", place(1) + "a format in common"]),
]


def pairs_are_told(asking):
    for what, outputs, inputs, lines in PAIRS:
        name = asking.store("pair.json", dump_of(outputs, inputs))
        done = asking.tool("why-no-link", name, *ENDS)
        asking.same(f"why-no-link: {what}", (0, lines, ""), (done.status, done.text.splitlines(), done.errors))
    name = asking.store("pair.json", dump_of([format(rate=1)], [format(rate=1)], ["error"]))
    asking.same("why-no-link: a link in error", ['link 35 is there between the two, and its state is "error"',
                                                 place() + "a format in common"],
                asking.tool("why-no-link", name, *ENDS).text.splitlines())
    asking.same("why-no-link: directions", [
        'no link: port "input_0" (id 34) of "sink" (id 33) is an input, and has to be an output',
        'no link: port "output_0" (id 32) of "player" (id 31) is an output, and has to be an input'],
        asking.tool("why-no-link", name, *ENDS[::-1]).text.splitlines()[:2])


def what_is_refused(asking):
    dump, _ = recording("players")
    bad = asking.store("bad.json", dump_of([{"mediaType": "smell"}], [format()]))
    for words, sentence in [
            ([dump, "first"], "the words are DUMP.json OUTPUT INPUT"),
            ([dump, "nobody", "sinkA"], f'{dump}: no node and no port is called "nobody"'),
            ([dump, "first:Format", "sinkA"],
             '"first:Format" is no EnumFormat, which is what a port offers'),
            ([bad, *ENDS], f'{bad}: port "output_0" (id 32) of "player" (id 31), EnumFormat.0, mediaType: '
             '"smell" is no name of SPA\'s for it')]:
        done = asking.tool("why-no-link", *words)
        asking.same(f"why-no-link: {sentence}", (1, "", f"why-no-link: {sentence}\n"), done.whole())


TESTS = [pairs_are_told, what_is_refused]
