"""Inputs that are refused: a sentence with the place, status 1, nothing on standard output."""
import json

from tests.asking import recording
from tests.made_up import MadeUp, log

ROW = (21333, 50, 0, 21333)


def small():
    """A source into a sink that drives; the ids are 31, 33."""
    dump = MadeUp()
    sink = dump.node("sink", inputs=1, node_driver=True)
    source = dump.node("source", outputs=1)
    dump.link(source, sink)
    return dump


def without(dump, place, *keys):
    """The text of a dump whose object at a place lacks a field."""
    objects = json.loads(dump.text())
    holder = objects[place]
    for key in keys[:-1]:
        holder = holder[key]
    del holder[keys[-1]]
    return json.dumps(objects)


def replaced(dump, place, key, value):
    objects = json.loads(dump.text())
    objects[place]["info"][key] = value
    return json.dumps(objects)


# A text of a dump, and the sentence, for all three tools.
DUMPS = [
    ("", "bad.json:1:1: this is no JSON: Expecting value"),
    ("[\n {", "bad.json:2:3: this is no JSON: Expecting property name enclosed in double quotes"),
    ("[] x", "bad.json:1:4: this is no JSON: Expecting value"),
    ("[] {}", "bad.json: this is no list of objects, as pw-dump prints it"),
    ("{}", "bad.json: this is no list of objects, as pw-dump prints it"),
    ("[7]", 'bad.json: object 0 of the list has no "id", as pw-dump prints it'),
    ('[{"type": "x"}]', 'bad.json: object 0 of the list has no "id", as pw-dump prints it'),
    (without(small(), 0, "info"), 'bad.json: node 31 has no "info", as pw-dump prints it'),
    (without(small(), 1, "info", "direction"),
     'bad.json: port 32 has no "direction", as pw-dump prints it'),
    (without(small(), 1, "info", "props", "node.id"),
     'bad.json: port 32 has no "node.id", as pw-dump prints it'),
    (without(small(), 4, "info", "input-port-id"),
     'bad.json: link 35 has no "input-port-id", as pw-dump prints it'),
    (replaced(small(), 4, "output-node-id", 99),
     "bad.json: link 35 names node 99, which is not in the dump"),
    (replaced(small(), 4, "input-port-id", 98),
     "bad.json: link 35 names port 98, which is not in the dump"),
    (replaced(small(), 1, "props", {"node.id": 77}),
     "bad.json: port 32 is of node 77, which is not in the dump"),
    ("[" * 100000, "bad.json: values stand too deep"),
]

# A text of a log beside the small dump, and the sentence, for graph and trace.
LOGS = [
    ("", "bad.log: the log has no line"),
    ("one two three\n", "bad.log:1: 1 columns: a line has 4 for the driver and 8 for each "
     "follower, parted by tabs"),
    ("1\t2\t3\t4\t5\t\n", "bad.log:1: 5 columns: a line has 4 for the driver and 8 for each "
     "follower, parted by tabs"),
    ("1\t2\tx\t4\t\n" + log([ROW, (33, 1, 2, 3)]), 'bad.log:1: column 3: "x" is no number'),
    (log([ROW, (33, 1, 2, 3)], [ROW, (33, 4711, 4712, 3)]).replace("4711", "4s", 1),
     'bad.log:2: column 6: "4s" is no number'),
    (log([ROW, (33, 1, 2, 7)]), "bad.log:1: column 11: 7 is no status of a follower, 1 to 4"),
    (log([ROW, (33, 1, 2, 3), (33, 1, 2, 3)]), "bad.log:1: column 13: node 33 stands twice"),
    (log([ROW, (33, 1, 2, 3)], [ROW, (44, 1, 2, 3)]),
     "bad.log:2: node 44 is not in small.json: both have to be recorded of the same graph"),
    (log([ROW]), "bad.log: no line has a follower"),
    (log([ROW, (33, 1, 2, 1)]), "bad.log:1: left out: source was not awake\n"
     "TOOL: covers: cycles 0 of 1, followers 1 of 1, driver's order known in 0 of 0\n"
     "TOOL: bad.log: no cycle of the log is whole"),
    ("1\t2\t3\t4\t\u00e9\n", "bad.log: this is no log of pw-profiler: byte 8 is no ASCII"),
]

# Words of `formats` beside players.json, and the sentence.
WORDS = [
    ("nobody", 'no node and no port is called "nobody"'),
    ("4711", "no node and no port has the id 4711"),
    ("sinkA:EnumFormat.1",
     'node "sinkA" (id 16) has 1 parameters EnumFormat: there is no number 1'),
    ("sinkB:Format", 'node "sinkB" (id 17) has no Format'),
    ("sinkA:nothing", 'no node and no port is called "sinkA:nothing"'),
]

# A format in pw-dump's JSON, and the sentence.
FORMATS = [
    ({"mediaType": "smell"}, 'mediaType: "smell" is no name of SPA\'s for it'),
    ({"mediaType": "audio", "mediaSubtype": "raw", "size": {"width": 1, "height": 2}},
     '"size" is no key of a format of audio'),
    ({"rate": "fast"}, 'rate: "fast" is no Int'),
    ({"rate": 2147483648}, 'rate: "2147483648" is no Int'),
    ({"rate": {"default": 1, "max": 2}},
     'rate: "default", "max" are the values of no choice'),
    ({"format": {"default": "S16LE", "alt1": ["S16LE"]}},
     'format: "[\'S16LE\']" is no name of SPA\'s for it'),
    (7, "this is no object"),
]


def refused(asking, what, answer, tool, sentence):
    sentence = sentence.replace("TOOL", tool)
    asking.same(what, (1, "", f"{tool}: {sentence}\n"), answer.whole())


def dumps_are_refused(asking):
    for text, sentence in DUMPS:
        name = asking.store("bad.json", text)
        asking.store("good.log", log([ROW, (33, 1, 2, 3)]))
        for tool, words in [("graph", [name]), ("graph", [name, "good.log"]),
                            ("trace", [name, "good.log"]), ("formats", [name, "sink"])]:
            refused(asking, f"{tool} {sentence}", asking.tool(tool, *words), tool, sentence)


def logs_are_refused(asking):
    asking.store("small.json", small().text())
    for text, sentence in LOGS:
        asking.store("bad.log", text)
        for tool in ("graph", "trace"):
            refused(asking, f"{tool} {sentence}", asking.tool(tool, "small.json", "bad.log"),
                    tool, sentence)


def files_that_are_not_there(asking):
    asking.store("small.json", small().text())
    for tool, words, sentence in [
            ("graph", ["no.json"], "no.json: No such file or directory"),
            ("trace", ["small.json", "no.log"], "no.log: No such file or directory"),
            ("trace", ["small.json"],
             "the words are DUMP.json PROFILER.log, with --late, --driver ID, --script SCRIPT or "
             "without them"),
            ("graph", ["small.json", "--late"], "the words are DUMP.json, or DUMP.json "
             "PROFILER.log with --late, --driver ID or without them"),
            ("why", ["small.json"], "the words are DUMP.json PROFILER.log, with --driver ID, "
             "--perfetto OUT.json or --picture LINE or without them"),
            ("trace", ["small.json", "no.log", "--driver", "x"], "the words are DUMP.json "
             "PROFILER.log, with --late, --driver ID, --script SCRIPT or without them"),
            ("formats", ["small.json"], "the words are DUMP.json NODE, or DUMP.json NODE NODE")]:
        refused(asking, f"{tool} {words}", asking.tool(tool, *words), tool, sentence)


def formats_are_refused(asking):
    dump, _ = recording("players")
    for word, sentence in WORDS:
        refused(asking, word, asking.tool("formats", dump, word), "formats", f"{dump}: {sentence}")
    twins = MadeUp()
    twins.node("twin", outputs=1)
    twins.node("twin", outputs=1)
    name = asking.store("twins.json", twins.text())
    refused(asking, "twins", asking.tool("formats", name, "twin"), "formats",
            'twins.json: "twin" names more than one: say one of the ids 31 33')
    for format, sentence in FORMATS:
        text = replaced(small(), 0, "params", {"EnumFormat": [format]})
        between = ": " if sentence[0] == '"' or format == 7 else ", "
        refused(asking, sentence, asking.tool("formats", asking.store("bad.json", text), "sink"),
                "formats", f'bad.json: node "sink" (id 31), EnumFormat.0{between}{sentence}')


TESTS = [dumps_are_refused, logs_are_refused, files_that_are_not_there, formats_are_refused]
