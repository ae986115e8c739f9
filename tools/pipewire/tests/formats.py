"""Formats of the recordings become PODs, and `filter` says what two have in common."""
from tests.asking import recording

# players.json: the EnumFormat of sinkA, by hand from spa/param/format.h and spa/param/audio/raw.h.
SINK = """object 262147 3 6
  prop 1 0
    id 1
  prop 2 0
    id 1
  prop 65537 0
    choice enum 0 3 3
      id 518
      id 518
      id 283
  prop 65539 0
    choice range 0 4 3
      int 48000
      int 1
      int 2147483647
  prop 65540 0
    int 2
  prop 65541 0
    array 3 2
      id 3
      id 4
"""

# A node or port of a recording, another, and what `filter` prints of their formats. The player has
# S16LE and the sink F32P and F32LE: both have an adapter, whose ports carry the DSP format. The
# raw format of a node and the DSP format of a port part at the media subtype, key 2.
FILTERS = [("players", "sinkA", "sinkB", "common\n"),
           ("players", "sinkA", "first", "clash 65537\n"),
           ("players", "first:output_FL", "sinkA:playback_FL", "common\n"),
           ("players", "first", "first:output_FL", "clash 2\n"),
           ("loopbacks", "first.in", "sinkA", "common\n"),
           ("filter", "low_pass", "sinkA:Format", "common\n"),
           ("players", "sinkA:EnumFormat.0", "sinkA:Format", "common\n")]


def a_text_is_worked_out(asking):
    """One text, line by line, and what is left of the choices in a Format."""
    dump, _ = recording("players")
    asking.same("text of sinkA", (0, SINK, ""), asking.tool("formats", dump, "sinkA").whole())
    asking.same("text of sinkA by id", SINK, asking.tool("formats", dump, "16").text)
    lines = asking.tool("formats", dump, "sinkA:Format").text.splitlines()
    asking.same("Format of sinkA", ["object 262147 4 6", "    id 518", "    int 48000"],
                [lines[0], lines[6], lines[8]])


def texts_are_dumps(asking):
    """Each text becomes a POD, whose dump is the text."""
    for scene in ("players", "loopbacks", "filter", "tap", "busy"):
        dump, _ = recording(scene)
        for word in ("16", "16:Format", "23", "23:Format", "32", "32:Format", "33"):
            text = asking.tool("formats", dump, word)
            if text.status:
                asking.same(f"{scene} {word}: refused", True, "has no" in text.errors)
                continue
            made = asking.program("pipegraph-pods", "pod", "-", "it.pod", text=text.text)
            asking.same(f"{scene} {word}: POD", (0, "", ""), made.whole())
            asking.same(f"{scene} {word}: dump", text.text,
                        asking.program("pipegraph", "dump", "it.pod").text)


def filters_say(asking):
    """What two nodes or ports have in common, by two files of texts."""
    for scene, one, other, wanted in FILTERS:
        dump, _ = recording(scene)
        put = asking.tool("formats", dump, one, other)
        names = put.text.split()
        asking.same(f"{scene} {one} {other}: files", (0, 2), (put.status, len(names)))
        for side, name in zip("ab", names):
            asking.program("pipegraph-pods", "pod", name, f"{side}.pod")
        asking.same(f"{scene} {one} {other}: filter", wanted,
                    asking.program("pipegraph", "filter", "a.pod", "b.pod", "c.pod").text)


TESTS = [a_text_is_worked_out, texts_are_dumps, filters_say]
