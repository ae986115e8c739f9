"""Notes on what was accepted, only by standard error; and what pipegraph-pictures draws of them."""
import html
import os
import re

from asking import PICTURES, PODS
from messages import told
from worked import choice, number, thing, wav

START = """quantum 4
square a 48000 1 4 9
square b 44100 1 4 9
square c 48000 2 4 9
sink o o.wav
gain g 256
gain h 256
"""
CHANGES = "no node changes a rate, but sox IN -r RATE OUT does"
LATE = "it would close a loop, which only a link of an async node may"

# Lines after START, what is put of their links, and what is noted of each at its line from 8 on.
LINKS = [
    ("link a.out o.in\n", "link a.out o.in 48000 1 2\n", []),
    ("link a.out o.in\nlink b.out o.in\n",
     "link a.out o.in 48000 1 2\nnolink b.out o.in 65539\n",
     [(9, '"b.out" to "o.in" is no link: no common rate (key 65539): 44100 and 48000; '
      + CHANGES)]),
    ("link a.out o.in\nlink c.out o.in\n",
     "link a.out o.in 48000 1 2\nnolink c.out o.in 65540\n",
     [(9, '"c.out" to "o.in" is no link: no common channels (key 65540): '
      '2 and 1; map NAME 1 0,0 makes two channels of one')]),
    ("buffers a out 2\nbuffers o in 3\nlink a.out o.in\n", "nolink a.out o.in buffers\n",
     [(10, '"a.out" to "o.in" is no link: no number of buffers suits both ports'),
      (5, '"o" had no format at the end, so it does not write "o.wav"')]),
    ("link a.out o.in\n# a comment\nlink a.out o.in\nunlink b.out o.in\nlink a.out o.in\n",
     "link a.out o.in 48000 1 2\nnolink a.out o.in twice\nnounlink b.out o.in\n"
     "nolink a.out o.in twice\n",
     [(10, '"a.out" to "o.in" is no link: it is there already'),
      (12, '"a.out" to "o.in" is no link: it is there already')]),
    ("link a.out o.in\nlink a.out g.in\nlink g.out h.in\nlink h.out g.in\nlink g.out g.in\n",
     "link a.out o.in 48000 1 2\nlink a.out g.in 48000 1 2\nlink g.out h.in 48000 1 2\n"
     "nolink h.out g.in loop\nnolink g.out g.in loop\n",
     [(11, f'"h.out" to "g.in" is no link: {LATE}'),
      (12, '"g.out" to "g.in" is no link: a node is not linked to itself')]),
    ("link a.out o.in\nmix2 m 1 1\nmix2 n 1 1\nlink a.out m.a\nlink m.out n.b\n",
     "link a.out o.in 48000 1 2\nlink a.out m.a 48000 1 2\nlink m.out n.b 48000 1 2\n",
     [(9, '"m" mixes in silence: no line links anything to its input b'),
      (10, '"n" mixes in silence: no line links anything to its input a')]),
    ("link a.out o.in\nmeter m\nsink p p.wav\nsink q o.wav\nlink a.out q.in\n",
     "link a.out o.in 48000 1 2\nlink a.out q.in 48000 1 2\n",
     [(5, '"o.wav" is written by a later sink too; a regular file keeps what is written last'),
      (9, '"m" had no format at the end, so it has no peak; no link line names "m"'),
      (10, '"p" had no format at the end, so it does not write "p.wav"; no link line names "p"')])]

# Lines after START, and below the cause of each refused link what both sides admit; nothing where no
# key is the cause.
SIDES = [
    ("link a.out o.in\nlink b.out o.in\nlink c.out o.in\n", ["44100 and 48000", "2 and 1"]),
    ("offer o in rates.pod\nlink a.out o.in\nlink b.out o.in\n", ["48000 and 8000 or 32000 or 44100"]),
    ("link a.out o.in\nlink a.out o.in\nlink g.out g.in\n", ["", ""]),
    ("link a.out o.in\nlink a.out g.in\n", [])]

EMPTY = "has no frames, so what it writes to"
NEVER = "it was active in no cycle since it got its format"
NO_CYCLE = ("no cycle was run: drain goes on only while an active source has frames left, "
            "cycles N in any case")
LEFT = '; in the last cycle "m" drove, and no links of nodes that were on joined the two'
GROUPS = "; where no line links the two, groups gives each a driver"
PAIR = "square a 48000 1 4 9\nsink o o.wav\nlink a.out o.in\n"

# Scripts, what is put of their sinks and meters, and what is noted at which line.
SINKS = [
    (PAIR + "meter m\nlink a.out m.in\n", "wrote o 0\npeak m 0\n",
     [(2, f'"o" {EMPTY} "o.wav" is an empty WAV file: '
      "the script has no cycles line and no drain line"),
      (4, '"m" got no frames, so its peak is 0: the script has no cycles line and no drain line')]),
    (PAIR + "drain\n", "wrote o 0\n",
     [(2, f'"o" {EMPTY} "o.wav" is an empty WAV file: {NO_CYCLE}')]),
    (PAIR + "meter m\nlink a.out m.in\ndrain\n", "wrote o 0\npeak m 0\n",
     [(2, f'"o" {EMPTY} "o.wav" is an empty WAV file: {NO_CYCLE}'),
      (4, f'"m" got no frames, so its peak is 0: {NO_CYCLE}')]),
    ("quantum 4\n" + PAIR + "meter m\ndriver m 1\ncycles 2\nlink a.out m.in\ncycles 1\n",
     "wrote o 4\npeak m 9\n", []),
    ("quantum 4\n" + PAIR + "meter m\ndriver m 1\ncycles 2\nlink a.out m.in\n",
     "wrote o 0\npeak m 0\n",
     [(3, f'"o" {EMPTY} "o.wav" is an empty WAV file: {NEVER}{LEFT}{GROUPS}')]),
    ("quantum 4\nsource s in.wav\nsink o in.wav\nsink p in.wav\nlink s.out p.in\ncycles 1\n",
     "unused o\nwrote p 4\n",
     [(3, '"o" had no format at the end, so it does not write "in.wav", which another sink writes; '
      'no link line names "o"'),
      (4, '"in.wav" is a source\'s file too: it was read first, and written after that')]),
    ("quantum 4\nsquare a 48000 1 2 32767\nsquare b 48000 1 4 32766\nsink o o.wav\nsink p p.wav\ngain g 257\n"
     "link a.out o.in\nlink b.out g.in\nlink g.out p.in\ncycles 1\n", "wrote o 4\nwrote p 4\n",
     [(4, '"o" has 2 samples at the limit of 16 bits'), (5, '"p" has 4 samples at the limit of 16 bits')]),
    ("quantum 2\nsquare a 48000 1 2 32767\nsink o o.wav\nlink a.out o.in\ncycles 1\n", "wrote o 2\n",
     [(3, '"o" has 1 sample at the limit of 16 bits')])]


def sinks(place):
    """Notes on sinks and meters without frames, on files of sinks, and on samples at a limit."""
    for script, text, notes in SINKS:
        place.file("some.graph", script)
        place.file("in.wav", wav([1, 2, 3]))
        said = "".join(f"pipegraph: some.graph:{n}: {note}\n" for n, note in notes)
        status, out, errors = told(place, ["run", "some.graph"])
        place.same(script, (0, True, said), (status, out.endswith(text.encode()), errors.decode()))


def links(place):
    """Notes on links, sinks and meters of an accepted run."""
    for lines, text, notes in LINKS:
        place.file("some.graph", START + lines + "cycles 2\n")
        said = "".join(f"pipegraph: some.graph:{n}: {note}\n" for n, note in notes)
        status, out, errors = told(place, ["run", "some.graph"])
        place.same(lines, (0, True, said), (status, out.startswith(text.encode()), errors.decode()))
        status, traced, errors = told(place, ["run", "some.graph", "--trace", "--loops", "2"])
        place.same(f"traced: {lines}", (0, True, said),
                   (status, traced.startswith(text.encode() + b"begin 0\n"), errors.decode()))
        for how in ["/dev/full", os.devnull]:
            with open(how, "wb") as to:
                place.same(f"{lines} to {how}", (0, out),
                           told(place, ["run", "some.graph"], errors_to=to)[:2])
        place.same(f"{lines} without one", (0, out),
                   told(place, ["run", "some.graph"], closed=[2])[:2])


def drawn(place):
    """What pipegraph-pictures reads of the notes of a run, as pipegraph writes them."""
    for name in ["some.graph", "odd\x1b\\ .graph"]:
        told(place, ["format", "rates.pod", "rate", "8000|32000|44100", "channels", "1..2"], of=PODS)
        for lines, sides in SIDES:
            place.file(name, START + lines + "cycles 2\n")
            _, text, errors = told(place, ["run", name])
            place.file("some.text", text)
            place.file("some.notes", errors)
            graph = ["graph", name, "some.text"]
            _, bare, _ = told(place, graph, of=PICTURES)
            status, dot, _ = told(place, [*graph, "some.notes"], of=PICTURES)
            labels = re.findall(r"label=<line \d+: .*?(?:<BR/>(.*?))?>, color", dot.decode())
            place.same(f"sides of {lines}", (0, sides), (status, [html.unescape(label) for label in labels]))
            for notes in ["", text, errors.replace(b"some", b"same").replace(b"odd", b"add"),
                          errors.replace(b"pipegraph: ", b"pipegraph:")]:
                place.file("some.notes", notes)
                place.same(f"other notes of {lines}", (0, bare),
                           told(place, [*graph, "some.notes"], of=PICTURES)[:2])


def others(place):
    """Notes on checks, filters and long texts."""
    place.file("fine.graph", "cycles 1\n")
    _, trace, _ = told(place, ["run", "fine.graph", "--trace"])
    events = trace.decode().splitlines()
    soon = "the trace ends too soon"
    open_cycle = "cycle 0 has begun and not ended"
    for lines, answer, said in [
            (events, "legal\n", ""),
            (events[:-1], "illegal 4\n", f"t.txt:4: {soon}: {open_cycle}"),
            (events[:1], "illegal 2\n",
             f't.txt:2: {soon}: cycle 0 cannot end before "dummy" has finished'),
            (events[:1] * 2, "illegal 2\n", f"t.txt:2: begin 0: {open_cycle}"),
            ([], "illegal 1\n", f"t.txt:1: {soon}: cycle 0 has not begun"),
            (["begin 1"], "illegal 1\n",
             "t.txt:1: begin 1: cycle 0 has not begun, so only begin 0 can come here"),
            (events + ["begin 1"], "illegal 5\n",
             "t.txt:5: begin 1: no event can come here: the script has no further cycle"),
            (["begin 0", "end 0"], "illegal 2\n",
             't.txt:2: end 0: cycle 0 cannot end before "dummy" has finished'),
            (["begin 0", "start 0 dummy", "start 0 dummy"], "illegal 3\n",
             't.txt:3: start 0 dummy: "dummy" has started in cycle 0 already'),
            (["begin 0", "finish 0 dummy"], "illegal 2\n",
             't.txt:2: finish 0 dummy: "dummy" has not started in cycle 0'),
            (["begin 0", "tick 0", "tick 0"], "illegal 3\n",
             "t.txt:3: tick 0: a tick has come in cycle 0 already"),
            (["begin 0", "tick 0 dummy"], "illegal 2\n",
             't.txt:2: tick 0 dummy: "dummy" cannot be late: '
             "it drives cycle 0, is not active in it, or has finished in it"),
            (events[:1] + ["start"], "line 2\n", "t.txt:2: no event line of this script's nodes; "
             "grep -E '^(begin|start|finish|tick|end) ' takes those of a run's text, "
             "and none ends with a blank or a carriage return")]:
        place.file("t.txt", "".join(line + "\n" for line in lines))
        said = f"pipegraph: {said}\n" if said else ""
        place.same(f"check {lines}", (0, answer.encode(), said.encode()),
                   told(place, ["check", "fine.graph", "t.txt"]))
    a = thing((65539, number(48000)), (7, choice(3, 1, 1)))
    for b, answer, said in [
            (a, "common\n", ""),
            (thing((65539, number(44100))), "clash 65539\n", "no common rate (key 65539)"),
            (thing((7, number(2))), "clash 7\n", "no common value (key 7)"),
            (thing(kind=0x40004), "clash type\n", "objects of different types")]:
        place.file("a.pod", a)
        place.file("b.pod", b)
        said = f"pipegraph: a.pod and b.pod: {said}\n" if said else ""
        place.same(f"filter {answer}", (0, answer.encode(), said.encode()),
                   told(place, ["filter", "a.pod", "b.pod", "o.pod"]))
    place.file("long.graph", START + "link a.out o.in\nlink a.out o.in\ncycles 60000\n")
    status, out, errors = told(place, ["run", "long.graph", "--trace", "--loops", "0"])
    said = b'pipegraph: long.graph:9: "a.out" to "o.in" is no link: it is there already\n'
    place.same("a trace of more than 4 MiB", (0, True, said),
               (status, len(out) > 4 << 20, errors))


def once(place):
    """Notes on scripts that can be read only once."""
    script = (START + "link b.out o.in\nlink a.out o.in\ncycles 1\n").encode()
    text = b"link b.out o.in 44100 1 2\nnolink a.out o.in 65539\nwrote o 4\n"
    said = (b':9: "a.out" to "o.in" is no link: no common rate (key 65539): 48000 and 44100; '
            + CHANGES.encode() + b"\n")
    place.feed("script.pipe", script)
    place.same("a named pipe", (0, text, b"pipegraph: script.pipe" + said),
               told(place, ["run", "script.pipe"]))
    place.same("standard input", (0, text, b"pipegraph: /dev/stdin" + said),
               told(place, ["run", "/dev/stdin"], given=script))
    place.file("own.graph", script.replace(b"o.wav", b"own.graph"))
    gone = (b'pipegraph: own.graph:5: "own.graph" is the script itself: '
            b"it was read first, and its text is gone now\n")
    place.same("a script that a sink overwrites", (0, text, b"pipegraph: own.graph" + said + gone),
               told(place, ["run", "own.graph"]))
    place.same("what is left of it", b"RIFF", place.read("own.graph")[:4])
