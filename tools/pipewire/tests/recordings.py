"""The recordings of real daemons: their scripts run, their cycles are legal, the late one is not.

Each expected line was worked out by hand from the columns of a log or from `pw-link -l`.
"""
import json

from tests.asking import commands, recording

SCENES = ["players", "loopbacks", "filter", "drivers", "async", "monitor", "dummy", "late",
          "tap", "leftover", "busy", "mono_chain", "surround", "rate44", "echo", "late_chain",
          "forced", "combine", "monitor_chain", "v14_late_chain"]

# Cycles: the lines of the log without those in which a status of a follower is not 3, and without
# line 17 of leftover.log, in which the recorder's wake is 0.
CYCLES = {"players": 100, "loopbacks": 100, "filter": 100, "drivers": 100, "async": 100,
          "monitor": 100, "dummy": 100, "late": 84, "tap": 86, "leftover": 37,
          "busy": 82, "mono_chain": 100, "surround": 100, "rate44": 100, "echo": 100,
          "late_chain": 85, "forced": 83, "combine": 100, "monitor_chain": 100,
          "v14_late_chain": 84}

# players.json: pw-link -l shows each player's two ports on sinkA's two.
PLAYERS = """quantum 1024
sink sinka sinka.wav
sink sinkb sinkb.wav
off sinkb
square first 48000 2 100 2000
loop first 1
square second 48000 2 120 2000
loop second 2
square third 48000 2 140 2000
loop third 3
driver sinka 0
driver sinkb 0
link first.out sinka.in
link second.out sinka.in
link third.out sinka.in
cycles 100
"""

# loopbacks.json: through > first > second > sinkA < beside.
LOOPBACKS = """link through.out first.in
link beside.out sinka.in
link first.out second.in
link second.out sinka.in
"""

# loopbacks.log, line 1, as awake and finish: 54 through 42 64, 60 beside 120 137,
# first: 44 awake 183, 43 finish 216; second: 33 awake 235, 32 finish 265; driver 278.
FIRST_CYCLE = """begin 0
start 0 through
finish 0 through
start 0 beside
finish 0 beside
start 0 first
finish 0 first
start 0 second
finish 0 second
start 0 sinka
finish 0 sinka
end 0
"""

# busy.log, line 73: 40 awake 42, 32 1450 1486, 39 finish 5022, 41 33997 45985, driver 53047,
# period 42666. Of the lines before it 9, 10, 70 and 71 are no whole cycles, so it is cycle 68.
BUSY_CYCLE = """begin 68
start 68 pw_loopback_28977
start 68 pw_cat_32
finish 68 pw_cat_32
finish 68 pw_loopback_28977
start 68 pw_cat_41
tick 68 pw_cat_41
finish 68 pw_cat_41
start 68 sinka
finish 68 sinka
end 68
"""

# late.log: lines 1 to 19 are whole, with ten events each (three players, the sink, begin and end):
# 190. Line 20 is of the cycle of line 21. There `stopped` is not awake: begin, first 23 44 and
# third 90 105 make 195, the tick is 196, and the driver's start cannot be there: 197.
FIRST_ILLEGAL = 197

# tap.log: lines 1 to 20 are whole, with eight events each: 160. In line 22 `recorder` is not awake:
# begin, player 20 38 make 163, the tick is 164, and the driver's start cannot be there: 165.
FIRST_ILLEGAL_OF_TAP = 165

# leftover.log: lines 1 to 14 are whole, with eight events each: 112. In line 16 the recorder is
# awake at 92 and does not finish: begin, player 22 48 and that start make 116, the tick is 117, the
# driver's start 118.
FIRST_ILLEGAL_OF_LEFTOVER = 118

# busy.log: lines 1 to 8 are whole, with ten events each: 80. In line 10 pw_cat_32 is not awake:
# begin, the loopback 47 87 and pw_cat_41 504 539 make 85, the tick is 86, the driver's start 87.
FIRST_ILLEGAL_OF_BUSY = 87


def scripts_run(asking):
    """Each recording's script is accepted, none of its links is refused, and it makes sound."""
    for scene in SCENES:
        dump, log = recording(scene)
        for words in ([dump], [dump, log], [dump, log, "--late"]):
            made = asking.tool("graph", *words)
            name = asking.store(f"{scene}.graph", made.text)
            asking.same(f"{scene}: status of graph", 0, made.status)
            links = sum(line.startswith("link ") for line in commands(made.text))
            for command in ("run", "groups"):
                done = asking.program("pipegraph", command, name)
                kinds = [line.split()[0] for line in done.text.splitlines()]
                asking.same(f"{scene}: {command}", (0, links, 0, True),
                            (done.status, kinds.count("link"), kinds.count("nolink"),
                             "wrote" in kinds))
            drawn = asking.program("pipegraph-pictures", "graph", name)
            asking.same(f"{scene}: picture", (0, True), (drawn.status, "digraph" in drawn.text))


def scripts_say(asking):
    """What two scripts say, line by line."""
    dump, log = recording("players")
    asking.same("players: script", PLAYERS.splitlines(),
                commands(asking.tool("graph", dump).text))
    dump, log = recording("loopbacks")
    links = [line for line in commands(asking.tool("graph", dump, log).text)
             if line.startswith("link ")]
    asking.same("loopbacks: links", LOOPBACKS.splitlines(), links)


def written(asking, scene, *late):
    """The script and the trace of a recording, stored."""
    dump, log = recording(scene)
    script, trace = asking.tool("graph", dump, log, *late), asking.tool("trace", dump, log, *late)
    asking.same(f"{scene}: statuses", (0, 0), (script.status, trace.status))
    return asking.store(f"{scene}.graph", script.text), asking.store(f"{scene}.trace", trace.text)


def plain_cycles_are_legal(asking):
    """Without the cycles in which a follower did not finish every recording is legal."""
    for scene in SCENES:
        script, trace = written(asking, scene)
        text = (asking.folder / trace).read_text()
        asking.same(f"{scene}: cycles", CYCLES[scene], text.count("begin "))
        asking.same(f"{scene}: verdict", "legal\n",
                    asking.program("pipegraph", "check", script, trace).text)
        drawn = asking.program("pipegraph-pictures", "timeline", script, trace)
        asking.same(f"{scene}: timeline", (0, True), (drawn.status, "<svg" in drawn.text))


def events_say(asking):
    """Two cycles, event by event."""
    _, trace = written(asking, "loopbacks")
    asking.same("loopbacks: first cycle", FIRST_CYCLE,
                "".join((asking.folder / trace).read_text().partition("end 0\n")[:2]))
    _, trace = written(asking, "busy")
    lines = (asking.folder / trace).read_text().splitlines(True)
    asking.same("busy: cycle 68", BUSY_CYCLE,
                "".join(line for line in lines if line.split()[1] == "68"))


def late_cycles_are_illegal(asking):
    """With those cycles the driver's start is illegal: it waits for who was late."""
    for scene, first in [("late", FIRST_ILLEGAL), ("tap", FIRST_ILLEGAL_OF_TAP),
                         ("leftover", FIRST_ILLEGAL_OF_LEFTOVER),
                         ("busy", FIRST_ILLEGAL_OF_BUSY)]:
        script, trace = written(asking, scene, "--late")
        asking.same(f"{scene} --late: verdict", f"illegal {first}\n",
                    asking.program("pipegraph", "check", script, trace).text)


def culprits_are_named(asking):
    """Of a chain that waited the one that was triggered and never awake is named; a verdict says
    what it covers. In late_chain.log these lines have status 1 of node 44, `a.in`, and no other."""
    dump, log = recording("late_chain")
    done = asking.tool("why", dump, log)
    bad = [line for line in done.text.splitlines() if line.startswith(f"{log}:")]
    asking.same("late_chain: why", [
        f'{log}:{line}: "a.in" (id 44): triggered at {at}, never awake; waited: "a.out" (id 43), '
        '"b.in" (id 33), "b.out" (id 32), "sinkA" (id 16)'
        for line, at in [(22, 87), (24, 93), (26, 112), (49, 98), (51, 89), (75, 79), (77, 67)]],
        bad)
    asking.same("late_chain: the table's line of a.in",
                ['"a.in" (id 44)\t85\t7\t0\t0\t17433\t4278'],
                [line for line in done.text.splitlines() if line.startswith('"a.in"')])
    asking.same("late_chain: covers",
                "covers: cycles 85 of 92, followers 5 of 5, driver's order known in 83 of 85",
                asking.tool("trace", dump, log).errors.splitlines()[-1].removeprefix("trace: "))


# Lines of a log in which a status is 1 or 2, without those of which the next line is the same cycle;
# of these the ones that the next line's first column is under half a period after are the driver's,
# and a follower's are those whose second column is three quarters of a period or more and whose
# first is more than half of one. leftover: line 16, 106 after. forced: lines 21 23 47 49 72 74 98;
# 50 began 37 after the line before it, and 100 150. busy: a follower's are 78 98 116 120; the
# statuses of 76 79 82 118 122 are of an earlier time, and 114 began 33 after 112.
XRUNS = {"late": (8, 8, 0, 0), "tap": (7, 7, 0, 0), "leftover": (1, 0, 1, 0),
         "forced": (9, 0, 7, 2), "busy": (24, 4, 14, 6), "players": (0, 0, 0, 0)}


def xruns_are_summed(asking):
    """Whose each xrun was, and where check and the statuses differ: in line 17 of leftover.log the
    recorder is at the work of the cycle before, with status 3."""
    for scene, (all, followers, driver, undecided) in XRUNS.items():
        dump, log = recording(scene)
        lines = asking.tool("why", dump, log).text.splitlines()
        asking.same(f"{scene}: xruns", f"xruns: {all}, by followers {followers}, by the driver "
                    f"{driver}, not decided {undecided}",
                    next((line for line in lines if line.startswith("xruns: ")), None))
        differs = [f"{log}:17: differs: check does not allow it, and no follower was late by its "
                   "status"] if scene == "leftover" else []
        asking.same(f"{scene}: check and statuses", differs, lines[lines.index("verdict: legal") + 2:])


def graphs_that_change(asking):
    """join: node 39 is in lines 62 to 100 and not in the dump. leave: node 38 is in lines 1 to 59.
    many: a script has 63 nodes, of which one is the driver; the log has 64 followers of 70. feedback: in
    each of the 50 cycles the driver had not finished when the next one began, and the
    loopbacks, of which each waits for the other, are in no line."""
    for scene, lines in [
            ("join", ["{log}:62: left out: node 39 is not in {dump}, so this line and 38 more are of "
                      "another graph", "verdict: legal", "covers: cycles 61 of 100, followers 1 of 1, "
                      "driver's order known in 61 of 61"]),
            ("leave", ["verdict: legal", "covers: cycles 59 of 100, followers 2 of 2, driver's order "
                       "known in 58 of 59", '{log}: "leaving" (id 38) is in no line but 1 to 59']),
            ("many", ["xruns: 0, by followers 0, by the driver 0, not decided 0", "verdict: legal",
                      "covers: cycles 20 of 20, followers 62 of 64, driver's order known in 20 of 20"]),
            ("feedback", ['left out: links 62 63 from "two.in" (id 44) and "two.out" (id 43) to "one.in" '
                          '(id 33) and "one.out" (id 32): it closes a loop, and none of the nodes is '
                          "async", "covers: cycles 0 of 50, followers 1 of 1, driver's order known in 0 "
                          "of 0", "no verdict: {log}: no cycle of the log is whole"])]:
        dump, log = recording(scene)
        done = asking.tool("why", dump, log)
        asking.same(f"{scene}: why", (0, [line.format(dump=dump, log=log) for line in lines]),
                    (done.status, done.text.splitlines()[-3:]))
        bad = sum(": not decided by these columns: the driver had not finished" in line
                  for line in done.text.splitlines())
        asking.same(f"{scene}: xruns", 50 if scene == "feedback" else 0, bad)


def pictures_and_files(asking):
    """A picture of the cycle of a line; all cycles for Perfetto, the culprit marked; both texts of one
    reading; what a full disk leaves."""
    dump, log = recording("late")
    done = asking.tool("why", dump, log, "--picture", 21)
    asking.same("late: --picture", (0, True, True), (done.status, "<svg" in done.text, "stopped" in done.text))
    done = asking.tool("why", dump, log, "--picture", 20)
    asking.same("late: --picture of another", (1, "", f"why: {log}: 20 is no line that is a cycle of its "
                                               "own\n"), done.whole())
    asking.tool("why", dump, log, "--perfetto", "p.json")
    events = json.loads((asking.folder / "p.json").read_text())["traceEvents"]
    marks = [event["args"]["line"] for event in events if event["name"] == "xrun"]
    asking.same("late: marks", [21, 23, 47, 49, 72, 74, 98, 100], marks)
    done = asking.tool("trace", dump, log, "--script", "one.graph")
    asking.same("late: --script", ((asking.folder / "one.graph").read_text(), 0),
                (asking.tool("graph", dump, log).text, done.status))
    for tool, words in [("why", ["--perfetto", "/dev/full"]), ("trace", ["--script", "/dev/full"])]:
        done = asking.tool(tool, dump, log, *words)
        asking.same(f"{tool}: a full disk", (1, "", f"{tool}: /dev/full: No space left on device\n"),
                    (done.status, done.text, done.errors.splitlines(True)[-1]))


def left_out_by_name(asking):
    """What is left out is reported by name."""
    dump, log = recording("monitor")
    told = asking.tool("graph", dump, log).errors
    asking.same("monitor: graph tells", [
        'graph: left out: "Dummy-Driver" (id 15): it has no audio port',
        'graph: left out: links 48 49 from "sinkA" (id 16) to "copy.in" (id 39) and "copy.out" '
        '(id 38): the driver ends the cycle, so its output comes after it',
        'graph: note: "sinkB" (id 17) is written with a link to "sinkA" (id 16), which waits for '
        'all its followers'], told.splitlines())
    asking.same("monitor: trace tells", [
        "trace: covers: cycles 100 of 100, followers 4 of 4, driver's order known in 100 of 100"],
        asking.tool("trace", dump, log).errors.splitlines())
    dump, log = recording("late")
    told = asking.tool("trace", dump, log).errors.splitlines()
    asking.same("late: trace tells", [
        f"trace: {log}:20: left out: written when the next cycle began; the next line is of the "
        "same cycle",
        f"trace: {log}:21: left out: stopped was not awake"], told[:2])
    dump, log = recording("leftover")
    told = asking.tool("trace", dump, log).errors.splitlines()
    asking.same("leftover: trace tells", [
        f"trace: {log}:15: left out: written when the next cycle began; the next line is of the "
        "same cycle",
        f"trace: {log}:16: left out: recorder had not finished",
        f"trace: {log}:17: left out: recorder was at work since before the cycle",
        "trace: covers: cycles 37 of 39, followers 2 of 2, driver's order known in 37 of 37"], told)


TESTS = [scripts_run, scripts_say, plain_cycles_are_legal, events_say, late_cycles_are_illegal,
         culprits_are_named, xruns_are_summed, graphs_that_change,
         pictures_and_files, left_out_by_name]
