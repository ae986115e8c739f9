"""Cycles of made-up logs: equal times, late followers, lines that tell a cycle twice."""
from tests.made_up import MadeUp, log

PERIOD = 21333


def chain(asking, rows, *late):
    """A source through a filter into a sink that drives: what `trace` and `check` say."""
    dump = MadeUp()
    sink = dump.node("sink", inputs=1, node_driver=True)
    last = dump.node("last", inputs=1, outputs=1)
    first = dump.node("first", outputs=1)
    dump.link(first, last)
    dump.link(last, sink)
    ids = {"first": first[0], "last": last[0]}
    text = log(*[[driver] + [(ids[name], *turn) for name, *turn in followers]
                 for driver, *followers in rows])
    files = asking.store("chain.json", dump.text()), asking.store("chain.log", text)
    script, trace = (asking.tool(tool, *files, *late) for tool in ("graph", "trace"))
    verdict = asking.program("pipegraph", "check", asking.store("chain.graph", script.text),
                             asking.store("chain.trace", trace.text)).text
    events = [" ".join(line.split()[:1] + line.split()[2:]) for line in trace.text.splitlines()]
    return events, verdict, trace.errors.splitlines()


def covers(written, logged):
    """The line of what a verdict covers: both followers, and each driver's order."""
    return [f"trace: covers: cycles {written} of {logged}, followers 2 of 2, driver's order known in "
            f"{written} of {written}"]


LEGAL = ["begin", "start first", "finish first", "start last", "finish last", "start sink",
         "finish sink", "end"]


def equal_times_follow_the_links(asking):
    """What has one microsecond in the log is ordered by what waits for what."""
    events, verdict, _ = chain(asking, [[(PERIOD, 50, 0, PERIOD), ("last", 50, 50, 3),
                                         ("first", 50, 50, 3)]])
    asking.same("equal times", (LEGAL, "legal\n"), (events, verdict))


def times_decide_against_the_links(asking):
    """A start that is a microsecond before what it waits for is written so, and is illegal."""
    events, verdict, _ = chain(asking, [[(PERIOD, 90, 0, PERIOD), ("first", 10, 40, 3),
                                         ("last", 39, 60, 3)]])
    asking.same("one microsecond", (["begin", "start first", "start last", "finish first"],
                                    "illegal 3\n"), (events[:4], verdict))
    events, verdict, _ = chain(asking, [[(PERIOD, 55, 0, PERIOD), ("first", 10, 40, 3),
                                         ("last", 45, 60, 3)]])
    asking.same("the driver before a follower", (["start last", "start sink", "finish sink",
                                                  "finish last"], "illegal 5\n"),
                (events[3:7], verdict))


def late_followers_are_ticked(asking):
    """Who finishes after the period is late, where the driver waited; two may be."""
    events, verdict, _ = chain(asking, [[(PERIOD, 21500, 0, PERIOD), ("first", 10, 21400, 3),
                                         ("last", 21410, 21420, 3)]])
    asking.same("late", (["begin", "start first", "tick last first", "finish first"], "legal\n"),
                (events[:4], verdict))


def unfinished_cycles_are_left_out(asking):
    """With and without --late; the line before such a cycle's own counts from a cycle before."""
    rows = [[(PERIOD, 60, 0, PERIOD), ("first", 10, 20, 3), ("last", 30, 40, 3)],
            [(0, 21333, 0, PERIOD), ("first", 21343, 21353, 3), ("last", 21353, 40, 1)],
            [(PERIOD, 21390, 0, PERIOD), ("first", 10, 20, 3), ("last", 20, 0, 1)],
            [(PERIOD, 60, 0, PERIOD), ("first", 10, 20, 3), ("last", 30, 40, 3)],
            [(PERIOD, 60, 0, PERIOD), ("first", 10, 20, 3), ("last", 30, 40, 3)]]
    told = ["trace: chain.log:2: left out: written when the next cycle began; the next line is of "
            "the same cycle"]
    again = ["trace: chain.log:5: left out: the line before it again"]
    events, verdict, errors = chain(asking, rows)
    asking.same("unfinished", (LEGAL * 2, "legal\n"), (events, verdict))
    asking.same("unfinished: told", told + ["trace: chain.log:3: left out: last was not awake"]
                + again + covers(2, 3), errors)
    events, verdict, errors = chain(asking, rows, "--late")
    asking.same("unfinished --late", (LEGAL + LEGAL[:3] + ["tick last", "start sink", "finish sink",
                                                           "end"] + LEGAL, "illegal 13\n"),
                (events, verdict))
    asking.same("unfinished --late: told", told + ["trace: chain.log:3: cycle 1: last was not "
                                                   "awake"] + again + covers(3, 3), errors)


def work_of_a_cycle_before_is_told(asking):
    """A wake of 0 was before the driver's signal: the finish is of a cycle before."""
    rows = [[(PERIOD, 60, 0, PERIOD), ("first", 10, 20, 3), ("last", 30, 40, 3)],
            [(PERIOD, 28, 0, PERIOD), ("first", 4, 8, 3), ("last", 0, 9, 3)]]
    events, verdict, errors = chain(asking, rows)
    why = "last was at work since before the cycle"
    asking.same("before", (LEGAL, "legal\n", [f"trace: chain.log:2: left out: {why}"] + covers(1, 2)),
                (events, verdict, errors))
    events, verdict, errors = chain(asking, rows, "--late")
    asking.same("before --late", (["begin", "start last", "start first", "finish first"],
                                  "illegal 10\n", [f"trace: chain.log:2: cycle 1: {why}"]
                                  + covers(2, 2)),
                (events[8:12], verdict, errors))


def cut_times_put_the_driver_last(asking):
    """pw-profiler cuts the driver's times to 1.4 periods where they are long."""
    cut = int(PERIOD * 1.4)
    events, verdict, _ = chain(asking, [[(cut, cut, 0, PERIOD), ("first", 10, 30000, 3),
                                         ("last", 30010, 30020, 3)]])
    asking.same("cut", (["begin", "start first", "tick last first", "finish first", "start last",
                         "finish last", "start sink", "finish sink", "end"], "legal\n"),
                (events, verdict))


TESTS = [equal_times_follow_the_links, times_decide_against_the_links, late_followers_are_ticked,
         unfinished_cycles_are_left_out, work_of_a_cycle_before_is_told,
         cut_times_put_the_driver_last]
