"""Rows, groups, cycles and culprits by themselves, without processes."""
from bridge.blame import BY_DRIVER, BY_FOLLOWERS, UNDECIDED, blame_of
from bridge.dump import Node, Port
from bridge.fault import Fault
from bridge.history import APART, FORCED, OLDER, Seat, is_older, late_check
from bridge.joining import Sets
from bridge.ordering import Work
from bridge.profiler import AWAKE, FINISHED, NO_TURN, TRIGGERED, Row, Turn, read_row
from bridge.steps import Step, make_steps, stream_groups

PERIOD = 21333
DSP = {"format.dsp": "32 bit float mono audio"}


def row(between, finish, line=1, **turns):
    """A row of followers n1, n2, .. by their ids."""
    return Row(line, between, finish, PERIOD, {int(key[1:]): Turn(*it) for key, it in turns.items()})


def node(id, inputs=0, outputs=0, group=None):
    ports = [Port(10 * id + at, id, at < inputs, DSP, {}) for at in range(inputs + outputs)]
    return Node(id, "running", {"node.link-group": group} if group else {}, {}, ports)


def rows_are_read(asking):
    """Eight columns a follower, blanks for one that was not triggered, the end of the line cut off."""
    blanks = " \t" * 8
    line = f"21333\t50\t0\t21333\t{blanks}33\t1\t2\t3\t1\t1\t3\t0\t{blanks}\n".encode()
    asking.same("row", Row(7, PERIOD, 50, PERIOD, {33: Turn(1, 2, 3, 3)}), read_row("x", 7, line))
    asking.same("row of a driver alone", {}, read_row("x", 7, b"1\t2\t3\t4\t\r\n").turns)
    for text, sentence in [(b"1\t2\t3\t4\t" + b"1_0\t" * 8, "column 5: \"1_0\" is no number"),
                           (b"1\t2\t3\t-4\t", "column 4: \"-4\" is no number"),
                           (b"1\t2\t3\t4 4\t", "column 4: \"4 4\" is no number"),
                           (b"1\t2\t" + b"9" * 19 + b"\t4\t", f"column 3: \"{'9' * 19}\" is no number"),
                           (b"1\t2\t\t4\t", "column 3: \"\" is no number"),
                           (b"1\t2\t3\t4\t33\t1\t2\t", "7 columns: a line has 4 for the driver and 8 "
                            "for each follower, parted by tabs")]:
        asking.same(sentence, f"x: {sentence}", refusal(lambda: read_row("x", 1, text)))


def refusal(work):
    try:
        return work()
    except Fault as fault:
        return str(fault)


def rows_say_what_they_are(asking):
    """Cut times, lines that count from the cycle before, lines that come again."""
    cut = int(PERIOD * 1.4)
    asking.same("cut", (True, False, False), (row(cut, cut).is_cut, row(cut, cut + 1).is_cut,
                                              Row(1, 0, 0, 0, {}).is_cut))
    asking.same("from before", (True, True, False, False), tuple(it.counts_from_before for it in (
        row(0, 5), row(cut, cut, n1=(28000, 28010, 28020, 3)), row(cut, cut, n1=(10, 20, 30, 3)),
        row(PERIOD, 50))))
    asking.same("again", (True, False, False), (row(5, 6).repeats(row(5, 6, line=2)),
                                                row(5, 6).repeats(None), row(5, 6).repeats(row(5, 7))))


def groups_are_joined(asking):
    """Sets keep the order of their members; streams are a step where some take and others give."""
    sets = Sets([1, 2, 3, 4])
    sets.join(4, 2)
    sets.join(2, 2)
    asking.same("sets", [[1], [2, 4], [3]], sets.groups())
    four = [node(1, 2, 0, "g"), node(2, 0, 2, "g"),
            node(3, 2, 0, "g"), node(4, 0, 2, "g")]
    asking.same("four streams", {"g": ([1, 3], [2, 4])}, {
        name: tuple([it.id for it in side] for side in sides)
        for name, sides in stream_groups(four).items()})
    asking.same("one side alone", {}, stream_groups(four[::2]))
    through = node(5, 1, 1, "g")
    asking.same("one that does both", {}, stream_groups([*four, through]))
    asking.same("steps", [[1, 3, 2, 4], [6]], [step.ids for step in make_steps([*four, node(6, 1)])])
    asking.same("apart", [[1], [2], [3], [4]], [step.ids for step in make_steps(four, {"g"})])


def turns_are_older(asking):
    """A wake before a signal, or no trigger after a cycle that was not finished."""
    done, held = Turn(5, 6, 7, FINISHED), Turn(5, 0, 0, TRIGGERED)
    for what, wanted, words in [("own", False, (done, NO_TURN, True)),
                                ("before the driver", True, (Turn(5, 0, 7, 3), NO_TURN, True)),
                                ("before its own", True, (Turn(5, 4, 7, 3), NO_TURN, True)),
                                ("carried", True, (Turn(0, 6, 7, 3), held, True)),
                                ("carried, but linked to nobody", False, (Turn(0, 6, 7, 3), held, False)),
                                ("after a whole one", False, (Turn(0, 6, 7, 3), done, True))]:
        asking.same(f"older: {what}", wanted, is_older(*words))


def seats_work(asking):
    """From the last wake of those that take to the first finish of those that give."""
    step = Step([node(1, 2), node(3, 2)], [node(2, 0, 2), node(4, 0, 2)])
    seat, before = Seat.of(step, {1, 2, 3, 4}, None, True), row(PERIOD, 50)
    turns = {"n1": (1, 10, 20, 3), "n3": (2, 12, 22, 3), "n2": (30, 30, 31, 3), "n4": (40, 40, 44, 3)}

    def said(forced=False, finish=90, **other):
        work = seat.work(row(PERIOD, finish, **{**turns, **other}), before, forced)
        return work.start, work.finish, work.why

    asking.same("seat", (12, 31, ""), said())
    asking.same("seat: apart", (12, 11, APART), said(n2=(2, 9, 11, 3)))
    asking.same("seat: forced", (12, 31, FORCED), said(True, 40))
    asking.same("seat: not forced", (12, 31, ""), said(False, 40))
    asking.same("seat: older", (12, 31, OLDER), said(n4=(1, 0, 44, 3)))
    asking.same("seat: late", (None, None, "was not awake"), said(n3=(2, 0, 0, 1)))
    asking.same("seat: at work", (12, None, "had not finished"), said(n3=(2, 12, 0, AWAKE)))
    asking.same("seat: in no line", (None, None, "was not triggered"), (lambda it: (
        it.start, it.finish, it.why))(Seat.of(step, set(), None, True).work(before, before, False)))
    asking.same("seat: of the driver", (0, 0), (lambda it: (it.start, it.finish))(
        Seat.of(step, {1}, step.entry, True).work(before, before, False)))


def ticks_name_the_late(asking):
    """Who had not finished, else who finished after the period where the driver did so too."""
    step = Step([node(1, 2)], [node(1, 2)])
    for what, wanted, finish, ended in [("open", (None, [step]), None, 50), ("late", (PERIOD, [step]),
                                                                             PERIOD + 1, PERIOD + 2),
                                        ("late alone", None, PERIOD + 1, 50), ("in time", None, 9, 50)]:
        asking.same(f"tick: {what}", wanted, late_check(row(PERIOD, ended), [Work(step, 5, finish)]))


# What is judged: the rows, and by whom the first bad cycle was, its culprits, and who waited.
DONE, HELD, BUSY = (1, 2, 3, FINISHED), (9, 0, 0, TRIGGERED), (9, 10, 0, AWAKE)
LATE = row(PERIOD, PERIOD, line=2, n1=DONE, n2=HELD)
WHOLE_BEFORE, WHOLE_AFTER = row(PERIOD, 50, n1=DONE, n2=DONE, n3=DONE), \
    row(PERIOD, 50, line=3, n1=DONE, n2=DONE, n3=DONE)
BAD = [
    ("triggered, never awake", [WHOLE_BEFORE, LATE, WHOLE_AFTER], (BY_FOLLOWERS, [2], [3])),
    ("the last line", [WHOLE_BEFORE, LATE], (BY_FOLLOWERS, [2], [])),
    ("the driver went on", [WHOLE_BEFORE, LATE, row(PERIOD // 3, 50, line=3, n3=DONE)],
     (BY_DRIVER, [], [3])),
    ("the driver finished early", [row(PERIOD, 50, line=2, n1=DONE, n2=HELD), WHOLE_AFTER],
     (UNDECIDED, [], [])),
    ("the driver was catching up", [row(30, PERIOD, line=2, n1=DONE, n2=HELD), WHOLE_AFTER],
     (UNDECIDED, [], [])),
    ("a short cycle", [LATE, row(15000, 50, line=3, n1=DONE)], (UNDECIDED, [], [])),
    ("triggered late", [row(PERIOD, PERIOD, line=2, n2=(PERIOD - 99, 0, 0, 1)), WHOLE_AFTER],
     (UNDECIDED, [], [])),
    ("held up by its own process", [row(PERIOD, PERIOD, line=2, n1=DONE, n12=HELD, n22=BUSY)],
     (BY_FOLLOWERS, [22], [])),
    ("two processes", [row(PERIOD, PERIOD, line=2, n1=HELD, n22=BUSY)], (BY_FOLLOWERS, [1, 22], [])),
    ("one that left did not wait", [WHOLE_BEFORE, LATE, row(PERIOD, 50, line=3, n1=DONE, n2=DONE)],
     (BY_FOLLOWERS, [2], [])),
]


def culprits_are_certain(asking):
    """A process has the ids that end in one digit."""
    for what, rows, wanted in BAD:
        bad = blame_of(rows, 99, lambda id: id % 10).bad[0]
        asking.same(f"blame: {what}", (2, *wanted),
                    (bad.line, bad.judgement.by, bad.judgement.culprits, bad.waited))
    asking.same("blame: lines that come again count once", (1, 1), (lambda it: (
        len(it.bad), it.counts[2].caused))(blame_of([LATE, LATE], 99)))


TESTS = [rows_are_read, rows_say_what_they_are, groups_are_joined, turns_are_older, seats_work,
         ticks_name_the_late, culprits_are_certain]
