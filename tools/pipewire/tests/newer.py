"""What 1.x prints: pw-profiler -J, pw-dump -m, async nodes, lists of groups, inactive followers.

v14_late_chain is of PipeWire 1.4.2: late_chain, whose player is async there. The rest is made up.
"""
import json

from bridge.dump import Node, last_objects, read_dump
from bridge.fault import Fault
from bridge.joining import driven_groups
from bridge.log import read_log
from bridge.profiler import FINISHED, Turn
from tests.asking import RECORDINGS
from tests.made_up import MadeUp, log

START = 5_000_000_000


def lines(*points):
    """A log of points: the driver's id, and of each follower id, signal, awake, finish, status."""
    said = []
    for number, (driver, *followers) in enumerate(points):
        signal = START + number * 21_333_000
        said += [{"type": "info", "count": number}, {"type": "clock", "rate": "1/48000", "duration": 1024},
                 {"type": "driver", "id": driver, "name": f"d{driver}", "prev": signal - 21_333_000,
                  "signal": signal, "awake": signal + 80_000, "finish": signal + 90_900, "status": "finished"}]
        said += [{"type": "follower", "id": id, "name": f"n{id}", "prev": 0, "signal": signal + 1000 * one,
                  "awake": signal + 1000 * two, "finish": signal + 1000 * three, "status": status}
                 for id, one, two, three, status in followers]
    return "[" + "".join(json.dumps(it) + ",\n" for it in said) + "{ } ]\n"


def refusal(work):
    try:
        return work()
    except Fault as fault:
        return str(fault)


def objects_are_rows(asking):
    """Of several drivers the one of most cycles, or the one that is asked for."""
    text = lines((7, (1, 2, 3, 4, "finished")), (8, (2, 2, 3, 4, "finished")),
                 (7, (1, 2, 3, 4, "inactive"), (3, 5, 0, 0, "triggered")))
    path = asking.folder / asking.store("j.log", text)
    made = read_log(path)
    asking.same("objects", (7, [21333] * 2, [90] * 2, [{1: Turn(2, 3, 4, FINISHED)}, {3: Turn(5, 0, 0, 1)}]),
                (made.driver, [row.between for row in made.rows], [row.finish for row in made.rows],
                 [row.turns for row in made.rows]))
    asking.same("objects: told", ['left out: 1 cycles of driver "d8" (id 8): say --driver 8 for these'],
                made.told)
    asking.same("objects: --driver", [{2: Turn(2, 3, 4, FINISHED)}],
                [row.turns for row in read_log(path, 8).rows])
    asking.same("objects: no such driver", f"{path}: no cycle is of a driver 9: of those of 7, 8",
                refusal(lambda: read_log(path, 9)))


def objects_are_refused(asking):
    whole = lines((7, (1, 2, 3, 4, "finished")))
    for text, sentence in [
            (whole.replace('"finish": 5000090900', '"finish": "x"'), ':3: "finish" is no number, as '
             "pw-profiler -J prints it"),
            (whole.replace('"n1"', '"n1'), ":4:45: this is no object of pw-profiler -J: "
             "Expecting ',' delimiter"),
            (whole.replace('000, "status": "finished"}', '000, "status": "asleep"}'),
             ':4: "asleep" is no status of a follower'),
            (whole.replace("1/48000", "1/0"), ':2: "1/0" is no rate of a clock'),
            ("[" + whole.splitlines()[3] + "\n", ":1: a follower before a driver"),
            ("[7,\n", ":1: this is no object of pw-profiler -J"),
            ("[\n", ": the log has no driver")]:
        path = asking.folder / asking.store("j.log", text)
        asking.same(f"objects{sentence}", f"{path}{sentence}", refusal(lambda: read_log(path)))


def columns_and_objects_agree(asking):
    """The two logs of one daemon overlap: the cycles of both are alike, to the microsecond."""
    columns = read_log(RECORDINGS / "v14_late_chain.log").rows
    objects = read_log(RECORDINGS / "v14_late_chain.jsonl").rows
    known = [(row.between, row.finish, row.turns) for row in columns]
    common = [row for row in objects if (row.between, row.finish, row.turns) in known]
    asking.same("columns and objects", True, len(common) >= 25)


def the_culprit_is_found(asking):
    """In v14_late_chain.log lines 22 24 47 49 73 75 98 100 have status 1 of node 50, a.in; the player
    is async. In the objects 56 cycles of which the 2 with `between` 0 come again, and 2 are so."""
    dump = RECORDINGS / "v14_late_chain.json"
    for name, bad, covers in [
            ("v14_late_chain.log", [22, 24, 47, 49, 73, 75, 98, 100],
             "covers: cycles 84 of 92, followers 4 of 5, driver's order known in 84 of 84"),
            ("v14_late_chain.jsonl", [411, 427],
             "covers: cycles 52 of 54, followers 4 of 5, driver's order known in 52 of 52")]:
        told = asking.tool("why", dump, RECORDINGS / name).text.splitlines()
        asking.same(f"{name}: culprits", [f'{RECORDINGS / name}:{line}: "a.in" (id 50): triggered at 0, '
                                          "never awake" for line in bad],
                    [line.partition(";")[0] for line in told if ": triggered" in line])
        asking.same(f"{name}: verdict", [f"xruns: {len(bad)}, by followers {len(bad)}, by the driver 0, "
                                         "not decided 0", "verdict: legal", covers], told[-3:])


def an_async_node_is_left_out_of_a_verdict(asking):
    """Of a version that marks its links; before that node.async says nothing."""
    for is_marked, told in [(True, True), (False, False)]:
        dump = MadeUp()
        sink = dump.node("sink", inputs=1, node_driver=True)
        for name in ("slow", "quick"):
            marks = {"link_async": True} if is_marked and name == "slow" else {}
            source = dump.node(name, outputs=1, node_async=name == "slow")
            dump.link(source, sink, **marks)
        text = log([(21333, 50, 0, 21333), (33, 10, 20, 3), (36, 10, 20, 3)])
        done = asking.tool("trace", asking.store("a.json", dump.text()), asking.store("a.log", text))
        asking.same(f"async, marked: {is_marked}", (0, told), (done.status, "followers 1 of 2" in done.errors))
        asking.same(f"async, marked: {is_marked}: events", not told, "slow" in done.text)


def dumps_may_go_on(asking):
    """The lists of pw-dump -m: an object again, and one that is gone."""
    dump = MadeUp()
    sink, source = dump.node("sink", inputs=1, node_driver=True), dump.node("source", outputs=1)
    dump.link(source, sink)
    later = MadeUp()
    later.next = 32
    later.node("renamed", outputs=1)
    gone = json.dumps([{"id": 35, "info": None}])
    path = asking.folder / asking.store("m.json", dump.text() + "\n" + later.text() + "\n" + gone)
    asking.same("-m: objects", [31, 32, 33, 34], [it["id"] for it in last_objects(path)])
    made = read_dump(path)
    asking.same("-m: names", (["sink", "renamed"], []), ([it.name for it in made.nodes.values()], made.links))


def groups_may_be_several(asking):
    """node.group as a list, as the text of one, and as a name; node.driver-id says who drives."""
    for value, wanted in [(["a", "b"], ["a", "b"]), ('[ "a", "b" ]', ["a", "b"]), ("[ a b ]", ["a", "b"]),
                          ("a", ["a"]), (None, [])]:
        asking.same(f"node.group: {value}", wanted,
                    Node(1, "running", {"node.group": value}, {}).groups("node.group"))
    dump = MadeUp()
    for name, more in [("one", {"node_driver": True}), ("two", {"node_driver": True, "priority_driver": 9}),
                       ("three", {"node_driver_id": 31}), ("four", {"node_group": ["x", "y"]}),
                       ("five", {"node_group": ["y"]})]:
        dump.node(name, **more)
    text = dump.text().replace("node.driver.id", "node.driver-id")
    made = read_dump(asking.folder / asking.store("g.json", text))
    asking.same("groups", [(31, [31, 33]), (32, [32]), (None, [34, 35])], sorted(
        ((it.driver and it.driver.id, it.ids) for it in driven_groups(made, list(made.nodes.values()))),
        key=lambda it: it[1]))


TESTS = [objects_are_rows, objects_are_refused, columns_and_objects_agree, the_culprit_is_found,
         an_async_node_is_left_out_of_a_verdict, dumps_may_go_on, groups_may_be_several]
