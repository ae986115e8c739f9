"""The verdicts over the recordings once more, from columns and links alone, without the tools.

Of each line that has its own times and in which every follower that the log names has status 3: each
link of the dump asks that its input's node woke no earlier than its output's node had finished, and
that the driver finished last where its time was not cut. Links that leave the driver say nothing.
The whole lines of `join` are those with both players, which its dump does not have.
"""
import json

from tests.asking import recording

# The driver's id, whole lines, and lines in which a link is not kept, as this file counts them and
# as docs/PIPEWIRE.md has them: every recording is legal, and none is so for want of lines.
RECORDINGS = {"players": (16, 100), "loopbacks": (16, 100), "filter": (16, 100), "drivers": (17, 100),
              "async": (16, 100), "monitor": (16, 100), "dummy": (15, 100), "late": (16, 84),
              "tap": (16, 86), "leftover": (16, 37), "busy": (16, 82), "mono_chain": (16, 100),
              "surround": (16, 100), "rate44": (16, 100), "echo": (16, 100), "late_chain": (16, 85),
              "forced": (16, 83), "combine": (16, 100), "monitor_chain": (16, 100), "leave": (16, 59),
              "join": (16, 39), "v14_late_chain": (17, 84)}
# Nodes of which the dump says that their links are async: nobody waits for them.
ASYNC = {"v14_late_chain": {60}}


def lines_of(path, passed):
    """The numbers of each line: the driver's four, and by id signal, wake, finish and status, without
    the ids that are passed over."""
    for text in path.read_text().splitlines():
        columns = text.rstrip("\t").split("\t")
        parts = [columns[at:at + 8] for at in range(4, len(columns), 8)]
        yield [int(it) for it in columns[:4]], {
            int(part[0]): (int(part[1]), int(part[2]), int(part[3]), int(part[6]))
            for part in parts if part[0].strip() and int(part[0]) not in passed}


def whole_lines(path, passed):
    """The lines in which all have finished, each cycle once, without one that woke before it."""
    lines = list(lines_of(path, passed))
    names = {id for _, turns in lines for id in turns}
    kept, last = [], None
    for driver, turns in lines:
        is_again = last is not None and (driver[:2], turns) == last
        last = (driver[:2], turns)
        is_whole = set(turns) == names and all(it[3] == 3 for it in turns.values())
        is_older = any(it[1] == 0 or it[1] < it[0] for it in turns.values())
        if driver[0] > 0 and is_whole and not is_older and not is_again:
            kept.append((driver, turns))
    return kept


def pairs_of(path, driver):
    """The nodes that a link leads from and to, without those that leave the driver."""
    objects = [it.get("info") or {} for it in json.loads(path.read_text())
               if it["type"].endswith(":Link")]
    return {(it["output-node-id"], it["input-node-id"]) for it in objects
            if it.get("state") != "error" and it["output-node-id"] != driver}


def broken(driver, line, pairs):
    """The links that a line does not keep, and the driver where it was not last."""
    times, turns = line
    found = [pair for pair in pairs if pair[0] in turns and pair[1] in turns
             and turns[pair[1]][1] < turns[pair[0]][2]]
    is_cut = times[0] == times[1] == int(times[3] * 1.4)
    found += [(id, driver) for id, it in turns.items() if not is_cut and it[2] > times[1]]
    return found


def recordings_by_columns(asking):
    for scene, (driver, wanted) in RECORDINGS.items():
        dump, log = recording(scene)
        lines, pairs = whole_lines(log, ASYNC.get(scene, set())), pairs_of(dump, driver)
        asking.same(f"{scene}: whole lines, by columns", wanted, len(lines))
        asking.same(f"{scene}: links not kept, by columns", [],
                    [pair for line in lines for pair in broken(driver, line, pairs)])


TESTS = [recordings_by_columns]
