"""The cycles of a log in the Trace Event format, which Perfetto and chrome://tracing open.

Source: "Trace Event Format" (Google, 2016): complete events X, instant events i, metadata M, flows
s and f; times in microseconds. A process is a client, a thread a node.
"""
import json

from bridge.blame import own_rows
from bridge.profiler import AWAKE, FINISHED, TRIGGERED

CULPRIT = "terrible"


def trace_events(dump, rows, blame):
    """The text of the file. A cycle begins where the driver's signals before it add up to; where
    pw-profiler cut that time it is taken as the period."""
    ids = [id for id in blame.counts]
    events = [event for id in ids for event in names(dump, id)]
    bad, start, flow = {it.line: it for it in blame.bad}, 0, 0
    for row in own_rows(rows):
        start += row.period if row.is_cut else row.between
        culprits = bad[row.line].judgement.culprits if row.line in bad else []
        for id, turn in row.turns.items():
            events += slices(dump, id, turn, start, row, id in culprits)
        for link in sorted({(it.output_node, it.input_node) for it in dump.links}):
            arrow = arrow_of(dump, row, link, start, flow)
            events += arrow
            flow += bool(arrow)
    return json.dumps({"traceEvents": events, "displayTimeUnit": "ns"}) + "\n"


def place(dump, id):
    return {"pid": int(dump.nodes[id].properties.get("client.id", 0) or 0), "tid": id}


def names(dump, id):
    """The names of a track and of its client."""
    node, where = dump.nodes[id], place(dump, id)
    client = dump.clients.get(where["pid"], {})
    yield {"ph": "M", "name": "thread_name", **where, "args": {"name": node.name}}
    yield {"ph": "M", "name": "process_name", **where,
           "args": {"name": str(client.get("application.name", where["pid"]))}}


def slices(dump, id, turn, start, row, is_culprit):
    """From trigger to wake, and from wake to finish; a mark where a culprit made an xrun."""
    where = place(dump, id)
    spans = [("triggered", turn.signal, turn.awake if turn.status >= AWAKE else row.finish),
             ("runs", turn.awake, turn.finish if turn.status == FINISHED else row.finish)]
    for name, begin, end in spans[:1 if turn.status == TRIGGERED else 2]:
        event = {"ph": "X", "name": name, "ts": start + begin, "dur": max(0, end - begin), **where,
                 "args": {"line": row.line}}
        yield {**event, "cname": CULPRIT} if is_culprit else event
    if is_culprit:
        yield {"ph": "i", "name": "xrun", "s": "t", "ts": start + max(row.finish, turn.signal),
               **where, "args": {"line": row.line}}


def arrow_of(dump, row, link, start, number):
    """The two ends of an arrow along a link: from the finish of one to the wake of the other."""
    turns = [row.turns.get(id) for id in link]
    if not all(turn and turn.status == FINISHED for turn in turns):
        return []
    common = {"name": "link", "cat": "link", "id": number}
    return [{"ph": "s", "ts": start + turns[0].finish, **common, **place(dump, link[0])},
            {"ph": "f", "bp": "e", "ts": start + turns[1].awake, **common, **place(dump, link[1])}]
