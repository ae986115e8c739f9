"""What `spa_pod_filter` makes of two values of a key, its two differences from a filter by members
included, and the value that a daemon takes then.

Source: spa/pod/filter.h of PipeWire 0.3.65: spa_pod_filter_prop, spa_pod_choice_fix_default; and
spa/pod/compare.h, spa_pod_compare_value, which calls any two arrays equal. Values are as pw-dump
prints them. The output's value is the first, as in the daemon.
"""
from typing import Any, List, NamedTuple, Optional


class Parts(NamedTuple):
    """A value: its kind, its default, and what stands behind that."""
    kind: str
    default: Any
    rest: List[Any]


def parts_of(value):
    """A value as `filter.h` sees it: of a plain one the value is its own alternative."""
    if not isinstance(value, dict):
        return Parts("none", value, [value])
    rest = [it for key, it in value.items() if key != "default"]
    kind = "flags" if "flag1" in value else "enum"
    if "min" in value:
        kind = "step" if "step" in value else "range"
    return Parts(kind, value["default"], rest)


def taken(one, other) -> Optional[list]:
    """The value that the daemon takes of an output's value and an input's, in a list; None where it
    refuses the two."""
    first, second = parts_of(one), parts_of(other)
    if shape(first.default) != shape(second.default) or "flags" in (first.kind, second.kind):
        return None
    if {first.kind, second.kind} <= {"range", "step"}:
        return [clamped(first.default, max(first.rest[0], second.rest[0]),
                        min(first.rest[1], second.rest[1]))]
    kept = kept_of(first, second)
    if not kept:
        return None
    return [first.default if any(is_equal(first.default, it) for it in kept) else kept[0]]


def shape(value):
    """Arrays are compared by their length alone."""
    return len(value) if isinstance(value, list) else None


def is_equal(one, other):
    return isinstance(one, list) or one == other


def clamped(value, least, most):
    """The default of a range, put to its ends one after the other, though these may have crossed."""
    value = max(value, least)
    return min(value, most)


def kept_of(first, second):
    """The alternatives that are kept of two of which at most one is a range or a step. The loop over
    those beside an output's step goes on from the step's own values: it sees the first of them, and
    then the step's greatest value."""
    if first.kind == "step":
        return [it for it in second.rest[:1] + [first.rest[1]] * (len(second.rest) - 1)
                if is_member(it, first)]
    if first.kind == "range":
        return [it for it in second.rest if is_member(it, first)]
    if second.kind in ("range", "step"):
        return [it for it in first.rest if is_member(it, second)]
    return [it for it in first.rest for its in second.rest if is_equal(it, its)]


def is_member(value, span):
    """Whether a range or a step has a value; steps count from 0, whatever the least is."""
    return span.rest[0] <= value <= span.rest[1] and \
        (span.kind == "range" or value % span.rest[2] == 0)
