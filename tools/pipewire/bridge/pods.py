"""A format as pw-dump prints it in JSON, as the text that `pipegraph dump` prints of a POD.

Source: docs/FORMATS.md, "PODs" and "Dumps read back"; the forms of choices are pw-dump's own:
{default, min, max}, {default, min, max, step}, {default, alt1, ..}, {default, flag1, ..}. What
pw-dump does not print is lost: the flags of a property are 0, and a choice of kind None is its
value.
"""
import re

from bridge.fault import Fault, shown
from bridge.spa import ENUM_FORMAT, FORMAT, ID, INT, KEYS, OBJECT_FORMAT

PARAMS = {"EnumFormat": ENUM_FORMAT, "Format": FORMAT}
LEAST, MOST = -2**31, 2**31 - 1
FALLBACK = re.compile(r"id-([0-9a-f]{8})")


def format_text(place, param, value):
    """The text of a format object."""
    if not isinstance(value, dict):
        raise Fault(f"{place}: this is no object")
    lines = [f"object {OBJECT_FORMAT} {PARAMS[param]} {len(value)}"]
    for name, it in value.items():
        key, names = key_of(place, name)
        lines.append(f"  prop {key} 0")
        lines += ["    " + line for line in value_lines(f"{place}, {name}", it, names)]
    return "".join(line + "\n" for line in lines)


def key_of(place, name):
    """The number of a key, and the names of its values; an unknown key as pw-dump spells it."""
    if name in KEYS:
        return KEYS[name]
    spelled = FALLBACK.fullmatch(name)
    if spelled:
        return int(spelled[1], 16), {}
    raise Fault(f"{place}: {shown(name)} is no key of a format of audio")


def value_lines(place, value, names):
    """The lines of a value, those below it two spaces further in."""
    child = INT if names is None else ID
    if isinstance(value, list):
        head, items = f"array {child if value else 1} {len(value)}", value
    elif isinstance(value, dict):
        kind, items = choice_of(place, value)
        head = f"choice {kind} 0 {child} {len(items)}"
    else:
        return [scalar(place, value, names)]
    return [head, *("  " + scalar(place, item, names) for item in items)]


def choice_of(place, value):
    """The kind of a choice, and its values in their order."""
    keys = list(value)
    for kind, wanted in [("range", ["default", "min", "max"]),
                         ("step", ["default", "min", "max", "step"]),
                         ("enum", ["default"] + [f"alt{at}" for at in range(1, len(keys))]),
                         ("flags", ["default"] + [f"flag{at}" for at in range(1, len(keys))])]:
        if keys == wanted:
            return kind, list(value.values())
    raise Fault(f"{place}: {', '.join(shown(key) for key in keys)} are the values of no choice")


def scalar(place, value, names):
    """An Id by its name, or an Int."""
    if names is None:
        if not isinstance(value, int) or isinstance(value, bool) or not LEAST <= value <= MOST:
            raise Fault(f"{place}: {shown(value)} is no Int")
        return f"int {value}"
    spelled = FALLBACK.fullmatch(value) if isinstance(value, str) else None
    if spelled:
        return f"id {int(spelled[1], 16)}"
    if isinstance(value, str) and value in names:
        return f"id {names[value]}"
    raise Fault(f"{place}: {shown(value)} is no name of SPA's for it")
