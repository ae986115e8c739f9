"""200 pairs of formats that a real daemon negotiated, asked of `filter` again.

demo/pipewire/pairs.jsonl has a pair a line as pw-dump showed it: the EnumFormat of an output and an
input, and the Format that both ports had when they were linked, or the daemon's refusal. `filter`
and the daemon agree where both refuse, or where the Format has for each key the default of the
common format. Every other pair has to be one of the differences below, by its two formats alone.
"""
import json

from bridge.pods import format_text
from bridge.spa import KEYS
from tests.asking import RECORDINGS

NAMES = {key: name for name, (key, _) in KEYS.items()}


def is_span(choice):
    """A range or a step."""
    return isinstance(choice, dict) and "min" in choice


def values(choice):
    """The values of a plain value or an enum."""
    if isinstance(choice, dict):
        return [value for key, value in choice.items() if key != "default"]
    return [choice]


def has(choice, value):
    """Whether a choice admits a value."""
    if is_span(choice):
        return choice["min"] <= value <= choice["max"] and (
            (value - choice["min"]) % choice.get("step", 1) == 0)
    return value in values(choice)


def default_of(choice):
    return choice["default"] if isinstance(choice, dict) else choice


def is_position(one, other, chosen):
    """Two arrays of equal length: spa_pod_compare_value calls any two arrays equal, so the daemon
    takes the output's, and `filter` compares what is in them."""
    return isinstance(one, list) and one != other and len(one) == len(other) and chosen == one


def is_step_with_enum(one, other, _):
    """A step and an enum: in spa_pod_filter_prop the loop over the input's alternatives goes on
    from the output's values, so of the alternatives it sees the first, and then the step's max."""
    return is_span(one) and "step" in one and not is_span(other) and len(values(other)) > 1


def is_apart(one, other, chosen):
    """Two spans: spa_pod_filter_prop takes the greater min and the lesser max, and neither refuses
    where they cross nor keeps a step; then the daemon's value is none that both have."""
    return is_span(one) and is_span(other) and not (has(one, chosen) and has(other, chosen))


def is_default(one, other, chosen):
    """The output's default is not common. The daemon clamps it to the common range, or takes the
    first alternative that is common; `filter` takes the input's default where that is common."""
    if has(other, default_of(one)):
        return False
    if is_span(one) and is_span(other):
        least, most = max(one["min"], other["min"]), min(one["max"], other["max"])
        return has(one, chosen) and has(other, chosen) and (
            chosen == min(max(one["default"], least), most))
    listed, rest = (other, one) if is_span(one) else (one, other)
    return chosen == next(value for value in values(listed) if has(rest, value))


DIFFERENCES = {"positions": is_position, "step with enum": is_step_with_enum,
               "spans apart, or a step dropped": is_apart, "default": is_default}


def pick_of(lines):
    """The default of each key of a common format, from its dump: of a choice the first value, of
    an array all values."""
    picks, key = {}, None
    for line in lines[1:]:
        words = line.split()
        if words[0] == "prop":
            key = NAMES[int(words[1])]
            picks[key] = []
        elif words[0] in ("id", "int"):
            picks[key].append(int(words[1]))
        else:
            picks[key] = [words[0]]
    return {key: tuple(it[1:]) if it[0] == "array" else it[1] if it[0] == "choice" else it[0]
            for key, it in picks.items()}


def numbers_of(format):
    """A Format of the daemon as numbers."""
    found = {}
    for name, value in format.items():
        names = KEYS[name][1]
        number = (lambda it: it) if names is None else names.get
        found[name] = tuple(map(number, value)) if isinstance(value, list) else number(value)
    return found


def asked(asking, row):
    """What `filter` prints of a pair, and the defaults of what it stores."""
    for side, name in [("output", "a"), ("input", "b")]:
        text = format_text(side, "EnumFormat", row[side])
        asking.program("pipegraph-pods", "pod", "-", f"{name}.pod", text=text)
    said = asking.program("pipegraph", "filter", "a.pod", "b.pod", "c.pod").text
    if said != "common\n":
        return said, None
    return said, pick_of(asking.program("pipegraph", "dump", "c.pod").text.splitlines())


def why(row, name):
    """Which difference the daemon's value of a key is, if it is one."""
    ends = row["output"][name], row["input"][name], row["format"][name]
    return next((kind for kind, holds in DIFFERENCES.items() if holds(*ends)), None)


def pairs_agree(asking):
    """Each pair agrees, or is a difference that is explained; and how many there are of each."""
    rows = [json.loads(line) for line in (RECORDINGS / "pairs.jsonl").read_text().splitlines()]
    asking.same("pairs", 200, len(rows))
    counts = {}
    for at, row in enumerate(rows, 1):
        said, picks = asked(asking, row)
        if "error" in row:
            kinds = {"both refuse" if said.startswith("clash") else None}
        elif picks is None:
            kinds = {f"{why(row, NAMES[int(said.split()[1])])}, refused by filter alone"}
        else:
            wanted = numbers_of(row["format"])
            kinds = {why(row, name) for name in picks if picks[name] != wanted.get(name)}
            kinds = kinds or {"both agree"}
        kind = " and ".join(sorted(map(str, kinds)))
        asking.same(f"pairs.jsonl:{at}: {said.strip()}, {json.dumps(row)}", False, "None" in kind)
        counts[kind] = counts.get(kind, 0) + 1
    print("pairs: " + "; ".join(f"{kind} {count}" for kind, count in sorted(counts.items())))


TESTS = [pairs_agree]
