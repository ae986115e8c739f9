"""Formats and what two of them have in common, from docs/FORMATS.md and apart from the program.

A value is its type's number and its bytes, a choice its form and the numbers of the form; a format
is the object's type, its id, and by key the flags and the choice.
"""
import math
import struct

import readers
from worked import pod

INT, LONG = 4, 5
WIDTH = {INT: "<i", LONG: "<q"}


def values_of(body):
    """The values of a choice's body, of one type."""
    width, kind = struct.unpack_from("<II", body, 8)
    if (width, kind) in ((0, 0), (0, 1)):
        return []
    return [(kind, body[at:at + width]) for at in range(16, len(body), width)]


def canonical(kind, body):
    """The bytes of a value as they are written."""
    return struct.pack("<I", any(body)) if kind == 2 else body


def choice_of(key, kind, body):
    """A property's value as a choice: only, enum, range or step, its pick and its numbers."""
    if kind != 19:
        return "only", (kind, canonical(kind, body))
    values = [(k, canonical(k, b)) for k, b in values_of(body)]
    if not values:
        raise readers.Refused(16, key)
    how = struct.unpack_from("<I", body)[0]
    if how == 4:
        raise readers.Refused(13, key)
    if how == 0:
        return "only", values[0]
    if how == 3:
        alternatives = values[1:] or values
        pick = values[0] if values[0] in alternatives else alternatives[0]
        return "enum", pick, alternatives
    return span_of(key, "range" if how == 1 else "step", values)


def span_of(key, form, values):
    count = 3 if form == "range" else 4
    bad = readers.Refused(14 if form == "range" else 15, key)
    if len(values) < count or values[0][0] not in WIDTH:
        raise bad
    kind = values[0][0]
    pick, low, high, *step = (struct.unpack(WIDTH[kind], b)[0] for _, b in values[:count])
    if low > high or step and step[0] <= 0:
        raise bad
    step = step[0] if step else 1
    if not low <= pick <= high or (pick - low) % step:
        pick = low
    return form, kind, pick, low, high, step


def format_of(content):
    """The format of a file."""
    taken, _ = readers.read_pod(content, 0, len(content), 1)
    if taken < len(content):
        raise readers.Refused(8, taken)
    size, kind = struct.unpack_from("<II", content)
    if kind != 15:
        raise readers.Refused(11)
    about, at, fields = struct.unpack_from("<II", content, 8), 16, {}
    while at < 8 + size:
        key, flags, inner, kind = struct.unpack_from("<IIII", content, at)
        if key in fields:
            raise readers.Refused(12, key)
        fields[key] = flags, choice_of(key, kind, content[at + 16:at + 16 + inner])
        at += 16 + readers.pad8(inner)
    return *about, fields


def number(value):
    return struct.unpack(WIDTH[value[0]], value[1])[0]


def is_member(value, choice):
    if choice[0] == "only":
        return value == choice[1]
    if choice[0] == "enum":
        return value in choice[2]
    _, kind, _, low, high, step = choice
    return value[0] == kind and low <= number(value) <= high and (number(value) - low) % step == 0


def pick_of(choice):
    if choice[0] in ("only", "enum"):
        return choice[1]
    return choice[1], struct.pack(WIDTH[choice[1]], choice[2])


def members_of(choice):
    """The members of an Only or Enum, in their order."""
    return [choice[1]] if choice[0] == "only" else choice[2]


def spans_meet(a, b):
    """The common numbers of two ranges or steps of one width: the least, the greatest, the step."""
    low, high = max(a[3], b[3]), min(a[4], b[4])
    wide, narrow = (a, b) if a[5] >= b[5] else (b, a)
    first = wide[3] + max(0, -(-(low - wide[3]) // wide[5])) * wide[5]
    for k in range(narrow[5]):  # after so many steps the remainders repeat
        at = first + k * wide[5]
        if at > high:
            return None
        if (at - narrow[3]) % narrow[5] == 0:
            step = math.lcm(a[5], b[5])
            return at, at + (high - at) // step * step, step
    return None


def meet(a, b):
    """What two choices have in common, or None."""
    lists = [c for c in (a, b) if c[0] in ("only", "enum")]
    if lists:
        common = [m for m in dict.fromkeys(members_of(lists[0])) if is_member(m, a)
                  and is_member(m, b)]
        kind = None
    else:
        kind, other = a[1], b[1]
        found = spans_meet(a, b) if kind == other else None
        if not found:
            return None
        low, high, step = found
        count = (high - low) // step + 1
        common = [(kind, struct.pack(WIDTH[kind], n)) for n in (low, low + step)[:count]]
        if a[0] == b[0] == "range" and count > 1:
            common = None
            form = "range"
        elif count > 2:
            common = None
            form = "step"
    if common is not None:
        if not common:
            return None
        picks = [p for p in (pick_of(a), pick_of(b)) if p in common] + common[:1]
        return ("only", common[0]) if len(common) == 1 else ("enum", picks[0], common)
    picks = [n for n in (a[2], b[2]) if low <= n <= high and (n - low) % step == 0] + [low]
    return form, kind, picks[0], low, high, step


def spelled(choice):
    """The POD of a choice."""
    if choice[0] == "only":
        return pod(*choice[1])
    if choice[0] == "enum":
        how, kind, values = 3, choice[1][0], [choice[1]] + choice[2]
        body = b"".join(value for _, value in values)
    else:
        how, kind = (1, choice[1]) if choice[0] == "range" else (2, choice[1])
        numbers = choice[2:5] if how == 1 else choice[2:6]
        body = b"".join(struct.pack(WIDTH[kind], n) for n in numbers)
    return pod(19, struct.pack("<IIII", how, 0, readers.SIZES[kind], kind) + body)


def common_of(a, b):
    """The least key at which the fields of two formats clash, or the fields that they share."""
    fields = {}
    for key in sorted(set(a) | set(b)):
        one, other = a.get(key), b.get(key)
        if one and other:
            common = meet(one[1], other[1])
            if common is None:
                return key, None
            fields[key] = one[0] & other[0], common
        else:
            fields[key] = one or other
            if fields[key][0] & 8:
                return key, None
    return None, fields


def filtered(a, b):
    """The line of `filter`, and what it stores."""
    if a[0] != b[0]:
        return "clash type\n", None
    clash, fields = common_of(a[2], b[2])
    if fields is None:
        return f"clash {clash}\n", None
    body = struct.pack("<II", a[0], a[1])
    for key, (flags, choice) in fields.items():
        body += struct.pack("<II", key, flags) + spelled(choice)
    return "common\n", pod(15, body)


def answer(a, b):
    """Status, line and stored object of `filter` on two files."""
    found = []
    for place, content in ((1, a), (2, b)):
        try:
            found.append(format_of(content))
        except readers.Refused as fault:
            return 4, f"pod {place} " + " ".join(map(str, fault.args)) + "\n", None
    return 0, *filtered(*found)
