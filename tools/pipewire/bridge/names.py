"""Names made fit: a node name of a script is a lower-case letter and up to 30 of a to z, 0 to 9, _.

Source: docs/FORMATS.md, "Scripts".
"""
import re

LONGEST = 31
TAKEN = {"dummy"}


def fit(name, room=LONGEST):
    """A name in the characters that a script has."""
    plain = re.sub(r"[^a-z0-9]+", "_", name.lower()).strip("_")
    if not plain or not plain[0].isalpha():
        plain = "n" + plain
    return plain[:room].rstrip("_")


def fit_names(named):
    """A fit name for each of (id, name): where two are alike, each has its id after it."""
    plain = [(id, fit(name)) for id, name in named]
    count = {}
    for _, name in plain:
        count[name] = count.get(name, 0) + 1
    used, names = {name for name in count if count[name] == 1} | TAKEN, {}
    for id, name in plain:
        if count[name] == 1 and name not in TAKEN:
            names[id] = name
    for id, name in plain:
        if id in names:
            continue
        tail = f"_{id}"
        chosen = fit(name, LONGEST - len(tail)) + tail
        while chosen in used:
            tail += "_"
            chosen = fit(name, LONGEST - len(tail)) + tail
        used.add(chosen)
        names[id] = chosen
    return names
