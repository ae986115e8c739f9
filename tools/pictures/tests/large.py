"""Graphs as large as a picture holds: 62 nodes and 230 links, always the same."""
from __future__ import annotations

import random

SOURCES, MIXERS, ENDS, LINKS = 8, 36, 18, 230


def deep_script() -> str:
    """Squares to mixers, each to later ones, and all to meters: many ranks."""
    draw = random.Random(92)
    nodes = [f"square q{at} 48000 1 4 9" for at in range(SOURCES)] + [f"mix2 m{at} 9 9" for at in range(MIXERS)]
    nodes += [f"meter v{at}" for at in range(ENDS)]
    outs = [(f"q{at}.out", 0) for at in range(SOURCES)] + [(f"m{at}.out", at + 1) for at in range(MIXERS)]
    links = set()
    while len(links) < LINKS:
        out, after = draw.choice(outs)
        to = draw.choice([f"m{at}.{draw.choice('ab')}" for at in range(after, MIXERS)] +
                         [f"v{at}.in" for at in range(ENDS)])
        links.add(f"link {out} {to}")
    return "\n".join([*nodes, *sorted(links), ""])


def wide_script() -> str:
    """31 squares to 30 gains to one sink: three ranks."""
    lines = [f"square s{at} 48000 1 {5 + at} {100 + at}" for at in range(31)]
    lines += [*(f"gain g{at} {16 + at}" for at in range(30)), "sink o o.wav", "driver o 1"]
    lines += [f"link s{(at + step) % 31}.out g{at}.in" for at in range(30) for step in range(6 + at // 20)]
    lines += [f"link g{at}.out o.in" for at in range(30)] + [f"link s{at}.out o.in" for at in range(10)]
    return "\n".join([*lines, ""])


def text_of(script: str) -> str:
    """The text of a run that made each link of a script."""
    return "".join(f"{line} 48000 1 2\n" for line in script.split("\n") if line.startswith("link "))
