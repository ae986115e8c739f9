"""Seeded random formats, asked of `filter` and of a filter written apart from it."""
import random
import struct

import formats
import randoms
import readers
from worked import pod

COUNT = 1000


def random_choice(draw, kind):
    """A value, or a choice of values of one type."""
    width = readers.SIZES[kind]
    small = lambda: draw.choice([0, 1, 2, 3, 4, 5, 6, 8, 12, 20]).to_bytes(width, "little")
    if draw.random() < 0.3:
        return pod(kind, small())
    how = draw.choice([0, 1, 2, 3, 3, 4] if draw.random() < 0.1 else [1, 2, 3] if kind in (4, 5)
                      else [3])
    values = [small() for _ in range(draw.choice([4, 4, 4, draw.randint(0, 5)]))]
    if how in (1, 2) and draw.random() < 0.95:
        low, size = draw.randint(-9, 9), draw.choice([0, 1, 2, 5, 9, 40])
        numbers = [draw.randint(-9, 40), low, low + size, draw.randint(1, 7)]
        if draw.random() < 0.05:
            numbers = [draw.choice([-2**31, 2**31 - 1, 0, n]) for n in numbers]
        values = [n.to_bytes(width, "little", signed=True) for n in numbers[:2 + how]]
    body = struct.pack("<IIII", how, draw.choice([0, 0, 5]), width, kind) + b"".join(values)
    return pod(19, body)


def random_format(draw):
    body = struct.pack("<II", draw.choice([0x40003] * 9 + [0x40004]), draw.choice([3, 4]))
    keys = [draw.choice([1, 2, 65539, 65540, 7]) for _ in range(draw.randint(0, 4))]
    if draw.random() < 0.97:
        keys = list(dict.fromkeys(keys))
    for key in keys:
        kind = draw.choice([4] * 12 + [5, 5, 3, 2, 18])
        value = draw.choice([random_choice(draw, kind)] * 49 + [pod(14, b"")])
        body += struct.pack("<II", key, draw.choice([0, 0, 0, 0, 0, 1, 8, 16, 24])) + value
    return pod(15, body)


def filters(place):
    """Random formats, and what two of them have in common."""
    draw = random.Random(6)
    for i in range(place.some(COUNT)):
        a, b = random_format(draw), random_format(draw)
        if i % 10 == 0:
            b = randoms.changed(draw, b)
        place.file("a.pod", a)
        place.file("b.pod", b)
        (place.folder / "common.pod").unlink(missing_ok=True)
        status, line, stored = formats.answer(a, b)
        place.expect(f"{a.hex()} {b.hex()}", ["filter", "a.pod", "b.pod", "common.pod"], status,
                     line)
        place.same(f"common of {a.hex()} {b.hex()}", stored, place.read("common.pod"))
