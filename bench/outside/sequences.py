"""Seeded random control sequences, asked of `automate` and of a reading apart from it."""
import random
import struct

import model
import randoms
import readers
from worked import GAINS, number, pod, wav

COUNT = 500
GAIN_KEY = 16777217


def points_of(content):
    """The offsets and gains of a control sequence's file."""
    taken, _ = readers.read_pod(content, 0, len(content), 1)
    if taken < len(content):
        raise readers.Refused(8, taken)
    size, kind = struct.unpack_from("<II", content)
    if kind != 16:
        raise readers.Refused(19)
    points, at, i, before = [], 16, 0, 0
    while at < 8 + size:
        offset, way, inner, kind = struct.unpack_from("<IIII", content, at)
        body, at = content[at + 16:at + 16 + inner], at + 16 + readers.pad8(inner)
        if offset < before:
            raise readers.Refused(20, i)
        if way == 1 and (kind != 15 or struct.unpack_from("<I", body)[0] != 0x40002):
            raise readers.Refused(21, i)
        gain = gain_of(body, i) if way == 1 else None
        points += [(offset, gain)] if gain is not None else []
        before, i = offset, i + 1
    return points


def gain_of(body, i):
    """The gain among the properties of an object, or None."""
    at = 8
    while at < len(body):
        key, _, inner, kind = struct.unpack_from("<IIII", body, at)
        if key == GAIN_KEY:
            gain = struct.unpack_from("<i", body, at + 16)[0] if kind == 4 else 40000
            if abs(gain) > 32767:
                raise readers.Refused(22, i)
            return gain
        at += 16 + readers.pad8(inner)
    return None


def automated(frames, points):
    """Each frame by the gain of the last point at or before it."""
    out = []
    for i, frame in enumerate(frames):
        gain = [256] + [g for offset, g in points if offset <= i]
        out += [model.clamp(s * gain[-1] >> 8) for s in frame]
    return out


def random_sequence(draw):
    body, offset = struct.pack("<II", draw.choice([0, 0, 9]), 0), 0
    for _ in range(draw.randint(0, 5)):
        offset = max(0, offset + draw.choice([0, 0, 1, 2, 3, 20] + [-1] * (draw.random() < 0.1)))
        value = draw.choice([number(draw.choice([0, 1, -300, 512, 32767, -32767]))] * 19
                            + [number(32768), pod(5, bytes(8)), pod(1, b"")])
        props = b"".join(struct.pack("<II", key, draw.choice([0, 8])) + value
                         for key in draw.choice([[GAIN_KEY]] * 6 + [[], [5], [5, GAIN_KEY]]))
        kind = draw.choice([0x40002] * 29 + [0x40003])
        control = draw.choice([pod(15, struct.pack("<II", kind, 2) + props)] * 29 + [number(1)])
        body += struct.pack("<II", offset, draw.choice([1] * 9 + [2])) + control
    return pod(draw.choice([16] * 29 + [14]), body) + draw.choice([b""] * 29 + [b"x"])


def sequences(place):
    """Random control sequences, and the files that they change."""
    draw = random.Random(7)
    for i in range(place.some(COUNT)):
        content = random_sequence(draw) if i % 5 else randoms.changed(draw, GAINS)
        channels = draw.choice([1, 2, 3])
        frames = [[draw.randint(-32768, 32767) for _ in range(channels)]
                  for _ in range(draw.choice([0, 1, 9, 30]))]
        place.file("in.wav", wav([s for frame in frames for s in frame], channels, 22050))
        place.file("gains.pod", content)
        (place.folder / "faded.wav").unlink(missing_ok=True)
        stored = None
        try:
            stored = wav(automated(frames, points_of(content)), channels, 22050)
            wanted = 0, f"wrote {len(frames)}\n"
        except readers.Refused as fault:
            wanted = 4, "pod 2 " + " ".join(map(str, fault.args)) + "\n"
        place.expect(content.hex(), ["automate", "in.wav", "gains.pod", "faded.wav"], *wanted)
        place.same(f"faded by {content.hex()}", stored, place.read("faded.wav"))
