"""The peaks of a WAV file as an SVG: a lane a channel, over seconds, on a linear scale or one in decibels.

Source: w3.org, "SVG 1.1" (paths); decibels of full scale, 20 log10 of a share of 32768 (AES17).
"""
from __future__ import annotations

import array
import math
import sys
from dataclasses import dataclass
from typing import List, Tuple

from .look import BLUE, DARK, GREY, PALE, RED, document, words
from .wav import Samples

COLUMNS, LANE, GAP, LEFT, TOP = 1000, 256, 44, 64, 96
LOWEST, HIGHEST = -32768, 32767
FLOOR = -60
# Of fewer frames in a column each is looked at by itself.
FEW_FRAMES = 2048
# Bytes so that the high ones of signed samples are in order, and so that the order of all is turned round.
IN_ORDER, TURNED = bytes(byte ^ 128 for byte in range(256)), bytes(255 - byte for byte in range(256))


@dataclass(frozen=True)
class Column:
    """The least and the greatest of some samples of a channel."""

    least: int
    greatest: int

    def is_clipped(self) -> bool:
        return self.least == LOWEST or self.greatest == HIGHEST


@dataclass(frozen=True)
class Channel:
    """The columns of a channel, its peak, and how many of its samples are at the limits."""

    columns: List[Column]
    clipped: int

    def peak(self) -> int:
        return max((max(it.greatest, -it.least) for it in self.columns), default=0)


def greatest_byte(held: bytes) -> int:
    return next(byte for byte in range(255, -1, -1) if byte in held)


def greatest_of(held: bytes) -> int:
    """The greatest of samples of 16 bits, low byte first: by its high byte, then by the low bytes beside it."""
    high, low = held[1::2].translate(IN_ORDER), held[::2]
    top = greatest_byte(high)
    having = high.translate(bytes(255 if byte == top else 0 for byte in range(256)))
    both = int.from_bytes(low, "little") & int.from_bytes(having, "little")
    return (top - 128) * 256 + greatest_byte(both.to_bytes(len(low), "little"))


def column_of(part: "array.array[int]") -> Column:
    if len(part) < FEW_FRAMES:
        return Column(min(part), max(part))
    if sys.byteorder == "big":
        part.byteswap()
    held = part.tobytes()
    return Column(~greatest_of(held.translate(TURNED)), greatest_of(held))


def columns_of(lane: "array.array[int]") -> List[Column]:
    """A column for as many frames as there are for each of the thousand, one for each frame of fewer."""
    count = min(COLUMNS, len(lane))
    ends = [at * len(lane) // count for at in range(count + 1)] if count else [0]
    return [column_of(lane[start:end]) for start, end in zip(ends, ends[1:])]


def channel_of(samples: Samples, number: int) -> Channel:
    lane = samples.samples[number :: samples.channels]
    columns = columns_of(lane)
    is_clipped = any(it.is_clipped() for it in columns)
    return Channel(columns, lane.count(LOWEST) + lane.count(HIGHEST) if is_clipped else 0)


def decibels(value: int) -> float:
    """Decibels of full scale of an absolute value above 0."""
    return 20 * math.log10(value / 32768)


def level_said(peak: int) -> str:
    return f"peak {peak}, {decibels(peak):.1f} dBFS" if peak else "peak 0, silent"


def height_of(value: int, in_decibels: bool) -> float:
    """How far from the middle of its lane a sample lies, up to half of the lane."""
    half = LANE / 2
    if not in_decibels:
        return half * value / 32768
    if value == 0:
        return 0
    share = max(0.0, 1 - decibels(abs(value)) / FLOOR)
    return math.copysign(half * share, value)


def marks_of(in_decibels: bool) -> List[Tuple[float, str]]:
    """The levels of the scale: how far from the middle, and what stands there."""
    levels = [0, -6, -12, -24, -36, -48] if in_decibels else [0, -6, -12, -18]
    far = [1 - level / FLOOR if in_decibels else 10 ** (level / 20) for level in levels]
    return [(LANE / 2 * share, f"{level} dB" if level == 0 else str(level)) for share, level in zip(far, levels)]


def step_of(seconds: float) -> float:
    """The first of 1, 2 and 5 times a power of ten milliseconds of which ten pass the end."""
    for power in range(9):
        for digit in (1, 2, 5):
            step = digit * 10 ** power / 1000
            if 10 * step > seconds:
                return step
    return 10 ** 6


def reach_of(columns: List[Column], at: int) -> Tuple[int, int]:
    """From where to where a column is drawn: as far as the one before it, so that neighbours touch."""
    before = columns[max(at - 1, 0)]
    return min(columns[at].least, before.greatest), max(columns[at].greatest, before.least)


def path_of(columns: List[Column], middle: int, in_decibels: bool, clipped: bool) -> str:
    """The columns that are clipped, or those that are not, as one path."""
    width = COLUMNS / max(len(columns), 1)
    parts = []
    for at, column in enumerate(columns):
        if column.is_clipped() == clipped:
            least, greatest = reach_of(columns, at)
            high = middle - height_of(greatest, in_decibels)
            low = max(middle - height_of(least, in_decibels), high + 1)
            left, right = LEFT + at * width, LEFT + (at + 1) * width
            parts.append(f"M{left:.2f} {high:.1f}H{right:.2f}V{low:.1f}H{left:.2f}z")
    return "".join(parts)


def lane_of(channel: Channel, number: int, in_decibels: bool) -> List[str]:
    """A lane: its ground, its scale, its name with the peak, its columns."""
    top = TOP + number * (LANE + GAP)
    middle = top + LANE // 2
    parts = [f"<path class='ground' d='M{LEFT} {top}h{COLUMNS}v{LANE}h{-COLUMNS}z'/>"]
    for far, text in marks_of(in_decibels):
        parts.append(f"<path class='g' d='M{LEFT} {middle - far:.1f}h{COLUMNS}M{LEFT} {middle + far:.1f}h{COLUMNS}'/>")
        parts.append(words(LEFT + COLUMNS + 6, middle - far + 4, text, "class='s'"))
    clipped = f", {channel.clipped} clipped" if channel.clipped else ""
    parts.append(words(LEFT, top - 8, f"channel {number + 1}: {level_said(channel.peak())}{clipped}"))
    parts.append(f"<path class='z' d='M{LEFT} {middle}h{COLUMNS}'/>")
    for is_clipped, name in ((False, "w"), (True, "k")):
        path = path_of(channel.columns, middle, in_decibels, is_clipped)
        parts += [f"<path class='{name}' d='{path}'/>"] if path else []
    return parts


def ticks(seconds: float, bottom: int) -> List[str]:
    """The time axis: a rule at each multiple of the step."""
    step = step_of(seconds)
    places = range(int(seconds / step + 1e-9) + 1) if seconds else range(1)
    decimals = max(0, -math.floor(math.log10(step) + 1e-9))
    parts = []
    for at in places:
        x = LEFT + (COLUMNS * at * step / seconds if seconds else 0)
        parts.append(f"<path class='t' d='M{x:.1f} {TOP}V{bottom}'/>")
        parts.append(words(round(x, 1), bottom + 18, f"{at * step:.{decimals}f}", "text-anchor='middle'"))
    return parts + [words(LEFT + COLUMNS + 22, bottom + 18, "seconds")]


def draw(samples: Samples, title: str, in_decibels: bool) -> bytes:
    channels = [channel_of(samples, number) for number in range(samples.channels)]
    seconds = samples.frames() / samples.rate
    bottom = TOP + len(channels) * (LANE + GAP) - GAP
    about = (f"{seconds:.3f} seconds, {samples.frames()} frames, {samples.rate} Hz, "
             f"{samples.channels} channel{'s' if samples.channels > 1 else ''}")
    clipped = sum(channel.clipped for channel in channels)
    head = [words(LEFT, 24, title, "class='title'"), words(LEFT, 44, about)]
    if clipped:
        head.append(f"<path class='k' d='M{LEFT} 54h12v12h-12z'/>")
        head.append(words(LEFT + 20, 64, f"clipped: a sample is {HIGHEST} or {LOWEST}"))
    lanes = [part for number, channel in enumerate(channels) for part in lane_of(channel, number, in_decibels)]
    styles = [f".ground{{fill:#fafafa}}.g{{stroke:{PALE};fill:none}}.z{{stroke:{GREY}}}.w{{fill:{BLUE}}}"
              f".k{{fill:{RED}}}.t{{stroke:{DARK};stroke-opacity:.15}}.s{{font-size:11px;fill:{GREY}}}"]
    levels = "; ".join(f"channel {number + 1} {level_said(it.peak())}" for number, it in enumerate(channels))
    return document(LEFT + COLUMNS + 80, bottom + 36, title, f"{about}; {levels}", styles,
                    head + lanes + ticks(seconds, bottom))
