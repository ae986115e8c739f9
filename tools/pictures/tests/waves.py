"""What the picture of a WAV file shows: its lanes, columns, peaks and axis, parsed out of the SVG."""
from __future__ import annotations

import re
import struct
from typing import List, Sequence
from xml.etree import ElementTree

from .asking import Asking

SVG = "{http://www.w3.org/2000/svg}"


def wav(samples: Sequence[int], channels: int = 1, rate: int = 48000) -> bytes:
    body = struct.pack(f"<{len(samples)}h", *samples)
    form = struct.pack("<HHIIHH", 1, channels, rate, 2 * channels * rate, 2 * channels, 16)
    return b"RIFF" + struct.pack("<I", 36 + len(body)) + b"WAVEfmt " + struct.pack("<I", 16) + form + (
        b"data" + struct.pack("<I", len(body)) + body)


def picture(asking: Asking, held: bytes, *words: str) -> ElementTree.Element:
    return ElementTree.fromstring(asking.drawn("wave", asking.file("a.wav", held), *words))


def words_of(root: ElementTree.Element) -> List[str]:
    return [it.text or "" for it in root.iter(f"{SVG}text")]


def columns_of(root: ElementTree.Element, name: str) -> List[List[float]]:
    """The left end, the upper end, the right end and the lower end of each column of a class."""
    paths = "".join(it.get("d") or "" for it in root.findall(f"{SVG}path[@class='{name}']"))
    return [[float(it) for it in found] for found in re.findall(r"M([\d.]+) ([\d.]+)H([\d.]+)V([\d.]+)", paths)]


def peaks(asking: Asking) -> None:
    """Each channel with its peak in numbers and dBFS; the file's name and its length in seconds."""
    said = words_of(picture(asking, wav([16384, -1, 0, -8192] * 12000, 2)))
    for text in ["a.wav", "0.500 seconds, 24000 frames, 48000 Hz, 2 channels", "channel 1: peak 16384, -6.0 dBFS",
                 "channel 2: peak 8192, -12.0 dBFS"]:
        asking.same(text, True, text in said)
    asking.same("silence", True, "channel 1: peak 0, silent" in words_of(picture(asking, wav([0] * 9))))


def clipped(asking: Asking) -> None:
    """Clipped samples are red, counted and in the legend, only where there are any."""
    root = picture(asking, wav([0, 32767, -32768, 5]))
    asking.same("count", True, "channel 1: peak 32768, 0.0 dBFS, 2 clipped" in words_of(root))
    asking.same("columns", (2, 2), (len(columns_of(root, "k")), len(columns_of(root, "w"))))
    root = picture(asking, wav([0, 32766, -32767, 5]))
    asking.same("none", ([], False), (root.findall(f"{SVG}path[@class='k']"), "clipped" in "".join(words_of(root))))


def columns(asking: Asking) -> None:
    """A thousand columns, from the greatest to the least, each touching the one before it."""
    made = columns_of(picture(asking, wav([(at * 7919) % 60001 - 30000 for at in range(5000)])), "w")
    asking.same("columns", 1000, len(made))
    asking.same("touch", True, all(one[2] == other[0] and one[1] <= other[3] and other[1] <= one[3]
                                   for one, other in zip(made, made[1:])))
    made = columns_of(picture(asking, wav([16384, 16384])), "w")
    asking.same("height of a half", [160.0, 160.0], [it[1] for it in made])


def scales(asking: Asking) -> None:
    """A linear scale, or one in decibels, on which a half stands a tenth below the limit."""
    linear, decibels = picture(asking, wav([16384] * 4)), picture(asking, wav([16384] * 4), "--db")
    asking.same("linear", True, {"0 dB", "-6", "-12", "-18"} <= set(words_of(linear)))
    asking.same("decibels", True, {"0 dB", "-6", "-12", "-24", "-36", "-48"} <= set(words_of(decibels)))
    asking.same("heights", (160.0, 108.8), (columns_of(linear, "w")[0][1], columns_of(decibels, "w")[0][1]))


def empty(asking: Asking) -> None:
    root = picture(asking, wav([], 2))
    asking.same("no columns", [], columns_of(root, "w"))
    asking.same("length", True, "0.000 seconds, 0 frames, 48000 Hz, 2 channels" in words_of(root))


def alternative(asking: Asking) -> None:
    """A description with the peaks, and the file's name shown as a word of others is."""
    asking.file("<&>\x1b.wav", wav([16384]))
    root = ElementTree.fromstring(asking.drawn("wave", "<&>\x1b.wav"))
    asking.same("title", "<&>\\x1b.wav", root.findtext(f"{SVG}title"))
    asking.same("peaks", True, "channel 1 peak 16384, -6.0 dBFS" in (root.findtext(f"{SVG}desc") or ""))


TESTS = [peaks, clipped, columns, scales, empty, alternative]
