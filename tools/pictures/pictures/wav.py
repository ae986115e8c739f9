"""A WAV file of 16-bit PCM: its rate, its channels and its samples, or its first fault.

Source: RIFF WAVE; docs/FORMATS.md, "WAV files".
"""
from __future__ import annotations

import array
import struct
import sys
from dataclasses import dataclass
from typing import Optional, Tuple

NOT_RIFF, NO_FMT, BAD_FMT, NOT_PCM16, NO_DATA, TRUNCATED, UNEVEN, RANGES = range(1, 9)
SENTENCES = {
    NOT_RIFF: b"this is no RIFF WAVE file", NO_FMT: b"there is no fmt chunk before the samples",
    BAD_FMT: b"the fmt chunk is not sound", NOT_PCM16: b"only PCM of 16 bits a sample is read",
    NO_DATA: b"there is no data chunk", TRUNCATED: b"a chunk passes the end of the file",
    UNEVEN: b"the samples are not whole frames",
    RANGES: b"only 1 to 8 channels at 1 to 384000 frames a second are read"}
PCM_SUBFORMAT = bytes.fromhex("0100000000001000800000aa00389b71")
UNKNOWN_SIZE = 0xFFFFFFFF


class Fault(Exception):
    """The number of the first fault of a file."""

    def __init__(self, number: int) -> None:
        super().__init__(number)
        self.number = number


@dataclass(frozen=True)
class Samples:
    """Frames a second, channels, and the samples, interleaved by channel."""

    rate: int
    channels: int
    samples: "array.array[int]"

    def frames(self) -> int:
        return len(self.samples) // self.channels


def form_of(held: bytes, at: int, size: int) -> Tuple[int, int]:
    """The rate and the channels that a chunk `fmt ` says."""
    if size < 16:
        raise Fault(BAD_FMT)
    if at + size > len(held):
        raise Fault(TRUNCATED)
    tag, channels, rate, _, frame, bits = struct.unpack_from("<HHIIHH", held, at)
    if tag == 0xFFFE and size < 40:
        raise Fault(BAD_FMT)
    is_pcm = tag == 1 or tag == 0xFFFE and held[at + 24 : at + 40] == PCM_SUBFORMAT
    if not is_pcm or bits != 16:
        raise Fault(NOT_PCM16)
    if not 1 <= channels <= 8 or not 1 <= rate <= 384000:
        raise Fault(RANGES)
    if frame != 2 * channels:
        raise Fault(BAD_FMT)
    return rate, channels


def samples_of(held: bytes, at: int, size: int, channels: int) -> "array.array[int]":
    left = len(held) - at
    if size == UNKNOWN_SIZE:
        size = left - left % (2 * channels)
    elif size > left:
        raise Fault(TRUNCATED)
    if size % (2 * channels):
        raise Fault(UNEVEN)
    samples = array.array("h")
    samples.frombytes(memoryview(held)[at : at + size])
    if sys.byteorder == "big":
        samples.byteswap()
    return samples


def read(held: bytes) -> Samples:
    """The samples of a file, or its first fault from the left."""
    if len(held) < 12 or held[:4] != b"RIFF" or held[8:12] != b"WAVE":
        raise Fault(NOT_RIFF)
    form: Optional[Tuple[int, int]] = None
    at = 12
    while at < len(held):
        missing = NO_FMT if form is None else NO_DATA
        if at + 8 > len(held):
            raise Fault(missing)
        name, size = held[at : at + 4], int.from_bytes(held[at + 4 : at + 8], "little")
        at += 8
        if name == b"data":
            if form is None:
                raise Fault(NO_FMT)
            return Samples(*form, samples_of(held, at, size, form[1]))
        if name == b"fmt " and form is None:
            form = form_of(held, at, size)
        elif at + size > len(held):
            raise Fault(TRUNCATED)
        at += size + size % 2
    raise Fault(NO_FMT if form is None else NO_DATA)
