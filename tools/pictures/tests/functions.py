"""The readers of scripts and WAV files beside those of bench/outside, and small functions by hand."""
from __future__ import annotations

import array
import random

from .asking import Asking  # first: it makes the modules below known

import grammar
import randoms
import readers
from pictures import look, run_text, script, shown, timeline, wav, wave

COUNT = 2000


def scripts(asking: Asking) -> None:
    """The first fault of random scripts."""
    draw = random.Random(87)
    for _ in range(COUNT):
        names = ["a"]
        text = "\n".join(randoms.random_line(draw, names) for _ in range(draw.randint(1, 14))).encode()
        text = randoms.changed(draw, text) if draw.random() < 0.3 else text
        fault = script.read(text).fault
        asking.same(repr(text), grammar.script_fault(text), fault.printed().decode() if fault else None)


def wav_of(held: bytes, read) -> object:
    try:
        return read(held)
    except (readers.Refused, wav.Fault) as fault:
        return fault.args


def wav_files(asking: Asking) -> None:
    """The first fault of random WAV files, or what they hold."""
    draw = random.Random(88)

    def held_by(held: bytes) -> object:
        it = wav.read(held)
        return it.channels, it.rate, it.samples.tobytes()

    for _ in range(COUNT):
        held = randoms.changed(draw, randoms.random_wave(draw))
        asking.same(repr(held), wav_of(held, readers.read_wav), wav_of(held, held_by))


def words_of_others(asking: Asking) -> None:
    """Words in sentences and in XML."""
    rows = [(b"a\\b", b"a\\\\b"), (b"\x1b[1m", b"\\x1b[1m"), (b"\xff\xc3\xa4", b"\\xff\xc3\xa4"),
            (b"a" * 201, b"a" * 200 + b".."), (b"\xc2\x85", b"\\xc2\\x85")]
    for word, wanted in rows:
        asking.same(repr(word), wanted, shown.shown(word))
    asking.same("XML", "&lt;a&gt; &amp; &quot;b&#39;", look.xml("<a> & \"b'"))


def near_words(asking: Asking) -> None:
    commands = [b"graph", b"timeline", b"wave"]
    for word, wanted in [(b"grpah", [b"graph"]), (b"wve", [b"wave"]), (b"timelnes", [b"timeline"]), (b"play", [])]:
        asking.same(repr(word), wanted, shown.guesses(word, commands))


def decibels(asking: Asking) -> None:
    """Decibels of full scale: a half is 6.02 below."""
    for value, wanted in [(32768, 0.0), (16384, -6.02), (8192, -12.04), (1, -90.31)]:
        asking.same(str(value), wanted, round(wave.decibels(value), 2))
    asking.same("silence", "peak 0, silent", wave.level_said(0))
    asking.same("the floor", (0.0, 128.0, -128.0), (wave.height_of(1, True), wave.height_of(32768, True),
                                                     wave.height_of(-32768, True)))


def steps(asking: Asking) -> None:
    """The first of 1, 2 and 5 times a power of ten milliseconds of which ten pass the end."""
    for seconds, wanted in [(0, 0.001), (0.01, 0.002), (1.024, 0.2), (10, 2), (60, 10), (5000, 1000)]:
        asking.same(str(seconds), wanted, wave.step_of(seconds))


def columns(asking: Asking) -> None:
    """Column c of n has the frames from floor(c n / 1000) on."""
    draw = random.Random(89)
    for count in [0, 1, 7, 999, 1000, 1001, 2500]:
        lane = array.array("h", (draw.randint(-32768, 32767) for _ in range(count)))
        drawn = min(count, 1000)
        wanted = [(min(part), max(part)) for part in (
            lane[c * count // drawn:(c + 1) * count // drawn] for c in range(drawn))]
        asking.same(f"{count} frames", wanted, [(it.least, it.greatest) for it in wave.columns_of(lane)])


def long_columns(asking: Asking) -> None:
    """Of many frames the least and the greatest are those that each frame's look finds."""
    draw = random.Random(94)
    reaches = [(-32768, 32767), (-300, 300), (0, 0), (-1, 0), (255, 256), (-257, -256), (-32768, -32768),
               (32767, 32767)]
    for low, high in reaches:
        part = array.array("h", (draw.randint(low, high) for _ in range(wave.FEW_FRAMES + draw.randint(0, 9))))
        wanted = wave.Column(min(part), max(part))
        asking.same(f"{low} to {high}", wanted, wave.column_of(part[:]))


def touching(asking: Asking) -> None:
    """Each column reaches the one before it."""
    made = wave.columns_of(array.array("h", [0, 900, -900, 5, 5]))
    reach = [wave.reach_of(made, at) for at in range(len(made))]
    pairs = zip(reach[1:], reach)
    asking.same("columns", True, all(one[0] <= before[1] and before[0] <= one[1] for one, before in pairs))


def bands(asking: Asking) -> None:
    """Bands hold all events in their order, at most 200 each, and end before a begin where they can."""
    draw = random.Random(90)
    for _ in range(200):
        kinds = [b"begin" if draw.random() < 0.05 else b"end" for _ in range(draw.randint(0, 999))]
        events = [run_text.Event(kind, 0, ()) for kind in kinds]
        made = timeline.bands_of(events)
        asking.same("places", list(range(len(events))), [at for band in made for at in range(*band)])
        for start, end in made[:-1]:
            breaks = [at for at in range(start + 1, start + 201) if events[at:at + 1] and events[at].kind == b"begin"]
            asking.same("end", max(breaks, default=start + 200), end)


TESTS = [scripts, wav_files, words_of_others, near_words, decibels, steps, columns, long_columns, touching, bands]
