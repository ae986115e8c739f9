"""Files byte for byte: of sizes about 64 KiB, as loaded and as stored, and of 46 MB."""
import struct

from asking import MAIN, PICTURES, PODS
from worked import chunk, form, number, pod, props, riff, sequence, thing, wav

EDGES = [65535, 65536, 65537]
HEADER = 44
FRAMES = 11520000  # four minutes of stereo at 48000
PERIOD = 65521  # a prime, so that no part of a file is like another at a round offset
DRAIN = "quantum 1\nsource s {}\nsink o o.wav\ndriver o 1\nlink s.out o.in\ndrain\n"
DRAINED = "link s.out o.in 48000 1 2\nwrote o {}\n"


def noise(count):
    """So many samples that repeat after PERIOD."""
    block = [(i * 40503 + i // 7) % 65536 - 32768 for i in range(PERIOD)]
    return (block * (count // PERIOD + 1))[:count]


def tiled(samples, size):
    """The bytes of a row of samples, repeated up to a size."""
    block = struct.pack(f"<{len(samples)}h", *samples)
    return (block * (size // len(block) + 1))[:size]


def read(content):
    """Channels and rate of a stored file, whether its header is sound, and its samples."""
    name, size, wave, fmt, width, tag, channels, rate, second, frame, bits, data, count = \
        struct.unpack("<4sI4s4sIHHIIHH4sI", content[:HEADER].ljust(HEADER, b"?"))
    sound = (name, wave, fmt, data) == (b"RIFF", b"WAVE", b"fmt ", b"data")
    sound &= (width, tag, bits, size) == (16, 1, 16, 36 + count)
    sound &= (second, frame, len(content)) == (2 * channels * rate, 2 * channels, HEADER + count)
    return channels, rate, sound, content[HEADER:]


def parting(one, other):
    """The first place at which two rows of bytes differ, or None."""
    if one == other:
        return None
    shorter = min(len(one), len(other))
    return next((i for i in range(shorter) if one[i] != other[i]), shorter)


def stored(place, what, name, channels, body):
    """Compares a stored file with the samples that it must have, and forgets it."""
    *form_, samples = read(place.read(name) or b"")
    place.forget(name)
    place.same(f"{what}: its form, and the first byte of its samples that differs",
               (channels, 48000, True, None), (*form_, parting(body, samples)))


def sizes(place):
    """Stores of sizes about 64 KiB, byte for byte."""
    place.file("one.pod", sequence())
    counts = {(edge + at) // 2 for edge in EDGES for at in (0, 1, -HEADER, 1 - HEADER)}
    for count in sorted(counts):
        samples = noise(count)
        place.file("in.wav", wav(samples))
        body = struct.pack(f"<{count}h", *samples)
        place.file("drain.graph", DRAIN.format("in.wav"))
        for words in [["run", "drain.graph", "--loops", "0"], ["groups", "drain.graph"]]:
            place.expect(f"{words[0]}: {count} samples", words, 0, DRAINED.format(count))
            stored(place, f"{words[0]}: a sink of {2 * count} bytes", "o.wav", 1, body)
        place.expect(f"automate: {count} samples", ["automate", "in.wav", "one.pod", "o.wav"], 0,
                     f"wrote {count}\n")
        stored(place, f"automate: {2 * count} bytes", "o.wav", 1, body)
    pods(place)


def pods(place):
    """PODs of the sizes about 64 KiB that a POD may have, by each command that stores one."""
    place.file("none.pod", thing())
    for size in (65520, 65528, 65536, 65544):
        body = bytes(i % 251 for i in range(size - 8))
        place.file("text", f'bytes "{body.hex()}"\n')
        points = [(i, i % 1000) for i in range(size // 48)]
        place.file("list", "".join(f"{at} {gain}\n" for at, gain in points))
        wide = thing((7, pod(9, body[:size - 32])))
        place.file("wide.pod", wide)
        gains = sequence(*((at, props(number(gain))) for at, gain in points))
        for words, of, out, wanted in [
                (["pod", "text", "o.pod"], PODS, "", pod(9, body)),
                (["gains", "list", "o.pod"], PODS, "", gains),
                (["filter", "wide.pod", "none.pod", "o.pod"], MAIN, "common\n", wide)]:
            place.expect(f"{words[0]}: {len(wanted)} bytes", words, 0, out, of=of)
            place.same(f"{words[0]}: {len(wanted)} bytes are stored", wanted, place.read("o.pod"))
            place.forget("o.pod")


def loads(place):
    """Loads of 65,535 to 65,537 bytes: scripts, WAV files whole and of so many bytes of samples."""
    for edge in EDGES:
        script = DRAIN.format("in.wav").encode()
        place.file("in.wav", wav([1, -2, 3]))
        place.file("long.graph", b"#" * (edge - len(script) - 1) + b"\n" + script)
        place.expect(f"a script of {edge} bytes", ["run", "long.graph"], 0, DRAINED.format(3))
        three = struct.pack("<3h", 1, -2, 3)
        stored(place, f"the sink of a script of {edge} bytes", "o.wav", 1, three)
        place.file("drain.graph", script)
        count = (edge - HEADER) // 2
        body = struct.pack(f"<{count}h", *noise(count))
        whole = (wav(noise(count)) + b"junk")[:edge]
        rest = riff(chunk(b"fmt ", form()), chunk(b"data", bytes(i % 249 for i in range(edge)),
                                                  0xFFFFFFFF))
        for what, content, wanted in [("bytes in all", whole, body),
                                      ("bytes of samples", rest, rest[HEADER:][:edge // 2 * 2])]:
            place.file("in.wav", content)
            place.expect(f"{edge} {what}", ["run", "drain.graph", "--loops", "0"], 0,
                         DRAINED.format(len(wanted) // 2))
            stored(place, f"the sink of {edge} {what}", "o.wav", 1, wanted)
        line = b"12000 128\n"
        place.file("list", b"#" * (edge - len(line) - 1) + b"\n" + line)
        place.expect(f"a list of {edge} bytes", ["gains", "list", "o.pod"], 0, of=PODS)
        place.same(f"the gains of a list of {edge} bytes", sequence((12000, props(number(128)))),
                   place.read("o.pod"))
    traces(place)


def traces(place):
    """Traces of more than 64 KiB and of more than 1 MiB, legal and not at their last event."""
    for cycles in (2000, 30000):
        place.file("cycles.graph", f"cycles {cycles}\n")
        lines = [f"{event} {c}{name}\n" for c in range(cycles) for event, name in
                 [("begin", ""), ("start", " dummy"), ("finish", " dummy"), ("end", "")]]
        place.file("long.trace", "".join(lines))
        words = ["cycles.graph", "long.trace"]
        place.expect(f"a trace of {cycles} cycles", ["check", *words], 0, "legal\n")
        drawn = place.ask("timeline", *words, of=PICTURES)
        place.same(f"the picture of {cycles} cycles", (0, True),
                   (drawn.status, drawn.out.endswith(b"</svg>\n")))
        place.file("long.trace", "".join(lines[:-1]))
        place.expect(f"{cycles} cycles without the end", ["check", *words], 0,
                     f"illegal {4 * cycles}\n")


def great(place):
    """A run and `automate` of 46 MB, byte for byte."""
    samples = noise(PERIOD)
    size = 4 * FRAMES
    body = tiled(samples, size)
    place.file("great.wav", wav([], 2)[:40] + struct.pack("<I", size) + body)
    place.file("great.graph", "source s great.wav\ngain g 200\nsink o o.wav\ndriver o 1\n"
               "link s.out g.in\nlink g.out o.in\ndrain\n")
    text = f"link s.out g.in 48000 2 2\nlink g.out o.in 48000 2 2\nwrote o {FRAMES}\n"
    place.expect("a run of four minutes", ["run", "great.graph", "--loops", "0"], 0,
                 text)
    stored(place, "a sink of 46 MB", "o.wav", 2, tiled([s * 200 >> 8 for s in samples], size))
    place.file("gains.pod", sequence((5, props(number(-128))), (6000001, props(number(256)))))
    drawn = place.ask("wave", "great.wav", of=PICTURES)
    place.same("the picture of 46 MB", (0, True, True),
               (drawn.status, drawn.out.startswith(b"<svg"), drawn.out.endswith(b"</svg>\n")))
    place.expect("automate of four minutes", ["automate", "great.wav", "gains.pod", "o.wav"], 0,
                 f"wrote {FRAMES}\n")
    half = tiled([s * -128 >> 8 for s in samples], size)
    stored(place, "automate: 46 MB", "o.wav", 2, body[:20] + half[20:24000004] + body[24000004:])
    place.forget("great.wav")
