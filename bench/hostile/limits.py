"""All limits at once: as many bytes of files, samples, blocks and events as there may be."""
import os

from worked import wav

CHANNELS, BUFFERS = 8, 8
BLOCK = BUFFERS * 8192 * CHANNELS * 2  # bytes of a link
EVENTS, SAMPLES, BLOCKS, FILE = 4194304, 134217728, 268435456, 268435456
SQUARES, METERS = 17, 15


def most():
    """A script that reaches the limits and passes none."""
    names = [f"q{i}" for i in range(SQUARES)] + [f"m{i}" for i in range(METERS)]
    links = [f"link q{i}.out m{k}.in" for i in range(SQUARES) for k in range(METERS)]
    cycles = SAMPLES // (8192 * CHANNELS)
    left = EVENTS - (2 * len(names) + 3) - cycles * (2 * 3 + 3)
    lines = ["quantum 8192", "source a x.big", "source b y.big", "sink o big.out", "driver o 1"]
    lines += [f"square q{i} 48000 {CHANNELS} 2 5" for i in range(SQUARES)]
    lines += [f"meter m{i}" for i in range(METERS)] + ["driver m0 5"]
    lines += [f"buffers {name} out {BUFFERS}" for name in ["a", "b"] + names[:SQUARES]]
    lines += links[:BLOCKS // BLOCK - 2] + ["link a.out o.in", "link b.out o.in"]
    lines += ["off a", "off b", "cycles 1", "on a", "on b"] + [f"off {name}" for name in names]
    return lines + [f"cycles {cycles}", "off a", "off b", "off o", f"cycles {left // 5}"]


def together(place):
    """All limits at once: what is as great as may be runs in less than 3 GB."""
    for name in ["x.big", "y.big"]:
        samples = (FILE - 44) // (2 * CHANNELS) * 2 * CHANNELS
        place.file(name, wav([], CHANNELS)[:40] + samples.to_bytes(4, "little"))
        os.truncate(place.folder / name, 44 + samples)
    lines = most()
    place.file("most.graph", "\n".join(lines))
    for loops in ["0", "1"]:
        answer = place.ask("run", "most.graph", "--loops", loops)
        told = answer.status, answer.out.count(b"\n"), (place.folder / "big.out").stat().st_size
        place.same(f"all limits, {loops} loops", (0, 256 + 1 + METERS, 44 + 2 * SAMPLES), told)
        place.same("less than 3 GB", True, answer.peak < 3000000000 / (1 << 20))
    links = lines.index("off a")
    for at, more, which in [(len(lines), "cycles 1", 8), (len(lines) - 4, "cycles 1", 9),
                            (links, f"link q{SQUARES - 1}.out m{METERS - 1}.in", 7)]:
        place.file("most.graph", "\n".join(lines[:at] + [more] + lines[at:]))
        place.expect(f"one more: {more}", ["run", "most.graph"], 8, f"limit {at + 1} {which}\n")
    for name in ["x.big", "y.big", "big.out"]:
        (place.folder / name).unlink()
