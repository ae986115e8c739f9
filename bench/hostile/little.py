"""Little memory, few files, few threads."""
import resource

from worked import ONE, ONE_TEXT, wav

LONG = ("quantum 8192\nsource s little.wav\ngain g 256\nsink o little.out\ndriver o 1\n"
        "link s.out g.in\nlink g.out o.in\ncycles 500\n")
LONG_TEXT = "link s.out g.in 48000 1 2\nlink g.out o.in 48000 1 2\nwrote o 4096000\n"


def address_space(place):
    """Little address space.

    All is as without it, or `memory`, or, below what the C library needs, nothing starts.
    """
    place.file("little.graph", LONG)
    place.file("little.wav", wav([5] * 1000))
    wanted = wav([5] * 1000 + [0] * 4095000)
    for loops in ["0", "1", "16"]:
        for kib in list(range(1000, 6000, 250)) + list(range(6000, 80000, 2000)) + [100000, 200000,
                400000]:
            old = place.file("little.out", "old")
            answer = place.ask("run", "little.graph", "--loops", loops,
                               limits=[(resource.RLIMIT_AS, 1024 * kib)])
            left = old.read_bytes()
            told = answer.status, answer.out
            good = told == (0, LONG_TEXT.encode()) and left == wanted
            refused = told in [(9, b"memory\n"), (9, b"")] and left in (b"old", wanted)
            unborn = answer.status in (-6, -11, 127) and not answer.out and kib < 3000
            place.same(f"{kib} KiB, {loops} loops: {told}", True, good or refused or unborn)


def other_limits(place):
    """Few open files, and a small stack."""
    place.file("limits.graph", ONE.format("limits.wav"))
    for limit, value, wanted in [
            (resource.RLIMIT_NOFILE, 4, (0, ONE_TEXT)),
            (resource.RLIMIT_STACK, 131072, (0, ONE_TEXT)),
            (resource.RLIMIT_STACK, 1 << 20, (0, ONE_TEXT))]:
        for loops in ["0", "16"]:
            place.expect(f"limit {limit} of {value}, {loops} loops",
                         ["run", "limits.graph", "--loops", loops], *wanted,
                         limits=[(limit, value)])
