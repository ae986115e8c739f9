"""The line of `soak`, made here of its number as docs/FORMATS.md draws the graph."""
import model

CHAINS, SAMPLES, QUANTUM, CYCLES = 8, 65536, 256, 306
NUMBERS = [7, 0, 4294967295]


class Draws:
    """Numbers that follow from a number."""

    def __init__(self, number):
        self.state = number

    def below(self, n):
        self.state = (self.state * 6364136223846793005 + 1442695040888963407) % 2**64
        return (self.state >> 33) % n


def line_of(number):
    """The line that is put of a number."""
    draws, chains = Draws(number), []
    for _ in range(CHAINS):
        samples = [draws.below(65536) - 32768 for _ in range(SAMPLES)]
        chains.append((samples, draws.below(513) - 256, draws.below(1025)))
    off, frames = draws.below(CHAINS), CYCLES * QUANTUM
    sums = [0] * frames
    for i, (samples, gain, delay) in enumerate(chains):
        given = list(samples)
        if i == off:  # for 50 cycles after the first 100 the source gives nothing
            given[100 * QUANTUM:100 * QUANTUM] = [0] * (50 * QUANTUM)
        given += [0] * (frames - len(given))
        late = [0] * delay + [model.clamp(s * gain >> 8) for s in given]
        sums = [a + b for a, b in zip(sums, late)]
    mixed = [model.clamp(s) for s in sums]
    return f"soak {number} {CYCLES} {frames} {sum(mixed)} {max(map(abs, mixed))}\n"


def numbers(place):
    """The lines of `soak`, computed apart from the program."""
    for number in NUMBERS:
        place.expect(f"soak {number}", ["soak", str(number)], 0, line_of(number))
