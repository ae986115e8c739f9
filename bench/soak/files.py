"""Writes the graph that `soak` draws from a number, as a script and WAV files, by docs/FORMATS.md."""
import array
import os
import struct
import sys

room, number = sys.argv[1], int(sys.argv[2])
state = number


def draw(n):
    global state
    state = (state * 6364136223846793005 + 1442695040888963407) % 2**64
    return (state >> 33) % n


nodes, links = [], []
for i in range(8):
    samples = array.array("h", (draw(65536) - 32768 for _ in range(65536)))
    gain, delay = draw(513) - 256, draw(1025)
    data = samples.tobytes()
    with open(os.path.join(room, f"s{i}.wav"), "wb") as out:
        out.write(b"RIFF" + struct.pack("<I", 36 + len(data)) + b"WAVEfmt ")
        out.write(struct.pack("<IHHIIHH", 16, 1, 1, 48000, 96000, 2, 16) + b"data" + struct.pack("<I", len(data)) + data)
    nodes += [f"source s{i} s{i}.wav", f"gain g{i} {gain}", f"delay d{i} {delay}"]
    links += [f"link s{i}.out g{i}.in", f"link g{i}.out d{i}.in", f"link d{i}.out mix.in", f"link d{i}.out level.in"]
off = draw(8)
lines = ["quantum 256", *nodes, "sink mix mix.wav", "meter level", "driver mix 1", *links]
lines += ["cycles 100", f"off s{off}", "cycles 50", f"on s{off}", "drain"]
with open(os.path.join(room, "soak.graph"), "w") as out:
    out.write("\n".join(lines) + "\n")
