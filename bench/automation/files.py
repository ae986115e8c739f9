"""Writes four minutes of stereo as a WAV file, and a control sequence of 10,000 gains over it."""
import array
import struct
import sys

FRAMES, POINTS = 11_520_000, 10_000
wav, seq = sys.argv[1:]

samples, x = array.array("h", bytes(4 * FRAMES)), 1
for i in range(0, 2 * FRAMES, 7):
    x = (x * 1664525 + 1013904223) % 2**32
    samples[i] = x // 65536 - 32768
data = samples.tobytes()
with open(wav, "wb") as out:
    out.write(b"RIFF" + struct.pack("<I", 36 + len(data)) + b"WAVEfmt " + struct.pack("<IHHIIHH", 16, 1, 2, 48000, 192000, 4, 16))
    out.write(b"data" + struct.pack("<I", len(data)) + data)

body = struct.pack("<II", 0, 0)
for k in range(POINTS):
    gain = struct.pack("<IIIIi4x", 16777217, 0, 4, 4, k % 512 - 256)
    props = struct.pack("<IIII", 8 + len(gain), 15, 0x40002, 0) + gain
    body += struct.pack("<II", k * (FRAMES // POINTS), 1) + props
with open(seq, "wb") as out:
    out.write(struct.pack("<II", len(body), 16) + body)
