"""Random lists of gains, to the built program and back: the bytes that it stores, or the line at which it refuses a list, beside a reader that is written here
apart from it. The program is the first word, the number of lists the second; prints how many were alike, and stops at the first that is not."""
import os
import random
import re
import struct
import subprocess
import sys
import tempfile

program, count = os.path.abspath(sys.argv[1]), int(sys.argv[2])
random.seed(48)
number = re.compile(rb"(0|[1-9][0-9]*)\Z")


def whole(word, low, high):
    """A number in plain decimal, or none."""
    sign = 1
    if low < 0 and word[:1] == b"-":
        sign, word = -1, word[1:]
        if word == b"0":
            return None
    if not number.match(word) or not low <= sign * int(word) <= high:
        return None
    return sign * int(word)


def gain(word):
    """A gain in 1/256, or none."""
    if word.endswith(b"dB"):
        decibels = whole(word[:-2], -60, 42)
        return None if decibels is None else int(256 * 10 ** (decibels / 20) + 0.5)
    return whole(word, -32767, 32767)


def read(text):
    """The points of a list, or the number of its first line at fault."""
    points = []
    for place, line in enumerate(text.split(b"\n"), 1):
        words = re.findall(rb"[^ \t\r]+", line)
        if not words or words[0].startswith(b"#"):
            continue
        frame = whole(words[0], 0, 2**32 - 1)
        if len(words) != 2 or frame is None or points and frame < points[-1][0] or gain(words[1]) is None:
            return place
        points.append((frame, gain(words[1])))
    return points


def spelled(points):
    """The bytes of the sequence of points."""
    body = struct.pack("<II", 0, 0)
    for frame, g in points:
        body += struct.pack("<IIIIIIIIIIiI", frame, 1, 32, 15, 0x40002, 2, 0x1000001, 0, 4, 4, g, 0)
    return struct.pack("<II", len(body), 16) + body


def line(frame):
    """A line of a list, now and then a wrong one."""
    kind = random.random()
    if kind < 0.1:
        return random.choice([b"", b"# \xc3\xbc 1", b" \t\r", b"#", b"#1 2"]), frame
    if kind < 0.15:
        return random.choice([b"1", b"1 2 3", b"x 1", b"1 x", b"01 1", b"1 01", b"1 -0", b"1 43dB", b"4294967296 1", b"1 32768", b"1 --6dB", b"\x00 1", b"1 1\xff", b"0 1"]), frame
    frame = min(frame + random.choice([0, 1, 7, 4096, 10**9]), 2**32 - 1)
    if random.random() < 0.4:
        said = b"%ddB" % random.randint(-60, 42)
    else:
        said = b"%d" % random.choice([random.randint(-32767, 32767), 0, 256, 32767, -32767])
    gap = random.choice([b" ", b"\t", b"   ", b" \r"])
    return random.choice([b"", b" "]) + b"%d" % frame + gap + said + random.choice([b"", b" ", b"\r"]), frame


def one(folder):
    """A random list, the program's answer and this reader's."""
    lines, frame = [], 0
    for _ in range(random.randint(0, 12)):
        said, frame = line(frame)
        lines.append(said)
    text = b"\n".join(lines) + random.choice([b"", b"\n"])
    open(folder + "/list", "wb").write(text)
    if os.path.exists(folder + "/pod"):
        os.remove(folder + "/pod")
    by_pipe = random.random() < 0.1
    words = ["gains", "-", "-"] if by_pipe else ["gains", "list", "pod"]
    ran = subprocess.run([program] + words, cwd=folder, input=text if by_pipe else b"", capture_output=True)
    wanted = read(text)
    stored = ran.stdout if by_pipe else (open(folder + "/pod", "rb").read() if os.path.exists(folder + "/pod") else b"")
    if isinstance(wanted, int):
        alike = ran.returncode == 2 and stored == b"" and b": line %d: " % wanted in ran.stderr
    else:
        alike = ran.returncode == 0 and stored == spelled(wanted) and ran.stderr == b""
    if not alike:
        sys.exit(f"unlike: {text!r} wanted {wanted!r} got {ran!r} {stored!r}")
    return isinstance(wanted, int)


with tempfile.TemporaryDirectory() as folder:
    refused = sum(one(folder) for _ in range(count))
print(f"{count} lists, {refused} of them refused at their line: no difference")
