"""Seeded random files of each kind, asked of the program and of readers written apart from it."""
import random
import struct

import grammar
import readers
from worked import FORMAT, GAINS, ODD_WAV, pod, wav

COUNT = 1000  # of each kind
GRAPH = ("quantum 1\nsource s random.wav\nsink o random.out\ndriver o 1\nlink s.out o.in\n"
         "drain\n")
PORTS = ["in", "out", "a", "b", "left", "right"]
AMOUNTS = [0, 1, 2, 7, 8, 9, 15, 16, 256, -1, 32767, -32767, 32768, 65536, 65537, 384000, 384001,
           1000000]
ODD_WORDS = ["-0", "01", "+1", "", "1,0", "0,0,0", "1,,0", "1,", "a.b.c", ".in", "a.", "A", "a-b",
             "#", "#x", "9" * 30, "a" * 31, "a" * 32, "_a", "1a", "x.wav", "-x.wav", "f" * 255,
             "f" * 256]
COMMANDS = list(grammar.FORMS) + ["source", "gain", "sink", "link", "link", "quantum", "play", "#"]
NUMBERS = [0, 1, 2, 3, 4, 7, 8, 9, 12, 15, 16, 17, 24, 40, 255, 1048576, 1048577, 0x7FFFFFFF,
           0x80000000, 0xFFFFFFF8, 0xFFFFFFFF]


def changed(draw, content):
    """A file with a few bytes changed, cut off, put in or taken out."""
    content = bytearray(content)
    for _ in range(draw.randint(0, 3)):
        at = draw.randint(0, len(content))
        way = draw.randrange(5)
        if way == 0 and at < len(content):
            content[at] = draw.randrange(256)
        elif way == 1:
            del content[at:]
        elif way == 2:
            content[at:at] = draw.randbytes(draw.randint(1, 9))
        elif way == 3:
            del content[at:at + draw.randint(1, 9)]
        else:
            at = at // 4 * 4
            content[at:at + 4] = struct.pack("<I", draw.choice(NUMBERS))
    return bytes(content)


def random_wave(draw):
    """Chunks in some order, with odd forms among them."""
    pick = lambda *common: draw.choice(common + (draw.choice(NUMBERS),))
    chunks = b""
    for _ in range(draw.randint(0, 4)):
        name = draw.choice([b"fmt ", b"data", b"LIST", b"fmt ", b"data"])
        body = draw.randbytes(draw.choice([0, 1, 2, 3, 4, 6, 8, 12, 16]))
        if name == b"fmt ":
            channels = pick(1, 2, 8) & 0xFFFF
            body = struct.pack("<HHIIHH", pick(1, 1, 0xFFFE) & 0xFFFF, channels,
                               pick(48000, 1, 384000, 384001), 0,
                               pick(2 * channels & 0xFFFF, 2) & 0xFFFF,
                               draw.choice([16, 16, 16, 8, 24]))
            body += draw.choice([b"", b"", bytes(8) + readers.GUID, bytes(24), bytes(3)])
        size = len(body) + draw.choice([0] * 8 + [1, -1])
        size = draw.choice([size] * 9 + [-1]) & 0xFFFFFFFF
        chunks += name + struct.pack("<I", size) + body + bytes(len(body) % 2)
    return b"RIFF" + struct.pack("<I", draw.choice([0, len(chunks)])) + b"WAVE" + chunks


def waves(place):
    """Random WAV files."""
    draw = random.Random(1)
    place.file("random.graph", GRAPH)
    for i in range(place.some(COUNT)):
        kind = i % 3
        content = random_wave(draw) if kind else changed(draw, ODD_WAV)
        content = changed(draw, content) if kind == 1 else content
        place.file("random.wav", content)
        try:
            channels, rate, samples = readers.read_wav(content)
            frames = len(samples) // (2 * channels)
            wanted = 0, f"link s.out o.in {rate} {channels} 2\nwrote o {frames}\n"
        except readers.Refused as fault:
            wanted = 3, f"wav 2 {fault.args[0]}\n"
        place.expect(content.hex(), ["run", "random.graph"], *wanted)
        if wanted[0] == 0:
            stored = struct.unpack(f"<{frames * channels}h", samples)
            place.same(f"samples of {content.hex()}", wav(stored, channels, rate),
                       place.read("random.out"))


def random_pod(draw, depth=1):
    """A POD of any kind, most often sound."""
    kind = draw.choice([1, 2, 3, 4, 5, 6, 7, 8, 9, 10, 11, 12, 13, 14, 15, 16, 18, 19, 19, 15, 14])
    few = range(draw.randint(0, 3)) if depth < 5 else ()
    if kind in readers.SIZES:
        body = draw.randbytes(draw.choice([readers.SIZES[kind]] * 12 + [0, 4, 8, 3]))
    elif kind in (8, 9, 12):
        body = draw.randbytes(draw.randint(0, 9)) + draw.choice([b"", b"\0", b'a"\\\0'])
    elif kind in (13, 19):
        child = draw.choice([2, 3, 4, 4, 4, 5, 6, 7, 10, 11, 18, 0, 1, 8, 14, 20])
        width = draw.choice([readers.SIZES.get(child, 0)] * 12 + [0, 4, 8])
        head = struct.pack("<II", draw.choice([0, 1, 2, 3, 4, 3, 5]),
                           draw.choice([0, 0, 7])) if kind == 19 else b""
        body = head + struct.pack("<II", width,
                                  child) + draw.randbytes(width * draw.randint(0,
                                          4) + draw.choice([0] * 9 + [1]))
        body = draw.choice([body] * 9 + [b"", body[:7]])
    else:
        fields = [draw.randbytes(8) if kind != 14 else b"" for _ in few]
        body = b"" if kind == 14 else draw.randbytes(8)
        body += b"".join(field + random_pod(draw, depth + 1) for field in fields)
    return pod(kind if draw.random() < 0.98 else draw.choice([0, 17, 20, 255]), body)


def pods(place):
    """Random PODs."""
    draw = random.Random(2)
    for i in range(place.some(COUNT)):
        content = random_pod(draw) if i % 3 else changed(draw, draw.choice([FORMAT, GAINS]))
        content = changed(draw, content) if i % 3 == 1 else content
        place.file("random.pod", content)
        place.expect(content.hex(), ["dump", "random.pod"], *readers.dump(content))


def random_word(draw, names):
    """A word as may be in a script, and some that may not."""
    name = draw.choice(names + ["dummy", "q9"])
    return draw.choice([name, name, f"{name}.{draw.choice(PORTS)}", draw.choice(PORTS),
                        str(draw.choice(AMOUNTS)), draw.choice(ODD_WORDS)])


def random_line(draw, names):
    """A line whose words fit its command, but for a few."""
    command = draw.choice(COMMANDS)
    words = [command]
    for form in grammar.FORMS.get(command, ["file"]):
        if draw.random() < 0.12:
            words.append(random_word(draw, names))
        elif form == "new":
            words.append(draw.choice("abcdefgh") + draw.choice(["", "1", "_x"]))
        elif form == "node":
            words.append(draw.choice(names))
        elif form == "file":
            words.append(draw.choice(["x.wav", "-y", "z"]))
        elif form == "port":
            words.append(draw.choice(["in", "out", "a", "left"]))
        elif form in ("output", "input"):
            ports = [".out", ".left"] if form == "output" else [".in", ".in", ".a"]
            words.append(draw.choice(names) + draw.choice(ports))
        elif form == "list":
            words.append(",".join(str(draw.randrange(3)) for _ in range(draw.choice([1, 2, 8, 9]))))
        else:
            words.append(str(draw.choice([form[0], form[1], 1, 2])))
    if draw.random() < 0.02:
        words.append("x")
    if command in grammar.FORMS and draw.random() < 0.9 and "new" in grammar.FORMS[command]:
        names.append(words[1])
    line = draw.choice([" ", " ", "  ", "\t"]).join(words)
    return draw.choice(["", "", "", " ", "\t"]) + line + draw.choice(["", "", " ", "\r"])


def scripts(place):
    """Random scripts."""
    draw = random.Random(3)
    for _ in range(place.some(COUNT)):
        names, lines = ["a"], []
        for _ in range(draw.randint(1, 14)):
            lines.append(random_line(draw, names))
        content = "\n".join(lines).encode()
        if draw.random() < 0.3:
            content = changed(draw, content)
        place.file("random.graph", content)
        fault = grammar.script_fault(content)
        answer = place.ask("run", "random.graph")
        got = answer.out.decode(errors="replace")
        if fault:
            place.same(repr(content), (2, fault), (answer.status, got))
        else:
            place.same(f"no fault in {content!r}, got {got!r}", True, answer.status in (0, 5, 8))
    nodes = "".join(f"split n{i}\n" for i in range(63))
    for content, line in [(nodes + "split x", "script 64 12 5\n"),
                          (nodes + "split n1", "script 64 6\n"),
                          ("drain\n" * 1025, "script 1025 12 6\n"), ("drain\n" * 1024, None),
                          ("drain\n" * 1024 + "cycles 0", "script 1025 4\n"),
                          ("\n" * 60000 + "x", "script 60001 2\n")]:
        place.file("random.graph", content)
        place.expect(content[-30:], ["run", "random.graph"], 2 if line else 0, line or "")


def others(place):
    """Bytes without any order, as each kind of file."""
    draw = random.Random(4)
    place.file("source.graph", "source s random\n")
    place.file("offer.graph", "sink o never\noffer o in random\n")
    place.file("empty.graph", "")
    place.file("good.wav", wav([1, 2, 3]))
    place.file("good.pod", FORMAT)
    commands = [(["run", "random"], [0, 2]), (["run", "source.graph"], [3]),
                (["run", "offer.graph"], [4]),
                (["dump", "random"], [0, 4]), (["filter", "random", "good.pod", "never"], [4]),
                (["filter", "good.pod", "random", "never"], [4]),
                (["automate", "random", "good.pod", "never"], [3]),
                (["automate", "good.wav", "random", "never"], [4]),
                (["check", "empty.graph", "random"], [0])]
    for i in range(place.some(COUNT)):
        words, statuses = commands[i % len(commands)]
        place.file("random", draw.randbytes(draw.choice([1, 3, 8, 9, 16, 100, 5000])))
        answer = place.ask(*words)
        place.same(f"{words}: {place.read('random')[:40].hex()}: {answer.out!r}", True,
                   answer.status in statuses
                   and (answer.out.count(b"\n") == 1 or words == ["run", "random"])
                   and answer.peak < 32)
    place.same("nothing is stored", None, place.read("never"))
