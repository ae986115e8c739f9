"""Worked files: a WAV file, formats, a control sequence and scripts."""
import struct

# A size that counts nothing, a list of three bytes and its padding, two frames and a byte over.
ODD_WAV = bytes.fromhex(
    "52494646ffffffff57415645666d7420100000000100010080bb00000077010002001000"
    "4c4953540300000061626300"
    "64617461ffffffff0100020003")
EXTENSIBLE_WAV = ODD_WAV[:12] + bytes.fromhex(
    "666d742028000000feff010080bb00000077010002001000160010000400000001000000000010"
    "00800000aa00389b71") + ODD_WAV[36:]
FORMAT = bytes.fromhex(
    "200000000f000000030004000300000003000100000000000400000004000000"
    "80bb000000000000")
GAINS = bytes.fromhex(
    "380000001000000000000000000000000200000001000000200000000f0000000200040002000000"
    "010000010000000004000000040000008000000000000000")
ONE = "square a 48000 1 4 100\nsink o {}\ndriver o 1\nlink a.out o.in\ncycles 1\n"
ONE_TEXT = "link a.out o.in 48000 1 2\nwrote o 1024\n"


def wav(frames, channels=1, rate=48000):
    """A file of these samples."""
    body = struct.pack(f"<{len(frames)}h", *frames)
    form = struct.pack("<HHIIHH", 1, channels, rate, 2 * channels * rate, 2 * channels, 16)
    return (b"RIFF" + struct.pack("<I", 36 + len(body)) + b"WAVEfmt " + struct.pack("<I", 16) + form
            + b"data" + struct.pack("<I", len(body)) + body)


def pod(kind, body):
    """A POD with its padding."""
    return struct.pack("<II", len(body), kind) + body + bytes(-len(body) % 8)


def number(n):
    return pod(4, struct.pack("<i", n))


SQUARE = wav([100, 100, -100, -100] * 256)  # what ONE stores


def form(tag=1, channels=1, rate=48000, bits=16):
    """The body of a chunk `fmt `."""
    return struct.pack("<HHIIHH", tag, channels, rate, 0, 2 * channels, bits)


def chunk(name, body, size=None):
    return name + struct.pack("<I", len(body) if size is None else size) + body


def riff(*chunks):
    return b"RIFF" + bytes(4) + b"WAVE" + b"".join(chunks)


def nested(depth):
    """So many structs, each the only one in that around it."""
    inner = b""
    for _ in range(depth):
        inner = pod(14, inner)
    return inner


def choice(how, *numbers):
    """A choice of Ints."""
    return pod(19, struct.pack("<IIII", how, 0, 4, 4) + struct.pack(f"<{len(numbers)}i", *numbers))


def thing(*fields, kind=0x40003, about=3):
    """An object of these properties."""
    body = b"".join(struct.pack("<II", key, 0) + value for key, value in fields)
    return pod(15, struct.pack("<II", kind, about) + body)


def props(gain):
    """The object of a control whose gain is this value."""
    return thing((16777217, gain), kind=0x40002, about=2)


def sequence(*controls):
    """A control sequence of these offsets and values."""
    return pod(16, bytes(8) + b"".join(struct.pack("<II", offset, 1) + value
                                       for offset, value in controls))
