"""Readers of WAV files and PODs, from the tables of docs/FORMATS.md and apart from the program.

They say which line is printed of a file. A refusal carries the numbers that are in the line.
"""
import struct

GUID = bytes.fromhex("0100000000001000800000aa00389b71")


def u16(b, at):
    return struct.unpack_from("<H", b, at)[0]


def u32(b, at):
    return struct.unpack_from("<I", b, at)[0]


class Refused(Exception):
    """Carries the numbers of the line."""


# WAV files

def form_of(b, at, size, left):
    """Channels and rate of the chunk `fmt ` whose bytes begin at `at`."""
    if size < 16:
        raise Refused(3)
    if size > left:
        raise Refused(6)
    tag, channels, rate = u16(b, at), u16(b, at + 2), u32(b, at + 4)
    if tag == 0xFFFE and size < 40:
        raise Refused(3)
    if tag not in (1, 0xFFFE) or tag == 0xFFFE and b[at + 24:at + 40] != GUID:
        raise Refused(4)
    if u16(b, at + 14) != 16:
        raise Refused(4)
    if not (1 <= channels <= 8 and 1 <= rate <= 384000):
        raise Refused(8)
    if u16(b, at + 12) != 2 * channels:
        raise Refused(3)
    return channels, rate


def read_wav(b):
    """Channels, rate and the bytes of the samples."""
    if len(b) < 12 or b[:4] != b"RIFF" or b[8:12] != b"WAVE":
        raise Refused(1)
    at, form = 12, None
    while len(b) - at >= 8:
        name, size, left = b[at:at + 4], u32(b, at + 4), len(b) - at - 8
        if name == b"fmt " and form is None:
            form = form_of(b, at + 8, size, left)
        elif name == b"data":
            if form is None:
                raise Refused(2)
            frame = 2 * form[0]
            if size == 0xFFFFFFFF:
                size = left // frame * frame
            if size > left:
                raise Refused(6)
            if size % frame:
                raise Refused(7)
            return *form, b[at + 8:at + 8 + size]
        elif size > left:
            raise Refused(6)
        at += 8 + size + size % 2
    raise Refused(2 if form is None else 5)


# PODs

SIZES = {1: 0, 2: 4, 3: 4, 4: 4, 5: 8, 6: 4, 7: 8, 10: 8, 11: 8, 18: 8}
CHILDREN = {2, 3, 4, 5, 6, 7, 10, 11, 18}
KINDS = ["none", "range", "step", "enum", "flags"]


def pad8(n):
    return (n + 7) // 8 * 8


def quoted(body):
    """The text of a string."""
    plain = lambda c: 0x20 <= c <= 0x7E and c not in b'"\\'
    return "".join(chr(c) if plain(c) else f"\\x{c:02x}" for c in body)


def fixed_text(kind, body):
    """The line of a value of a size of its own."""
    if kind == 1:
        return "none"
    if kind == 2:
        return "bool true" if any(body) else "bool false"
    if kind in (3, 4, 5, 18):
        form = {3: "<I", 4: "<i", 5: "<q", 18: "<q"}[kind]
        name = {3: "id", 4: "int", 5: "long", 18: "fd"}[kind]
        return f"{name} {struct.unpack(form, body)[0]}"
    if kind in (6, 7):
        return ("float " if kind == 6 else "double ") + body[::-1].hex()
    first, second = struct.unpack("<II", body)
    return f"rectangle {first}x{second}" if kind == 10 else f"fraction {first}/{second}"


def child_values(b, at, size, pod, head):
    """The child's number and the values of an array or a choice.

    The first `head` bytes of its body end with the child's size and type.
    """
    width, kind = u32(b, at + head - 8), u32(b, at + head - 4)
    if width == 0 and kind in (0, 1):
        if size != head:
            raise Refused(4, pod)
        return 1, []
    if kind not in CHILDREN:
        raise Refused(2, at + head - 4, kind)
    if width != SIZES[kind]:
        raise Refused(3, at + head - 8)
    if (size - head) % width:
        raise Refused(4, pod)
    return kind, [fixed_text(kind, b[x:x + width]) for x in range(at + head, at + size, width)]


def container(b, pod, kind, at, size, depth):
    """The lines of a struct, an object or a sequence."""
    end, below, count, lines = at + size, at, 0, []
    if kind != 14:
        if size < 8:
            raise Refused(3, pod)
        below = at + 8
    while below < end:
        shift = "  "
        if kind != 14:
            if end - below < 8:
                raise Refused(1, below)
            word = "prop" if kind == 15 else "control"
            lines.append(f"  {word} {u32(b, below)} {u32(b, below + 4)}")
            below, shift = below + 8, "    "
        taken, inner = read_pod(b, below, end, depth + 1)
        lines += [shift + line for line in inner]
        below, count = below + taken, count + 1
    if kind == 14:
        return [f"struct {count}"] + lines
    if kind == 15:
        return [f"object {u32(b, at)} {u32(b, at + 4)} {count}"] + lines
    return [f"sequence {u32(b, at)} {count}"] + lines


def read_pod(b, pod, end, depth):
    """The bytes of a POD and its lines."""
    if depth > 16:
        raise Refused(5, pod)
    if end - pod < 8:
        raise Refused(1, pod)
    size, kind, at = u32(b, pod), u32(b, pod + 4), pod + 8
    if depth == 1 and size > 1048576:
        raise Refused(6, size)
    if end - pod < 8 + pad8(size):
        raise Refused(1, pod)
    if kind not in range(1, 17) and kind not in (18, 19):
        raise Refused(2, pod + 4, kind)
    body = b[at:at + size]
    if kind in SIZES:
        if size != SIZES[kind]:
            raise Refused(3, pod)
        lines = [fixed_text(kind, body)]
    elif kind == 8:
        if not body or body[-1]:
            raise Refused(7, pod)
        lines = [f'string "{quoted(body[:-1])}"']
    elif kind in (9, 12):
        lines = [f'{"bytes" if kind == 9 else "bitmap"} "{body.hex()}"']
    elif kind == 13:
        if 1 <= size <= 7:
            raise Refused(3, pod)
        child, values = child_values(b, at, size, pod, 8) if size else (1, [])
        lines = [f"array {child} {len(values)}"] + ["  " + v for v in values]
    elif kind == 19:
        if size < 16:
            raise Refused(3, pod)
        if u32(b, at) > 4:
            raise Refused(2, at, u32(b, at))
        child, values = child_values(b, at, size, pod, 16)
        head = f"choice {KINDS[u32(b, at)]} {u32(b, at + 4)} {child} {len(values)}"
        lines = [head] + ["  " + v for v in values]
    else:
        lines = container(b, pod, kind, at, size, depth)
    return 8 + pad8(size), lines


def dump(b):
    """What `dump` prints of a file."""
    try:
        taken, lines = read_pod(b, 0, len(b), 1)
        if taken < len(b):
            raise Refused(8, taken)
    except Refused as fault:
        return 4, "pod 1 " + " ".join(map(str, fault.args)) + "\n"
    return 0, "\n".join(lines) + "\n"
