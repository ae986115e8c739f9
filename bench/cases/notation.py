"""What files hold, as cases say it. Written after docs/FORMATS.md, apart from the programs."""
import re
import struct

SIGNS = {"n": "\n", "r": "\r", "t": "\t", "s": " ", "e": ""}
ESCAPE = re.compile(rb"\\(?:x([0-9a-f]{2})|\{((?:[^}\\]|\\.)*)\*(\d+)\}|(.))", re.S)
WAVE = struct.Struct("<4sI4s4sIHHIIHH4sI")
FORMS = {"bool": (2, "I"), "id": (3, "I"), "int": (4, "i"), "long": (5, "q"), "float": (6, "I"),
         "double": (7, "Q"), "rectangle": (10, "II"), "fraction": (11, "II"), "fd": (18, "q")}
SIZES = {number: struct.calcsize("<" + form) for number, form in FORMS.values()}
PLAIN = {"none": 1, "string": 8, "bytes": 9, "bitmap": 12}
KINDS = ["none", "range", "step", "enum", "flags"]
HOLDERS = {"struct": (14, ""), "object": (15, "prop"), "sequence": (16, "control")}


def unescaped(raw: bytes) -> bytes:
    """The bytes of a text in which backslashes have a meaning."""
    def one(match: "re.Match[bytes]") -> bytes:
        digits, part, count, sign = match.groups()
        if digits:
            return bytes([int(digits, 16)])
        if count:
            return unescaped(part) * int(count)
        return SIGNS.get(sign.decode(), sign.decode()).encode()
    return ESCAPE.sub(one, raw)


def text(lines: list) -> bytes:
    """The bytes of lines, each of which may be several, parted by ` / `.

    A backslash at the end of one takes its line feed away.
    """
    out = b""
    for line in (part for whole in lines for part in whole.split(" / ")):
        found = re.fullmatch(r"((?:[^\\]|\\.)*)(\\?)", line)
        if found is None:
            raise ValueError("a line of a text")
        out += unescaped(found[1].encode()) + (b"" if found[2] else b"\n")
    return out


def wav(words: str) -> bytes:
    """A WAV file: `RATE CHANNELS: SAMPLES`, where `N*S` is N samples S."""
    form, _, samples = words.partition(":")
    rate, channels = map(int, form.split())
    counted = [word.rpartition("*") for word in samples.split()]
    body = b"".join(struct.pack("<h", int(s)) * int(count or 1) for count, _, s in counted)
    return WAVE.pack(b"RIFF", 36 + len(body), b"WAVE", b"fmt ", 16, 1, channels, rate,
                     2 * channels * rate, 2 * channels, 16, b"data", len(body)) + body


def wrapped(number: int, body: bytes) -> bytes:
    """A POD by the number of its type and its body."""
    return struct.pack("<II", len(body), number) + body + bytes(-len(body) % 8)


def value(name: str, word: str) -> bytes:
    """The POD of a type that has one size."""
    number, form = FORMS[name]
    if name == "bool":
        numbers = [["false", "true"].index(word)]
    else:
        base = 16 if name in ("float", "double") else 10
        numbers = [int(n, base) for n in re.split("[x/]", word)]
    return wrapped(number, struct.pack("<" + form, *numbers))


def several(word: str, lines: list, number: int) -> bytes:
    """The POD of an array or a choice, whose values the lines begin with."""
    *front, child, count = word.split()
    kind = struct.pack("<II", KINDS.index(front[0]), int(front[1])) if front else b""
    size = SIZES.get(int(child), 0)
    values = b"".join(pod(lines)[8:8 + size] for _ in range(int(count)))
    return wrapped(number, kind + struct.pack("<II", size, int(child)) + values)


def pod(lines: list) -> bytes:
    """The POD whose dump these lines begin with; they are taken away."""
    name, _, word = lines.pop(0).lstrip(" ").partition(" ")
    if name in FORMS:
        return value(name, word)
    if name in PLAIN:
        inner = word[1:-1]
        raw = unescaped(inner.encode()) + b"\0" if name == "string" else bytes.fromhex(inner)
        return wrapped(PLAIN[name], raw)
    if name in ("array", "choice"):
        return several(word, lines, 13 if name == "array" else 19)
    number, part = HOLDERS[name]
    *front, count = map(int, word.split())
    body = struct.pack("<II", *front, *[0] * (2 - len(front))) if part else b""
    for _ in range(count):
        body += struct.pack("<II", *map(int, lines.pop(0).split()[1:])) if part else b""
        body += pod(lines)
    return wrapped(number, body)


def whole_pod(words: str) -> bytes:
    """The POD of a whole dump in one line."""
    lines = words.split(" / ")
    raw = pod(lines)
    if lines:
        raise ValueError("the POD ends before its text")
    return raw


def u32(words: str) -> bytes:
    """Numbers of four bytes each."""
    return b"".join(struct.pack("<I", int(word, 0)) for word in words.split())


def nothing(words: str) -> bytes:
    """No byte."""
    if words:
        raise ValueError("nothing has no words")
    return b""


PIECES = {"wav": wav, "pod": whole_pod, "u32": u32, "hex": bytes.fromhex, "nothing": nothing,
          "text": lambda words: text([words])}


def made(notation: str) -> bytes:
    """The bytes of a notation: pieces that ` + ` joins, each repeated or cut where it says so."""
    out = b""
    for words in notation.split(" + "):
        front = re.match(r"(?:(repeat|cut) (\d+) )?(\w+) ?", words)
        if front is None or front[3] not in PIECES:
            raise ValueError(f"no notation: {words}")
        raw = PIECES[front[3]](words[front.end():])
        count = int(front[2] or 1)
        out += raw[:count] if front[1] == "cut" else raw * count
    return out


def shown(raw: bytes) -> list:
    """The lines of a text for people, bytes that do not print as `\\xNN`."""
    lines = raw.decode("utf-8", "backslashreplace").split("\n")
    plain = ["".join(c if c.isprintable() else repr(c)[1:-1] for c in line) for line in lines]
    return plain[:-1] if plain[-1] == "" else [*plain[:-1], plain[-1] + "\\"]


def told(raw: bytes) -> list:
    """The lines of a file for people: samples, text or numbers."""
    if raw[:4] == b"RIFF" and len(raw) >= WAVE.size:
        return of_wave(raw)
    if raw.isascii() and b"\0" not in raw:
        return shown(raw)
    numbers = struct.unpack(f"<{len(raw) // 4}I", raw[:len(raw) // 4 * 4])
    rest = [f"and hex {raw[len(numbers) * 4:].hex()}"] if len(raw) % 4 else []
    return ["u32 " + " ".join(map(str, numbers[i:i + 2])) for i in range(0, len(numbers), 2)] + rest


def of_wave(raw: bytes) -> list:
    """The lines of a WAV file for people, in hex where its header is an odd one."""
    head, samples = WAVE.unpack(raw[:WAVE.size]), raw[WAVE.size:]
    numbers = struct.unpack(f"<{len(samples) // 2}h", samples[:len(samples) // 2 * 2])
    lines = [" ".join(map(str, numbers[i:i + 16])) for i in range(0, len(numbers), 16)]
    front = f"{head[7]} {head[6]}:"
    if raw == wav(" ".join([front, *lines])):
        return ["wav " + front, *lines]
    return ["hex " + raw[i:i + 32].hex(" ", 4) for i in range(0, len(raw), 32)]
