"""Texts of PODs: from a file to its dump, and back to the value's one spelling."""
import random
import struct

import randoms
import readers
from asking import PODS, TOP
from worked import FORMAT, GAINS, number, pod

COUNT = 10000
WRONG_COUNT = 1000
NAMES = {"none": 1, "bool": 2, "id": 3, "int": 4, "long": 5, "float": 6, "double": 7, "string": 8,
         "bytes": 9, "rectangle": 10, "fraction": 11, "bitmap": 12, "array": 13, "struct": 14,
         "object": 15, "sequence": 16, "fd": 18, "choice": 19}
KINDS = ["none", "range", "step", "enum", "flags"]
FORMS = {"bool": "<I", "id": "<I", "int": "<i", "long": "<q", "fd": "<q"}


def unquoted(words):
    return bytes.fromhex(words[1:-1])


def string(words):
    """The bytes of a string, `\\x` and two digits for those that are not shown."""
    parts = words[1:-1].split("\\x")
    return parts[0].encode() + b"".join(bytes.fromhex(p[:2]) + p[2:].encode() for p in parts[1:])


def leaf(name, words):
    """The body of a value that holds no others."""
    if name == "none":
        return b""
    if name == "bool":
        return struct.pack("<I", words == "true")
    if name in FORMS:
        return struct.pack(FORMS[name], int(words))
    if name in ("float", "double"):
        return bytes.fromhex(words)[::-1]
    if name in ("rectangle", "fraction"):
        return struct.pack("<II", *map(int, words.replace("x", "/").split("/")))
    return string(words) + b"\0" if name == "string" else unquoted(words)


def spelled(lines):
    """The type and the body of the value of these lines, which are taken from the front."""
    name, _, words = lines.pop(0).lstrip(" ").partition(" ")
    if name not in ("array", "struct", "object", "sequence", "choice"):
        return NAMES[name], leaf(name, words)
    words = words.split(" ")
    if name == "struct":
        return 14, b"".join(pod(*spelled(lines)) for _ in range(int(words[0])))
    if name in ("object", "sequence"):
        head = [int(w) for w in words[:-1]] + [0] * (name == "sequence")
        body = struct.pack("<II", *head)
        for _ in range(int(words[-1])):
            body += struct.pack("<II", *map(int, lines.pop(0).split()[1:]))
            body += pod(*spelled(lines))
        return NAMES[name], body
    head = struct.pack("<II", KINDS.index(words[0]), int(words[1])) if name == "choice" else b""
    child, count = map(int, words[-2:])
    size = readers.SIZES.get(child, 0)
    return NAMES[name], head + struct.pack("<II", size, child) + b"".join(
        spelled(lines)[1] for _ in range(count))


def made(place, *words, given=b""):
    """What the program that makes PODs answers."""
    return place.ask(*words, of=PODS, given=given)[:3]


def back_and_forth(place, content):
    """A file to its dump and back: the value's one spelling, which has the same dump."""
    status, text = readers.dump(content)
    if status != 0:
        return
    wanted = pod(*spelled(text.splitlines()))
    place.same(f"the spelling of {text!r}", (0, wanted, b""),
               made(place, "pod", "-", "-", given=text.encode()))
    place.same(f"the dump of {wanted.hex()}", (0, text), readers.dump(wanted))


def texts(place):
    """PODs to text and back."""
    draw = random.Random(48)
    worked = [FORMAT, GAINS, number(-1), pod(1, b"")]
    worked += [path.read_bytes() for path in sorted((TOP / "demo").glob("*.pod"))]
    for content in worked:
        back_and_forth(place, content)
        place.file("worked.pod", content)
        answer = place.ask("dump", "worked.pod")
        place.file("worked.text", answer.out)
        place.same("a worked file", (0, b"", b""),
                   made(place, "pod", "worked.text", "worked.back"))
        place.same("its spelling", content, place.read("worked.back"))
    count = 0
    while count < place.some(COUNT):
        content = randoms.random_pod(draw)
        if readers.dump(content)[0] == 0:
            count += 1
            back_and_forth(place, content)


def wrong_texts(place):
    """Texts that are no dumps: each is refused, and nothing is put."""
    draw = random.Random(49)
    count = 0
    while count < place.some(WRONG_COUNT):
        status, text = readers.dump(randoms.random_pod(draw))
        if status != 0:
            continue
        count += 1
        changed = randoms.changed(draw, text.encode())
        status, out, said = made(place, "pod", "-", "-", given=changed)
        if status == 0:
            place.same(f"accepted {changed!r}", (0, changed.decode()), readers.dump(out))
        else:
            place.same(f"refused {changed!r}", (2, b"", True),
                       (status, out, said.startswith(b'pipegraph-pods: "-": line ')))
