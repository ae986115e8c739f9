"""Each proper prefix of worked files, and PODs that are too deep or too great."""
import struct

from worked import EXTENSIBLE_WAV, FORMAT, GAINS, ODD_WAV, nested, number, pod

GRAPH = "quantum 1\nsource s prefix.wav\nsink o prefix.out\ndriver o 1\nlink s.out o.in\ndrain\n"


def wave_why(length):
    """The number of a prefix of the WAV file with an odd list, or how many frames it has."""
    ends = [(12, "wav 2 1"), (20, "wav 2 2"), (36, "wav 2 6"), (44, "wav 2 5"), (47, "wav 2 6"),
            (56, "wav 2 5"), (58, 0),
            (60, 1), (62, 2)]
    return next(answer for end, answer in ends if length < end)


def wave_files(place):
    """Each prefix of two worked WAV files."""
    place.file("prefix.graph", GRAPH)
    for length in range(len(ODD_WAV) + 1):
        place.file("prefix.wav", ODD_WAV[:length])
        why = wave_why(length)
        text = f"{why}\n" if isinstance(why, str) else f"link s.out o.in 48000 1 2\nwrote o {why}\n"
        place.expect(f"{length} bytes", ["run", "prefix.graph"], 3 if isinstance(why, str) else 0,
                     text)
    for length in range(20, len(EXTENSIBLE_WAV) + 1):
        place.file("prefix.wav", EXTENSIBLE_WAV[:length])
        why = "wav 2 6" if length < 60 else wave_why(length - 24)
        text = f"{why}\n" if isinstance(why, str) else f"link s.out o.in 48000 1 2\nwrote o {why}\n"
        place.expect(f"extensible, {length} bytes", ["run", "prefix.graph"], 3
                     if isinstance(why, str) else 0, text)


def pods(place):
    """Each prefix of a worked format and of a control sequence."""
    for content in [FORMAT, GAINS]:
        for length in range(len(content)):
            place.file("prefix.pod", content[:length])
            place.expect(f"{length} bytes", ["dump", "prefix.pod"], 4, "pod 1 1 0\n")
    place.file("prefix.pod", FORMAT)
    place.expect("a format", ["dump", "prefix.pod"], 0,
                 "object 262147 3 1\n  prop 65539 0\n    int 48000\n")
    place.file("prefix.pod", FORMAT + b"x")
    place.expect("a format and a byte", ["dump", "prefix.pod"], 4, f"pod 1 8 {len(FORMAT)}\n")
    place.file("prefix.pod", GAINS)
    place.expect("a sequence", ["dump", "prefix.pod"], 0,
                 "sequence 0 1\n  control 2 1\n    object 262146 2 1\n"
                 "      prop 16777217 0\n        int 128\n")


def deep(place):
    """PODs that are too deep, too great, or say so."""
    header = lambda size, kind: struct.pack("<II", size, kind)
    child = pod(19, struct.pack("<IIII", 0, 0, 0, 0x04000000))
    cases = [("seventeen structs", nested(17), "pod 1 5 128"),
             ("a thousand structs", nested(1000), "pod 1 5 128"),
             ("structs to the limit", nested(131073), "pod 1 5 128"),
             ("a child's size", header(16, 19) + struct.pack("<IIII", 3, 0, 0, 4), "pod 1 3 16"),
             ("a struct with a great child", pod(14, header(0xFFFFFFF8, 9)), "pod 1 1 8"),
             ("a struct with the greatest child", pod(14, header(0xFFFFFFFF, 9)), "pod 1 1 8"),
             ("the greatest size", header(0xFFFFFFFF, 4), "pod 1 6 4294967295"),
             ("a byte too great", header(1048577, 9), "pod 1 6 1048577"),
             ("great and short", header(1048576, 9), "pod 1 1 0"),
             ("a pointer", header(0, 17), "pod 1 2 4 17"),
             ("a child of no kind", child, f"pod 1 2 20 {0x04000000}")]
    for what, content, line in cases:
        place.file("deep.pod", content)
        answer = place.expect(what, ["dump", "deep.pod"], 4, line + "\n")
        place.same(f"{what}: MiB under 32", True, answer.peak < 32)
    place.file("deep.pod", nested(131074))
    place.expect("structs beyond the limit", ["dump", "deep.pod"], 8, "limit 1 4\n")
    place.file("deep.pod", nested(16))
    text = "".join("  " * depth + f"struct {int(depth < 15)}\n" for depth in range(16))
    place.expect("sixteen structs", ["dump", "deep.pod"], 0, text)
    place.file("deep.pod", pod(9, b"\xab" * 1048576))
    place.expect("as great as may be", ["dump", "deep.pod"], 0, f'bytes "{"ab" * 1048576}"\n')
    place.file("deep.pod", pod(14, number(7) * 65536))
    place.expect("65,536 numbers", ["dump", "deep.pod"], 0, "struct 65536\n" + "  int 7\n" * 65536)
