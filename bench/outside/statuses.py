"""Each number that each command ends with, once, with what it puts on standard output."""
import documented
from asking import MAIN, PICTURES, PODS
from preload import NO_COMPILER, Preload, compiler
from worked import FORMAT, GAINS, ONE, ONE_TEXT, number, wav

TRACE = 4294967295
LONG = 33554433  # bytes of a list or a text that is too long
FILES = {
    "one.graph": ONE.format("one.wav"), "bad.graph": "gain a 1\nplay\n", "none.graph": "",
    "wave.graph": "source s bad\n", "offer.graph": "gain g 1\noffer g in bad\n", "bad": "bad",
    "store.graph": ONE.format("no/o.wav"), "much.graph": "meter m\ncycles 1000000\n",
    "long.graph": b"#" * 1048577, "long.pod": bytes(1048585), "a.wav": wav([1, 2, 3, 4]),
    "a.pod": FORMAT, "gains.pod": GAINS, "a.trace": "begin 0\n", "bad.trace": "begin\n",
    "a.gains": "0 128\n", "many.gains": "0 1\n" * 21846, "bad.gains": "0\n",
    "a.text": "int 7\n", "bad.text": "int\n", "great.text": f'bytes "{"00" * 1048577}"\n'}

# The words, what they end with, and their line.
ROWS = [
    (["run", "one.graph"], 0, ONE_TEXT), (["run"], 1, "usage 1\n"),
    (["run", "bad.graph"], 2, "script 2 2\n"), (["run", "wave.graph"], 3, "wav 1 1\n"),
    (["run", "offer.graph"], 4, "pod 2 1 0\n"), (["run", "no"], 5, "absent 0\n"),
    (["run", "."], 6, "read 0\n"), (["run", "store.graph"], 7, "write 2\n"),
    (["run", "much.graph"], 8, "limit 2 8\n"),
    (["groups", "one.graph"], 0, ONE_TEXT), (["groups"], 1, "usage 1\n"),
    (["groups", "bad.graph"], 2, "script 2 2\n"), (["groups", "wave.graph"], 3, "wav 1 1\n"),
    (["groups", "offer.graph"], 4, "pod 2 1 0\n"), (["groups", "no"], 5, "absent 0\n"),
    (["groups", "."], 6, "read 0\n"), (["groups", "store.graph"], 7, "write 2\n"),
    (["groups", "much.graph"], 8, "limit 2 8\n"),
    (["check", "none.graph", "bad"], 0, "line 1\n"), (["check", "one.graph"], 1, "usage 2\n"),
    (["check", "bad.graph", "bad"], 2, "script 2 2\n"),
    (["check", "wave.graph", "bad"], 3, "wav 1 1\n"),
    (["check", "offer.graph", "bad"], 4, "pod 2 1 0\n"),
    (["check", "one.graph", "no"], 5, f"absent {TRACE}\n"),
    (["check", "one.graph", "."], 6, f"read {TRACE}\n"),
    (["check", "much.graph", "bad"], 8, "limit 2 8\n"),
    (["dump", "a.pod"], 0, "object 262147 3 1\n  prop 65539 0\n    int 48000\n"),
    (["dump"], 1, "usage 1\n"), (["dump", "bad"], 4, "pod 1 1 0\n"),
    (["dump", "no"], 5, "absent 1\n"), (["dump", "."], 6, "read 1\n"),
    (["dump", "long.pod"], 8, "limit 1 4\n"),
    (["filter", "a.pod", "a.pod", "o.pod"], 0, "common\n"), (["filter", "a.pod"], 1, "usage 2\n"),
    (["filter", "a.pod", "bad", "o.pod"], 4, "pod 2 1 0\n"),
    (["filter", "a.pod", "no", "o.pod"], 5, "absent 2\n"),
    (["filter", "a.pod", ".", "o.pod"], 6, "read 2\n"),
    (["filter", "a.pod", "a.pod", "no/o"], 7, "write 3\n"),
    (["filter", "a.pod", "long.pod", "o.pod"], 8, "limit 2 4\n"),
    (["automate", "a.wav", "gains.pod", "o.wav"], 0, "wrote 4\n"), (["automate"], 1, "usage 1\n"),
    (["automate", "bad", "gains.pod", "o.wav"], 3, "wav 1 1\n"),
    (["automate", "a.wav", "a.pod", "o.wav"], 4, "pod 2 19\n"),
    (["automate", "a.wav", "no", "o.wav"], 5, "absent 2\n"),
    (["automate", ".", "gains.pod", "o.wav"], 6, "read 1\n"),
    (["automate", "a.wav", "gains.pod", "no/o"], 7, "write 3\n"),
    (["automate", "a.wav", "long.pod", "o.wav"], 8, "limit 2 4\n"),
    (["soak", "7"], 0, "soak 7 306 78336 -7763562 32768\n"), (["soak"], 1, "usage 1\n")]
TO_FULL = [["check", "one.graph", "a.trace"], ["dump", "a.pod"], ["soak", "7"]]

OF_PODS = [
    (["gains", "a.gains", "o.pod"], 0), (["gains"], 1), (["gains", "bad.gains", "o.pod"], 2),
    (["gains", "many.gains", "o.pod"], 4), (["gains", "no", "o.pod"], 5),
    (["gains", ".", "o.pod"], 6), (["gains", "a.gains", "no/o"], 7),
    (["gains", "long", "o.pod"], 8),
    (["pod", "a.text", "o.pod"], 0), (["pod", "a.text"], 1), (["pod", "bad.text", "o.pod"], 2),
    (["pod", "great.text", "o.pod"], 4), (["pod", "no", "o.pod"], 5), (["pod", ".", "o.pod"], 6),
    (["pod", "a.text", "no/o"], 7), (["pod", "long", "o.pod"], 8),
    (["format", "o.pod", "rate", "1", "channels", "2"], 0), (["format", "o.pod", "rate", "1"], 1),
    (["format", "no/o", "rate", "1", "channels", "2"], 7)]

# The words, what they end with, and their line where there is no picture.
OF_PICTURES = [
    (["graph", "one.graph"], 0, None), (["graph"], 1, "usage 1\n"),
    (["graph", "bad.graph"], 2, "script 2 2\n"),
    (["graph", "one.graph", "bad.trace"], 2, "line 1\n"),
    (["graph", "no"], 5, "absent 0\n"), (["graph", "."], 6, "read 0\n"),
    (["graph", "long.graph"], 8, "limit 0 1\n"),
    (["timeline", "one.graph", "a.trace"], 0, None), (["timeline", "a"], 1, "usage 2\n"),
    (["timeline", "bad.graph", "a.trace"], 2, "script 2 2\n"),
    (["timeline", "one.graph", "bad.trace"], 2, "line 1\n"),
    (["timeline", "one.graph", "no"], 5, f"absent {TRACE}\n"),
    (["timeline", ".", "a.trace"], 6, "read 0\n"),
    (["timeline", "long.graph", "a.trace"], 8, "limit 0 1\n"),
    (["wave", "a.wav"], 0, None), (["wave", "a", "b"], 1, "usage 2\n"),
    (["wave", "bad"], 3, "wav 1 1\n"), (["wave", "no"], 5, "absent 1\n"),
    (["wave", "."], 6, "read 1\n"), (["wave", "/dev/zero"], 8, "limit 1 2\n")]
DRAWN = [["graph", "one.graph"], ["timeline", "one.graph", "a.trace"], ["wave", "a.wav"]]


def is_whole(picture):
    """Whether a graph in DOT, or an SVG, is there from its begin to its end."""
    return (picture.startswith(b"digraph pipegraph {\n") and picture.endswith(b"\n}\n")
            or picture.startswith(b"<svg ") and picture.endswith(b"</svg>\n"))


def each(place):
    """Each status of each command, with its line on standard output and its sentence beside it."""
    for name, content in FILES.items():
        place.file(name, content)
    place.file("long", "").open("r+b").truncate(LONG)
    for words, status, line in ROWS:
        place.expect(" ".join(words), words, status, line)
    for words, status in OF_PODS:
        place.expect(" ".join(words), words, status, of=PODS)
    place.ask("pod", "a.text", "o.pod", of=PODS)
    place.same("the POD that was stored last", number(7), place.read("o.pod"))
    for words, status, line in OF_PICTURES:
        if line is None:
            drawn = place.ask(*words, of=PICTURES)
            place.same(" ".join(words), (0, True, b""),
                       (drawn.status, is_whole(drawn.out), drawn.errors))
        else:
            place.expect(" ".join(words), words, status, line, of=PICTURES)
    with open("/dev/full", "wb") as full:
        for of, rows in [(MAIN, TO_FULL), (PICTURES, DRAWN)]:
            for words in rows:
                place.expect(f"{' '.join(words)} to a full output", words, 7, of=of, to=full)
    documented_numbers(place)


def documented_numbers(place):
    """The commands and the numbers are those of docs/FORMATS.md."""
    place.same("the commands", documented.commands(), {row[0][0] for row in ROWS})
    lines = {status: line.split()[0] for _, status, line in ROWS if status}
    named = documented.statuses()
    place.same("the numbers", {n: word for n, word in named.items() if n and n != 9}, lines)
    place.same("the numbers of PODs", documented.statuses_of_pods(),
               {status for _, status in OF_PODS if status} | {9})


# The words that need memory, and the program. What Python makes of a call that is refused is its own, so
# tools/pictures/test asks that of the tool for pictures.
HUNGRY = [(["run", "one.graph"], MAIN), (["groups", "one.graph"], MAIN),
          (["check", "one.graph", "a.trace"], MAIN), (["dump", "a.pod"], MAIN),
          (["filter", "a.pod", "a.pod", "o.pod"], MAIN),
          (["automate", "a.wav", "gains.pod", "o.wav"], MAIN), (["soak", "7"], MAIN),
          (["gains", "a.gains", "o.pod"], PODS), (["pod", "a.text", "o.pod"], PODS),
          (["format", "o.pod", "rate", "1", "channels", "2"], PODS)]
TRIED = 6  # of the calls for memory of each command


def memory(place):
    """Want of memory, which each command may tell."""
    if not compiler():
        return place.pass_over(NO_COMPILER)
    for name, content in FILES.items():
        place.file(name, content)
    preload = Preload(place)
    for words, of in HUNGRY:
        whole, counts = preload.count(*words, of=of)
        calls = counts.get("malloc", 0)
        ended = set()
        for i in range(TRIED):
            at = 1 + i * (calls - 1) // (TRIED - 1)
            answer = preload.refuse("malloc", at, "fail", *words, of=of)
            ended.add(answer.status)
            told = b"" if of == PODS else b"memory\n"
            good = (answer.status, answer.out) == (0, whole.out) or answer.status == 9 and (
                answer.out.endswith(told) or at <= 2 * len(words) + 3 and answer.out == b"")
            place.same(f"{' '.join(words)}: call {at} of {calls} for memory refused, got "
                       f"{answer.status} {answer.out[:40]}", True, good)
        place.same(f"{' '.join(words)} without memory", True, 9 in ended)
