"""What is put on standard output where it is more than one write or one page."""
import re
import resource
import signal

import model
from asking import MAIN, PICTURES, PODS
from worked import number, pod, props, sequence, wav

EDGES = [4095, 4096, 4097, 8193, 65535, 65536, 65537, 1000003]


def text_of(size):
    """A POD whose dump has so many bytes, and the dump."""
    body = bytes(97 + i % 23 for i in range(size - len('string ""\n')))
    return pod(8, body + b"\0"), b'string "' + body + b'"\n'


def texts(place):
    """Texts, PODs and pictures above 4 KiB, on standard output and in a file that is cut."""
    for size in EDGES:
        content, text = text_of(size)
        place.file("long.pod", content)
        place.expect(f"a dump of {size} bytes", ["dump", "long.pod"], 0, text)
        answer = place.ask("pod", "-", "-", of=PODS, given=text)
        place.same(f"a POD of {len(content)} bytes in a pipe", (0, content, b""), answer[:3])
    runs(place)
    pictures(place)
    cut(place)


def runs(place):
    """A run's text of some 70 KiB, and its notes."""
    names = "".join(f"sink a_rather_long_name_for_a_sink{i} o{i}\n" for i in range(9))
    links = "".join(f"unlink s.out a_rather_long_name_for_a_sink{i % 9}.in\n" for i in range(1500))
    script = "quantum 4\nsquare s 48000 1 4 9\n" + names + links + "cycles 1\n"
    place.file("long.graph", script)
    status, text, _ = model.run(script, {}, {})
    answer = place.expect("a run of 1,500 lines", ["run", "long.graph"], status, text)
    place.same("its notes", 9, answer.errors.count(b"had no format at the end"))


def chain(count):
    """So many gains, each linked to the next and to the one after that."""
    nodes = "".join(f"gain g{i} {i}\n" for i in range(count))
    return nodes + "".join(f"link g{i}.out g{i + step}.in\n"
                           for step in (1, 2) for i in range(count - step))


def pictures(place):
    """Pictures that end as they should: each line of DOT and each mark of SVG is there."""
    count = 60
    place.file("chain.graph", chain(count))
    drawn = place.ask("graph", "chain.graph", of=PICTURES)
    named = [drawn.out.count(f"gain {i}".encode()) > 0 for i in range(count)]
    place.same("a graph of 60 nodes", (0, [True] * count, 2 * count - 3, True),
               (drawn.status, named, drawn.out.count(b"->"), drawn.out.endswith(b"}\n")))
    place.file("wave.wav", wav([(i * 7919) % 60000 - 30000 for i in range(100000)], 2))
    place.file("cycles.graph", "cycles 300\n")
    trace = "".join(f"begin {c}\nstart {c} dummy\nfinish {c} dummy\nend {c}\n" for c in range(200))
    place.file("cycles.trace", trace)
    ranged(place, trace)
    for words in [["wave", "wave.wav"], ["timeline", "cycles.graph", "cycles.trace"]]:
        drawn = place.ask(*words, of=PICTURES)
        place.same(f"{words[0]}: a whole picture", (0, True, True, True),
                   (drawn.status, len(drawn.out) > 8192, drawn.out.startswith(b"<svg"),
                    drawn.out.endswith(b"</svg>\n")))


def ranged(place, trace):
    """A range of cycles is drawn as a trace that has only these; one of no cycle is refused."""
    of_cycle = re.compile(r"^\w+ (1[7-9]|2[0-3])( |$)")
    place.file("few.trace", "".join(f"{line}\n" for line in trace.splitlines()
                                    if of_cycle.match(line)))
    few = place.ask("timeline", "cycles.graph", "few.trace", of=PICTURES)
    words = ["timeline", "cycles.graph", "cycles.trace"]
    drawn = place.ask(*words, "17", "23", of=PICTURES)
    place.same("a range of cycles", (0, few.out.replace(b"few.trace", b"cycles.trace"), b""), (drawn.status, drawn.out, drawn.errors))
    last = place.ask(*words, "199", "199", of=PICTURES)
    drawn = place.ask(*words, "199", "900", of=PICTURES)
    place.same("a range that ends beyond", (0, last.out, b""), (drawn.status, drawn.out, drawn.errors))
    answer = place.expect("cycles 200 to 201 of 200", [*words, "200", "201"], 1, "usage 3\n", of=PICTURES)
    said = b"pipegraph-pictures: cycles.trace: it has no event of cycle 200\n"
    place.same("what is said of them", said, answer.errors)


def cut(place):
    """A file that takes so many bytes of a text and then no more: a prefix, and 7."""
    content, text = text_of(70000)
    place.file("long.pod", content)
    place.file("long.text", text)
    place.file("chain.graph", chain(60))
    whole = place.ask("graph", "chain.graph", of=PICTURES).out
    for words, of, wanted in [(["dump", "long.pod"], MAIN, text),
                              (["pod", "long.text", "-"], PODS, content),
                              (["graph", "chain.graph"], PICTURES, whole)]:
        for most in [1000, 4096, 5000]:
            with open(place.folder / "cut", "wb") as to:
                place.expect(f"{words[0]} into a file of {most} bytes", words, 7, of=of, to=to,
                             limits=[(resource.RLIMIT_FSIZE, most)], ignored=[signal.SIGXFSZ])
            place.same(f"{words[0]}: the first {most} bytes", wanted[:most], place.read("cut"))


def lists(place):
    """Lists of gains above 64 KiB and 2 MB, from a file, from standard input and from a pipe."""
    points = [(7 * i, (i * 37) % 65535 - 32767) for i in range(12000)]
    text = "".join(f"{at} {gain}\n" for at, gain in points).encode()
    wanted = sequence(*((at, props(number(gain))) for at, gain in points))
    place.file("long.list", text)
    for words, given in [(["gains", "long.list", "o.pod"], b""), (["gains", "-", "o.pod"], text)]:
        place.expect(f"{len(text)} bytes: {words}", words, 0, of=PODS, given=given)
        place.same(f"{words}: all points", wanted, place.read("o.pod"))
        place.forget("o.pod")
    place.feed("list.fifo", text)
    place.expect("a list from a pipe", ["gains", "list.fifo", "-"], 0, wanted, of=PODS)
    place.file("long.list", b"#" * 2000000 + b"\n" + text)
    place.expect("a list of more than 2 MB", ["gains", "long.list", "-"], 0, wanted, of=PODS)
    many = [(i, i % 200) for i in range(21845)]
    place.file("most.list", "".join(f"{at} {gain}\n" for at, gain in many))
    place.expect("as many points as may be", ["gains", "most.list", "-"], 0,
                 sequence(*((at, props(number(gain))) for at, gain in many)), of=PODS)
