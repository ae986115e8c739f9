"""Files that are there and are no plain files, or do not stay as they are."""
import os
import resource
import signal
import socket
import threading

from asking import MAIN, PICTURES, PODS
from worked import FORMAT, GAINS, ONE, ONE_TEXT, SQUARE, wav

TRACE = 4294967295

# The words of each load, with FILE for the file; what the file should be; its place; the program.
LOADS = [
    (["run", "FILE"], "script", 0, MAIN), (["run", "source.graph"], "wav", 2, MAIN),
    (["run", "offer.graph"], "pod", 3, MAIN), (["groups", "FILE"], "script", 0, MAIN),
    (["groups", "source.graph"], "wav", 2, MAIN), (["groups", "offer.graph"], "pod", 3, MAIN),
    (["check", "FILE", "empty.graph"], "script", 0, MAIN),
    (["check", "source.graph", "empty.graph"], "wav", 2, MAIN),
    (["check", "offer.graph", "empty.graph"], "pod", 3, MAIN),
    (["check", "empty.graph", "FILE"], "trace", TRACE, MAIN), (["dump", "FILE"], "pod", 1, MAIN),
    (["filter", "FILE", "good.pod", "never"], "pod", 1, MAIN),
    (["filter", "good.pod", "FILE", "never"], "pod", 2, MAIN),
    (["automate", "FILE", "gains.pod", "never"], "wav", 1, MAIN),
    (["automate", "good.wav", "FILE", "never"], "pod", 2, MAIN),
    (["graph", "FILE"], "script", 0, PICTURES),
    (["graph", "empty.graph", "FILE"], "trace", TRACE, PICTURES),
    (["timeline", "FILE", "empty.graph"], "script", 0, PICTURES),
    (["timeline", "empty.graph", "FILE"], "trace", TRACE, PICTURES),
    (["wave", "FILE"], "wav", 1, PICTURES), (["gains", "FILE", "never"], "list", None, PODS),
    (["pod", "FILE", "never"], "list", None, PODS)]

# The words of each store, with FILE for the file, the place that is reported, and the program.
STORES = [
    (["run", "sink.graph"], 2, MAIN), (["groups", "sink.graph"], 2, MAIN),
    (["filter", "good.pod", "good.pod", "FILE"], 3, MAIN),
    (["automate", "good.wav", "gains.pod", "FILE"], 3, MAIN),
    (["gains", "good.gains", "FILE"], None, PODS), (["pod", "good.text", "FILE"], None, PODS),
    (["format", "FILE", "rate", "1", "channels", "1"], None, PODS)]
STATUS = {"absent": 5, "read": 6, "write": 7, "limit": 8}


def good_files(place):
    for name, content in [("good.wav", wav([1, 2, 3])), ("good.pod", FORMAT), ("gains.pod", GAINS),
                          ("good.gains", "0 128\n"), ("good.text", "int 7\n"), ("empty.graph", "")]:
        place.file(name, content)


def each_load(place, file, word, limits=None, nobody=False):
    """A file in each place of a load, which is answered by this word, or by a limit of its kind."""
    good_files(place)
    place.file("source.graph", f"gain g 1\nsource s {file}\n")
    place.file("offer.graph", f"sink o never\n\noffer o in {file}\n")
    for words, kind, at, of in LOADS:
        words = [file if part == "FILE" else part for part in words]
        line = f"{word} {at} {limits[kind]}\n" if limits else f"{word} {at}\n"
        place.expect(f"{words}, {file}", words, STATUS[word], "" if of == PODS else line, of=of,
                     nobody=nobody)
    place.same(f"{file}: nothing is stored", None, place.read("never"))


def each_store(place, file, nobody=False):
    """A file in each place of a store, which fails at once."""
    good_files(place)
    place.file("sink.graph", ONE.format(file))
    for words, at, of in STORES:
        words = [file if part == "FILE" else part for part in words]
        place.expect(f"{words} to {file}", words, 7, "" if of == PODS else f"write {at}\n", of=of,
                     nobody=nobody)


def folders(place):
    """A folder, a folder's file as a folder, and a socket, as each file."""
    (place.folder / "folder").mkdir()
    place.file("plain", "x")
    with socket.socket(socket.AF_UNIX) as end:
        end.bind(str(place.folder / "socket"))
        for file in ["folder", "folder/", ".", "plain/x", "socket"]:
            each_load(place, file, "read")
            each_store(place, file)
    each_load(place, "no/file", "absent")
    each_store(place, "no/file")


def permissions(place):
    """Files that nobody may read or write."""
    nobody = not os.getuid()  # to root each file is open, so it asks as somebody else
    place.file("secret", ONE.format("o.wav")).chmod(0)
    place.file("fixed.wav", "kept").chmod(0o444)
    closed = place.folder / "closed"
    closed.mkdir(exist_ok=True)
    place.file("closed/a.wav", wav([1]))
    closed.chmod(0o700 if nobody else 0)
    for file in ["secret", "closed/a.wav"]:
        each_load(place, file, "read", nobody=nobody)
    for file in ["fixed.wav", "closed/o.wav"]:
        each_store(place, file, nobody=nobody)
    place.same("what may not be written", b"kept", place.read("fixed.wav"))
    closed.chmod(0o700)


LIMITS = {"script": 1, "wav": 2, "pod": 4, "trace": 11, "list": None}


def limited(place, file):
    """A file without an end, in each place of a load: refused by its limit, with memory for it."""
    each_load(place, file, "limit", LIMITS)


def devices(place):
    """Full, endless and empty devices as files."""
    each_store(place, "/dev/full")
    limited(place, "/dev/zero")
    for words in [["check", "empty.graph", "/dev/full"], ["run", "source.graph"]]:
        answer = place.ask(*words)
        place.same(f"{words}: status, and memory in MiB within the limit", (8, True),
                   (answer.status, answer.peak < 300))
    place.file("null.graph", "source s /dev/null\n")
    for words, status, line in [(["run", "/dev/null"], 0, ""),
                                (["run", "null.graph"], 3, "wav 1 1\n"),
                                (["dump", "/dev/null"], 4, "pod 1 1 0\n"),
                                (["check", "/dev/null", "/dev/null"], 0, "legal\n")]:
        place.expect(str(words), words, status, line)
    place.file("sink.graph", ONE.format("/dev/null"))
    place.expect("sink /dev/null", ["run", "sink.graph"], 0, ONE_TEXT)


# Words that put something, the program, and the file that is stored before, with its content.
PUTS = [
    (["run", "whole.graph"], MAIN, "whole.wav", SQUARE),
    (["groups", "whole.graph"], MAIN, "whole.wav", SQUARE),
    (["run", "whole.graph", "--trace"], MAIN, "whole.wav", SQUARE),
    (["check", "empty.graph", "empty.graph"], MAIN, None, None),
    (["dump", "good.pod"], MAIN, None, None),
    (["filter", "good.pod", "good.pod", "o.pod"], MAIN, "o.pod", FORMAT),
    (["automate", "good.wav", "gains.pod", "o.wav"], MAIN, "o.wav", wav([1, 2, 1])),
    (["--help"], PODS, None, None),
    (["gains", "good.gains", "-"], PODS, None, None), (["pod", "good.text", "-"], PODS, None, None),
    (["format", "-", "rate", "1", "channels", "1"], PODS, None, None),
    (["graph", "whole.graph"], PICTURES, None, None),
    (["timeline", "empty.graph", "empty.graph"], PICTURES, None, None),
    (["wave", "good.wav"], PICTURES, None, None)]


def each_put(place, what, **how):
    """Each text into an output that takes nothing: 7, and the files before it are whole."""
    good_files(place)
    place.file("whole.graph", ONE.format("whole.wav"))
    for words, of, name, content in PUTS:
        place.expect(f"{words} {what}", words, 7, of=of, **how)
        if name:
            place.same(f"{words} {what}: its file is whole", content, place.read(name))
            place.forget(name)
    # A refusal keeps its number, and so does what puts nothing.
    for words, status in [(["run"], 1), (["run", "no"], 5), (["dump", "empty.graph"], 4),
                          (["run", "empty.graph"], 0)]:
        place.expect(f"{words} {what}", words, status, **how)
    place.expect(f"a refused picture {what}", ["graph", "no"], 5, of=PICTURES, **how)


def full_output(place):
    """Standard output that takes nothing, is closed, or is no place to write."""
    with open("/dev/full", "wb") as full:
        each_put(place, "to a full output", to=full)
    with open("/dev/null", "rb") as null:
        each_put(place, "to an output that is read", to=null)
    place.file("two.graph",
               ONE.format("first.wav").replace("cycles",
                                               "sink p /dev/full\nlink a.out p.in\ncycles"))
    place.expect("a second sink that is full", ["run", "two.graph"], 7, "write 5\n")
    place.same("the file before the one that fails is whole", SQUARE, place.read("first.wav"))
    place.file("text.graph", ONE.format("text.wav"))
    place.ask("run", "text.graph", closed=[1])
    place.same("a closed output: the file is whole", SQUARE, place.read("text.wav"))


def pipes(place):
    """Standard output into pipes that are broken."""
    for ignored in [(), (signal.SIGPIPE,)]:
        end, to = os.pipe()
        os.close(end)
        each_put(place, f"to a broken pipe, ignored {ignored}", to=to, ignored=ignored)
        os.close(to)
    place.file("long.graph", ONE.format("pipe.wav").replace("cycles 1", "cycles 100000"))
    end, to = os.pipe()
    reader = beside(lambda: (os.read(end, 1000), os.close(end)))
    place.expect("a pipe that breaks", ["run", "long.graph", "--trace", "--loops", "0"], 7, to=to)
    os.close(to)
    reader.join(5)


def beside(work, *given):
    """A thread that does a part; it holds nobody up."""
    thread = threading.Thread(target=work, args=given, daemon=True)
    thread.start()
    return thread


def give_slowly(path, content):
    with open(path, "wb") as file:
        for at in range(0, len(content), 7):
            file.write(content[at:at + 7])
            file.flush()


def take_some(path):
    fd = os.open(path, os.O_RDONLY)
    os.read(fd, 10)
    os.close(fd)


def fifos(place):
    """FIFOs as files: read to their end, written whole, and broken."""
    for name in ["script.fifo", "wave.fifo", "pod.fifo", "out.fifo"]:
        os.mkfifo(place.folder / name)
    place.file("wave.graph", "quantum 3\nsource s wave.fifo\nsink o wave.out\nlink s.out o.in\n"
               "driver o 1\ndrain\n")
    pod_text = "object 262147 3 1\n  prop 65539 0\n    int 48000\n"
    for name, content, words, text in [
            ("script.fifo", ONE.format("pipe.wav").encode(), ["run", "script.fifo"], ONE_TEXT),
            ("wave.fifo", wav([1, 2, 3]), ["run", "wave.graph"],
             "link s.out o.in 48000 1 2\nwrote o 3\n"),
            ("pod.fifo", FORMAT, ["dump", "pod.fifo"], pod_text)]:
        writer = beside(give_slowly, place.folder / name, content)
        place.expect(f"a FIFO: {words}", words, 0, text)
        writer.join(5)
    place.same("the file of a FIFO's samples", wav([1, 2, 3]), place.read("wave.out"))
    fifo, taken = place.folder / "out.fifo", []
    reader = beside(lambda: taken.append(fifo.read_bytes()))
    place.file("out.graph", ONE.format("out.fifo"))
    place.expect("a sink into a FIFO", ["run", "out.graph"], 0, ONE_TEXT)
    reader.join(5)
    place.same("what a FIFO was given", [SQUARE], taken)
    reader = beside(take_some, fifo)
    place.file("out.graph", ONE.format("out.fifo").replace("cycles 1", "cycles 1000"))
    place.expect("a sink into a FIFO that breaks", ["run", "out.graph", "--loops", "0"], 7,
                 "write 2\n")
    reader.join(5)


def symbolic_links(place):
    """Symbolic links that lead nowhere, in a ring, and to a file."""
    for name, target in [("nowhere", "no-file"), ("ring", "ring"), ("away", "no-folder/file"),
                         ("plain.link", "real.graph")]:
        (place.folder / name).symlink_to(target)
    place.file("real.graph", ONE.format("nowhere"))
    for file, word in [("nowhere", "absent"), ("away", "absent"), ("ring", "read")]:
        each_load(place, file, word)
    each_store(place, "away")
    each_store(place, "ring")
    place.expect("a link to a script, and a sink over a link that leads nowhere",
                 ["run", "plain.link"], 0, ONE_TEXT)
    place.same("the file behind the link", SQUARE, place.read("no-file"))


def shrinking(place):
    """Files that shrink while they are read."""
    whole = 44 + 2 * 20000000
    place.file("shrink.graph", "source s shrink.wav\n")
    header = wav([])[:40] + (whole - 44).to_bytes(4, "little")
    seen = set()
    for delay in range(24):
        place.file("shrink.wav", header)
        os.truncate(place.folder / "shrink.wav", whole)
        cut = threading.Timer(delay / 1000, lambda: os.truncate(place.folder / "shrink.wav", 1000))
        cut.start()
        answer = place.ask("run", "shrink.graph")
        cut.join(5)
        seen.add((answer.status, answer.out))
        place.same("a file that shrinks is read whole or is cut off", True,
                   (answer.status, answer.out) in [(0, b""), (3, b"wav 1 6\n")])


def huge(place):
    """A sparse file of 3 GB as each file: refused after its limit, with memory for as much."""
    with open(place.folder / "sparse", "wb") as file:
        file.write(wav([])[:40] + b"\xff\xff\xff\xff")
        file.truncate(3 << 30)
    limited(place, "sparse")
    # The system counts the memory of who asks, some 16 MiB, to what is started.
    for words, most in [(["run", "sparse"], 32), (["dump", "sparse"], 32),
                        (["run", "source.graph"], 300),
                        (["check", "empty.graph", "sparse"], 300)]:
        answer = place.ask(*words)
        place.same(f"{words}: seconds under 5", True, answer.seconds < 5)
        place.same(f"{words}: MiB under {most}", True, answer.peak < most)
    os.truncate(place.folder / "sparse", 268435457)
    place.expect("a byte too long", ["run", "source.graph"], 8, "limit 2 2\n")
    os.truncate(place.folder / "sparse", 268435456)
    place.expect("as long as may be", ["run", "source.graph"], 0)
    place.file("twice.graph", "source s sparse\nsource t sparse\nsource u good.wav\n")
    place.expect("all files together", ["run", "twice.graph"], 8, "limit 3 3\n")
    place.file("twice.graph", "source s sparse\nsource t sparse\n")
    answer = place.expect("two as long as may be", ["run", "twice.graph"], 0)
    place.same("two as long as may be: MiB under 3 GB", True, answer.peak < 2861)
    os.truncate(place.folder / "sparse", 0)


def kept(place):
    """Files as they were after each refusal, and by which call they are written after another."""
    place.file("kept.wav", "kept")
    place.file("bad.wav", "bad")
    for line, status, out in [
            ("source s bad.wav\n", 3, "wav 6 1\n"), ("source s none\n", 5, "absent 6\n"),
            ("source s .\n", 6, "read 6\n"),
            ("offer o in bad.wav\n", 2, "script 6 11\n"), ("sink o p\n", 2, "script 6 6\n"),
            ("cycles 1000000\n", 8, "limit 6 8\n")]:
        place.file("kept.graph", ONE.format("kept.wav") + line)
        place.expect(line.strip(), ["run", "kept.graph"], status, out)
        place.same(f"the file after {line.strip()}", b"kept", place.read("kept.wav"))
    place.file("own.graph", ONE.format("own.graph"))
    place.expect("a sink over the script", ["run", "own.graph"], 0, ONE_TEXT)
    place.same("the script's file", SQUARE, place.read("own.graph"))
    place.file("both.graph",
               ONE.format("both.wav").replace("cycles",
                                              "gain g 512\nlink a.out g.in\nsink p both.wav\n"
                                                            "link g.out p.in\ncycles"))
    place.ask("run", "both.graph")
    place.same("two sinks of one file", wav([200, 200, -200, -200] * 256), place.read("both.wav"))
    place.file("limit.graph", ONE.format("cut.wav"))
    place.expect("a file that may not grow", ["run", "limit.graph"], 7, "write 2\n",
                 limits=[(resource.RLIMIT_FSIZE, 1000)], ignored=[signal.SIGXFSZ])
    place.same("its first bytes", SQUARE[:1000], place.read("cut.wav"))
