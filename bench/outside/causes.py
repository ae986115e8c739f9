"""Each named cause of each command, with its line and its sentence.

The numbers of the causes are read off docs/FORMATS.md (`documented`), and a name that is there
or here alone is a difference. No cause may be told as `memory`, which would be free.
"""
import os
import struct

import documented
from asking import MAIN, PICTURES, PODS
from worked import FORMAT, GAINS, choice, chunk, form, nested, number, pod, props, riff, sequence, \
    thing, wav

RATE = 65539
TRACE = 4294967295
RIFF = "this is no RIFF WAVE file"
PCM = "only PCM of 16 bits a sample is read"
READ = PCM + "; sox IN -e signed -b 16 OUT.wav may make that of it"
MAKES = "; pipegraph-pods makes a POD of a list or of a dump's text"

# A WAV file, its fault, and what is said of it.
WAVES = [
    ("NotRiff", b"RIFX" + bytes(40),
     RIFF + "; of a sound file ffmpeg -i IN -c:a pcm_s16le OUT.wav makes one"),
    ("NoFmt", riff(chunk(b"data", b"")), "there is no fmt chunk before the samples"),
    ("BadFmt", riff(chunk(b"fmt ", bytes(8))), "the fmt chunk is not sound"),
    ("NotPcm16", riff(chunk(b"fmt ", form(bits=24))), READ),
    ("NotPcm16", riff(chunk(b"fmt ", form(tag=3))), READ),
    ("NoData", riff(chunk(b"fmt ", form())), "there is no data chunk"),
    ("Truncated", riff(chunk(b"fmt ", form()), chunk(b"data", b"", 2)),
     "a chunk passes the end of the file, as where it was cut or written to a pipe; "
     "sox --ignore-length A B may mend it"),
    ("Uneven", riff(chunk(b"fmt ", form()), chunk(b"data", bytes(3))),
     "the samples are not whole frames"),
    ("ChannelsOrRate", riff(chunk(b"fmt ", form(channels=9))),
     "only 1 to 8 channels at 1 to 384000 frames a second are read")]

# What is said otherwise of a file that is drawn.
DRAWN = {"NotRiff": RIFF, "NotPcm16": PCM, "Truncated": "a chunk passes the end of the file"}

# A POD that is none, what its line says after the cause, and what is said of it.
PODS_AT_FAULT = [
    ("Short", b"", "0", "a POD passes the end of what holds it, at byte 0" + MAKES),
    ("TypeUnknown", pod(99, b""), "4 99", "a type that is not read, at byte 4"),
    ("Size", pod(4, bytes(8)), "0", "a size that its type does not have, at byte 0"),
    ("Uneven", pod(13, struct.pack("<II", 4, 4) + bytes(6)), "0",
     "values that do not fill their body, at byte 0"),
    ("Deep", nested(17), "128", "a POD more than 16 deep, at byte 128"),
    ("Large", struct.pack("<II", 1048577, 14), "1048577",
     "a POD of more than 1048576 bytes: 1048577" + MAKES),
    ("Large", wav([1, 2, 3]), "1179011410", "a POD of more than 1048576 bytes: 1179011410; "
     "it begins with RIFF, as a WAV file does"),
    ("Nul", pod(8, b"ab"), "0", "a string without a nul at its end, at byte 0")]
REST = [("Rest", number(1) + bytes(8), "16", "the file goes on behind its POD, at byte 16")]

# An object that is no format.
FORMATS = [
    ("NotObject", number(1), "", "the POD is no object"),
    ("KeyTwice", thing((RATE, number(1)), (RATE, number(1))), f"{RATE}",
     f"a property stands twice, under key {RATE} (a format's rate)"),
    ("FlagsChoice", thing((1, choice(4, 1, 2))), "1",
     "a choice of flags, under key 1 (a format's media type)"),
    ("BadRange", thing((RATE, choice(1, 5, 9, 1))), f"{RATE}",
     f"a range that is none, under key {RATE} (a format's rate)"),
    ("BadStep", thing((65540, choice(2, 1, 1, 8, 0))), "65540",
     "a step that is none, under key 65540 (a format's channels)"),
    ("EmptyChoice", thing((7, choice(3))), "7", "a choice without a value, under key 7")]

# An object that an offer does not take.
OFFERS = [("NotFormat", thing(kind=0x40004), "", "the object is no format"),
          ("Clash", thing((RATE, number(0))), f"{RATE}",
           f"nothing is left of what the port offers, under key {RATE} (a format's rate)")]

SEQUENCES = [
    ("NotSequence", number(1), "", "the POD is no control sequence"),
    ("OffsetFalls", sequence((4, props(number(1))), (3, props(number(1)))), "1",
     "an offset below the one before, in control 1"),
    ("NotProps", sequence((0, number(1))), "0",
     "a value that is no properties object, in control 0"),
    ("GainForm", sequence((0, props(number(32768)))), "0",
     "a gain that is no Int from -32767 to 32767, in control 0; 256 is 0 dB")]

LINKED = "gain a 1\ngain b 1\nlink a.out b.in\n"

# A script, its fault, the line at fault, and what its line says after the cause.
SCRIPTS = [
    ("Byte", b"gain a 1\x80", 1, ""), ("Byte", b"gain a 1\n# \x80", 2, ""),
    ("Command", "gain a 1\nplay", 2, ""), ("Arguments", "gain a", 1, ""),
    ("Number", "gain a 01", 1, ""), ("NameForm", "gain A 1", 1, ""),
    ("NameTaken", "gain a 1\n\ngain a 1", 3, ""), ("NameUnknown", "on a", 1, ""),
    ("PortUnknown", "gain a 1\nlink a.in a.in", 2, ""),
    ("QuantumLate", "gain a 1\nquantum 4", 2, ""),
    ("NotDriverKind", "gain a 1\ndriver a 1", 2, ""),
    ("OfferLate", LINKED + "offer b in f.pod", 4, ""),
    ("TooMany", "".join(f"split x{i}\n" for i in range(64)), 64, " 5"),
    ("TooMany", "meter m\n" + "drain\n" * 1025, 1026, " 6"),
    ("AsyncLate", LINKED + "async a", 4, "")]

# What pipegraph-pictures says of it, behind the line.
SAID = {
    "Byte": "a byte that no script may have", "Command": "the first word is no command",
    "Arguments": "too few words, or too many",
    "Number": "a number is out of range, or has the wrong form",
    "NameForm": "a name, a port or a file word has the wrong form",
    "NameTaken": "the name is taken",
    "NameUnknown": "no line before this one makes a node of this name",
    "PortUnknown": "the node has no such output, or no such input",
    "QuantumLate": "quantum comes before every other command",
    "NotDriverKind": "only a sink or a meter may drive",
    "OfferLate": "offers come before the links of their node", "TooMany 5": "more than 63 nodes",
    "TooMany 6": "more than 1024 lines of cycles and drain",
    "AsyncLate": "async comes before the links of its node"}

# A list of gains, its fault, the line at fault and what is said of it.
FRAME = ("a frame is a number from 0 to 4294967295, without a leading zero; "
         "1.5 s at 48000 a second are 72000")
GAIN = ("a gain is a whole number without +: from -32767 to 32767, in 1/256, so that 128 is 0.5, "
        "or from -60dB to 42dB")
LISTS = [
    ("Words", "0 1\n1 2 3\n", 2, "a line has two words, FRAME GAIN, and a comment its own line"),
    ("Frame", "4294967296 1\n", 1, FRAME), ("Frame", "0 1\n1.5s 1\n", 2, FRAME),
    ("FrameFalls", "5 1\n4 1\n", 2, "the frame is below that of the point before it"),
    ("Gain", "0 32768\n", 1, GAIN), ("Gain", "0 -6.5dB\n", 1, GAIN), ("Gain", "0 +3dB\n", 1, GAIN)]

# A text that is no dump, the same.
TEXTS = [
    ("Deep", "".join("  " * i + "struct 1\n" for i in range(16)) + "  " * 16 + "struct 0\n", 17,
     "a value stands more than 16 deep"),
    ("Missing", "struct 2\n  int 1\n", 3, "the text ends where a line should stand"),
    ("Unended", "int 1", 1, "the line is not ended by a line feed"),
    ("Indent", "struct 1\nint 1\n", 2, "a line is indented by two spaces for each level"),
    ("Words", "int 01\n", 1, "these are no words that a dump has here"),
    ("Child", "array 4 1\n  long 1\n", 2, "an array or a choice holds values of its child type"),
    ("More", "int 1\nint 2\n", 2, "the text goes on behind its value")]


def named(place):
    """The causes that are tried are those that docs/FORMATS.md names."""
    for title, rows, page in [
            ("WAV files", WAVES, documented.waves()), ("PODs", PODS_AT_FAULT, documented.pods()),
            ("formats", FORMATS, documented.formats()),
            ("control sequences", SEQUENCES, documented.sequences()),
            ("scripts", SCRIPTS, documented.scripts()),
            ("lists of gains", LISTS, documented.lists()),
            ("dumps read back", TEXTS, documented.texts()),
            ("limits", limits_of_files() + limits_of_scripts(), documented.limits())]:
        place.same(title, sorted(page), sorted({row[0] for row in rows}))


def planned(name):
    """The words of each command that plans a script."""
    return [["run", name], ["groups", name], ["check", name, "no.trace"]]


def refused(place, words, status, line, sentence, of=MAIN):
    """One refusal: its status, its line, and the sentence after the program's name."""
    answer = place.ask(*words, of=of)
    out = f"{line}\n".encode() if line else b""
    place.same(" ".join(words) + f": {sentence}", (status, out, f"{of}: {sentence}\n"),
               (answer.status, answer.out, answer.errors.decode(errors="replace")))


def of_scripts(place, name, status, line, sentence, whole=""):
    """A refusal by the three commands that plan a script; what those that plan it whole add."""
    for words in planned(name):
        more = "" if words[0] == "groups" else whole
        refused(place, words, status, line, f"{name}:{sentence}{more}")


def scripts_at_fault(place):
    """Each fault of a script, by each command that reads one."""
    place.file("no.trace", "")
    whys = documented.scripts()
    for name, script, at, which in SCRIPTS:
        place.file("bad.graph", script)
        line = f"script {at} {whys.get(name)}{which}"
        shown = "" if name == "Byte" else script.split("\n")[at - 1] + ": "
        for words in planned("bad.graph"):
            place.expect(f"{words[0]}: {name}", words, 2, line + "\n")
        for words in [["graph", "bad.graph"], ["graph", "bad.graph", "no.trace"],
                      ["timeline", "bad.graph", "no.trace"]]:
            refused(place, words, 2, line, f"bad.graph:{at}: {shown}{SAID[name + which]}", PICTURES)


def waves(place):
    """Each fault of a WAV file, by each command that reads one."""
    place.file("wave.graph", "quantum 4\nsource s bad.wav\n")
    for name, content, sentence in WAVES:
        why = documented.waves().get(name)
        place.file("bad.wav", content)
        of_scripts(place, "wave.graph", 3, f"wav 2 {why}", f"2: bad.wav: {sentence}")
        refused(place, ["automate", "bad.wav", "gains.pod", "o"], 3, f"wav 1 {why}",
                f"bad.wav: {sentence}")
        refused(place, ["wave", "bad.wav"], 3, f"wav 1 {why}",
                f"bad.wav: {DRAWN.get(name, sentence)}", PICTURES)


def numbered(rows, numbers):
    """The rows of PODs with the part of their line after the place."""
    return [(content, f"{numbers.get(name)} {more}".strip(), sentence)
            for name, content, more, sentence in rows]


def pods(place):
    """Each fault of a POD, by each command that reads one."""
    bad = numbered(PODS_AT_FAULT, documented.pods()) + numbered(REST, {"Rest": 8})
    objects = numbered(FORMATS, documented.formats())
    offers = numbered(OFFERS, {"NotFormat": 17, "Clash": 18})
    controls = numbered(SEQUENCES, documented.sequences())
    place.file("offer.graph", "gain g 1\noffer g in bad.pod\n")
    for rows, before, behind, at in [
            (bad, ["dump"], [], 1), (bad + objects, ["filter"], ["good.pod", "o"], 1),
            (bad + objects, ["filter", "good.pod"], ["o"], 2),
            (bad + controls, ["automate", "good.wav"], ["o"], 2)]:
        for content, line, sentence in rows:
            place.file("bad.pod", content)
            refused(place, [*before, "bad.pod", *behind], 4, f"pod {at} {line}",
                    f"bad.pod: {sentence}")
    for content, line, sentence in bad + objects + offers:
        place.file("bad.pod", content)
        of_scripts(place, "offer.graph", 4, f"pod 2 {line}", f"2: bad.pod: {sentence}")


def files(place):
    """Each fault of a WAV file and of a POD, by each command that reads one."""
    for name, content in [("no.trace", ""), ("good.wav", wav([1, 2, 3])), ("good.pod", FORMAT),
                          ("gains.pod", GAINS)]:
        place.file(name, content)
    waves(place)
    pods(place)
    place.same("nothing is stored", None, place.read("o"))


def lists_and_texts(place):
    """Each fault of a list of gains, and of a dump that is read back."""
    for command, rows in [("gains", LISTS), ("pod", TEXTS)]:
        for _, content, at, sentence in rows:
            place.file("bad.text", content)
            shown = (content + "\n").split("\n")[at - 1]
            for to in ["o", "-"]:
                refused(place, [command, "bad.text", to], 2, "",
                        f'"bad.text": line {at}: "{shown}": {sentence}', PODS)
    long = "its POD would be longer than 1048576 bytes"
    for command, content, said in [
            ("gains", "0 1\n" * 21846, f"it has more than 21845 points, so {long}"),
            ("pod", f'bytes "{"00" * 1048577}"\n', long)]:
        place.file("long.text", content)
        refused(place, [command, "long.text", "o"], 4, "", f'"long.text": {said}', PODS)
    place.same("nothing is stored", None, place.read("o"))


def sparse(place, name, size):
    """A WAV file of so many bytes: nearly all of them a chunk that is passed over."""
    head = riff(chunk(b"fmt ", form()), chunk(b"LIST", b"", size - 44 - 8))
    place.file(name, head)
    with open(place.folder / name, "r+b") as file:
        file.seek(size - 8)
        file.write(chunk(b"data", b""))


def limits_of_files():
    """A limit of a file, words that pass it, their place, and what is said of it."""
    scripts = [
        ("ScriptBytes", "long.graph", 0, "long.graph: more than 1048576 bytes"),
        ("WavBytes", "wide.graph", 1, "wide.graph:1: wide.wav: more than 268435456 bytes"),
        ("AllWavBytes", "all.graph", 3,
         "all.graph:3: good.wav: more than 536870912 bytes of WAV files in all"),
        ("PodBytes", "offer.graph", 2, "offer.graph:2: long.pod: more bytes than a POD may have")]
    others = [
        ("WavBytes", ["automate", "wide.wav", "gains.pod", "o"], 1,
         "wide.wav: more than 268435456 bytes"),
        ("TraceBytes", ["check", "fine.graph", "long.txt"], TRACE,
         "long.txt: more than 268435456 bytes")]
    pods_of = [(["dump", "long.pod"], 1), (["filter", "long.pod", "good.pod", "o"], 1),
               (["filter", "good.pod", "long.pod", "o"], 2),
               (["automate", "good.wav", "long.pod", "o"], 2)]
    others += [("PodBytes", words, at, "long.pod: more bytes than a POD may have")
               for words, at in pods_of]
    return others + [(name, words, at, said) for name, file, at, said in scripts
                     for words in planned(file)]


def wide_pairs():
    """The nodes and the links of 17 sources of eight channels to 16 meters each."""
    names = "".join(f"square q{i} 48000 8 2 5\nbuffers q{i} out 8\n" for i in range(17))
    names += "".join(f"meter m{i}\n" for i in range(16))
    return names, [f"link q{i}.out m{k}.in\n" for i in range(17) for k in range(16)]


def limits_of_scripts():
    """A limit, a script that passes it, the line at which it does, and what is said of it."""
    names, pairs = wide_pairs()
    return [
        ("Links", names + "".join(pairs), 307, "more than 256 links at a time"),
        ("Events", "meter m\ncycles 1000000\n", 2, "more than 4194304 events; "
         "three are counted for each cycle, and two for each active node in it, "
         "the driver among them"),
        ("SinkSamples", "quantum 8192\nsquare q 48000 8 2 5\nsink o o.wav\nlink q.out o.in\n"
         "cycles 3000\n", 5, "the sinks would keep more than 134217728 samples, "
         "23 minutes of stereo at 48000 a second"),
        ("BlockBytes", "quantum 8192\n" + names + "".join(pairs[:255])
         + "cycles 1\noff q0\ncycles 1\n", 309, "the buffers would have more than 268435456 bytes")]


def sums_of_parts():
    """A limit, a script of six parts that passes it only by their sum, and the line."""
    alone = "".join(f"square q{i} 48000 8 2 5\nbuffers q{i} out 8\nsink o{i} o{i}.wav\n"
                    f"link q{i}.out o{i}.in\n" for i in range(6))
    links = "".join(f"square a{i} 48000 1 2 5\nmeter b{i}\n" for i in range(16))
    links += "".join(f"link a{i}.out b{k}.in\n" for i in range(16) for k in range(15))
    links += "".join(f"square c{i} 48000 1 2 5\nmeter d{i}\n" for i in range(4))
    links += "".join(f"link c{i}.out d{k}.in\n" for i in range(4) for k in range(4))
    lone = "".join(f"square e{i} 48000 1 2 5\nmeter f{i}\n" for i in range(5))
    return [
        ("Links", links + lone + "".join(f"link e{i}.out f{i}.in\n" for i in range(5)),
         32 + 240 + 8 + 16 + 10 + 1),
        ("Events", "quantum 1\n" + alone + "cycles 77673\n", 26),
        ("SinkSamples", "quantum 8192\n" + alone + "cycles 342\n", 26),
        ("BlockBytes", "quantum 8192\n" + alone + "cycles 1\n" * 43, 25 + 43)]


def files_of_limits(place):
    sparse(place, "wide.wav", 268435458)
    sparse(place, "half.wav", 268435456)
    for name, content in [
            ("good.wav", wav([1, 2, 3])), ("good.pod", FORMAT), ("gains.pod", GAINS),
            ("long.pod", bytes(1048585)), ("long.graph", b"#" * 1048577), ("long.txt", ""),
            ("fine.graph", "cycles 1\n"), ("wide.graph", "source s wide.wav\n"), ("no.trace", ""),
            ("all.graph", "source a half.wav\nsource b half.wav\nsource c good.wav\n"),
            ("offer.graph", "gain g 1\noffer g in long.pod\n")]:
        place.file(name, content)
    os.truncate(place.folder / "long.txt", 268435457)


def limits(place):
    """Each limit, by each command that may pass it."""
    files_of_limits(place)
    numbers = documented.limits()
    for name, words, at, sentence in limits_of_files():
        refused(place, words, 8, f"limit {at} {numbers.get(name)}", sentence)
    of_pictures(place, numbers)
    for name, script, at, sentence in limits_of_scripts():
        place.file("much.graph", script)
        fits = "; up to 599186 cycles in all fit here, whatever is linked"
        of_scripts(place, "much.graph", 8, f"limit {at} {numbers.get(name)}", f"{at}: {sentence}",
                   fits if name == "Events" else "")
    halves = [thing((key, pod(9, bytes(600000)))) for key in (1, 2)]
    place.file("one.pod", halves[0])
    place.file("two.pod", halves[1])
    place.expect("what two objects have in common is too long",
                 ["filter", "one.pod", "two.pod", "o"], 8, f"limit 3 {numbers.get('PodBytes')}\n")
    place.forget("wide.wav", "half.wav", "long.txt")


def of_pictures(place, numbers):
    """The limits of files that are drawn."""
    for words, at, name, said in [
            (["graph", "long.graph"], 0, "ScriptBytes",
             "long.graph: it has more than 1048576 bytes"),
            (["timeline", "long.graph", "no.trace"], 0, "ScriptBytes",
             "long.graph: it has more than 1048576 bytes"),
            (["graph", "fine.graph", "long.txt"], TRACE, "TraceBytes",
             "long.txt: it has more than 268435456 bytes"),
            (["timeline", "fine.graph", "long.txt"], TRACE, "TraceBytes",
             "long.txt: it has more than 268435456 bytes"),
            (["graph", "fine.graph", "fine.graph", "long.txt"], 3, "TraceBytes",
             "long.txt: it has more than 268435456 bytes"),
            (["wave", "wide.wav"], 1, "WavBytes", "wide.wav: it has more than 268435456 bytes")]:
        refused(place, words, 8, f"limit {at} {numbers.get(name)}", f"cannot read {said}", PICTURES)


def parts(place):
    """Each limit that the sum over six parts passes, and none where it is reached."""
    numbers = documented.limits()
    for name, script, at in sums_of_parts():
        place.file("parts.graph", script)
        place.expect(name, ["groups", "parts.graph"], 8, f"limit {at} {numbers.get(name)}\n")
    script = next(script for name, script, _ in sums_of_parts() if name == "BlockBytes")
    place.file("parts.graph", script[:-len("cycles 1\n")])
    text = "".join(f"link q{i}.out o{i}.in 48000 8 8\n" for i in range(6))
    text += "".join(f"wrote o{i} {42 * 8192}\n" for i in range(6))
    place.expect("as many bytes of blocks as may be", ["groups", "parts.graph"], 0, text)
    place.forget(*(f"o{i}.wav" for i in range(6)))
