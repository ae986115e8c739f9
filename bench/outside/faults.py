"""Faults that people make, each with its sentence; and scripts that can be read only once."""
from messages import UNWRITTEN, told

START = "quantum 4\nsquare s 48000 1 4 9\nsink o o.wav\ngain g 256\nmix2 m 256 256\nsplit t\n"

NAME = "a name is a lower-case letter and up to 30 of a to z, 0 to 9 and _"
GAIN = "a gain is -32767 to 32767, in 1/256: 256 is 0 dB, 128 is 0.5 or -6 dB"
FRAMES = "FRAMES is 0 to 65536: 300 ms at 48000 a second are 14400"
ASCII = "only ASCII may be in a script, in comments too: byte "
RATE = "RATE is 1 to 384000 frames a second"
EARLIER = "no line before this one makes "
WAY = "; a link goes from an output to an input"
BLANKS = "; a file word has no blanks, and quotes mean nothing"
ALONE = "; a comment is a line of its own"

# A line after START, its cause, and what is said of it.
LINES = [
    ("gain g2 1\x01", 1, "a byte that no script may have: 1, in column 10"),
    ("gain g2 1\x7f", 1, "a byte that no script may have: 127, in column 10"),
    ("# caf\u00e9", 1, ASCII + "195, in column 6"),
    ("\ufeffgain g2 1", 1, "the line begins with a UTF-8 mark: save the file without it"),
    ("# \ufeffgain g2 1", 1, ASCII + "239, in column 3"),
    ("RIFF\x00", 1, "a byte that no script may have: 0, in column 5; "
     "the line begins with RIFF, as a WAV file does"),
    ("RIFFx", 2, '"RIFFx" is no command; a WAV file begins with RIFF'),
    ("sorce v v.wav", 2, '"sorce" is no command; did you mean "source"?'),
    ("suorce v v.wav", 2, '"suorce" is no command; did you mean "source"?'),
    ("Gain v 1", 2, '"Gain" is no command; did you mean "gain"?'),
    ("lnik s.out o.in", 2, '"lnik" is no command; did you mean "link"?'),
    ("connect s.out o.in", 2, '"connect" is no command; did you mean "link"?'),
    ("cycle 3", 2, '"cycle" is no command; did you mean "cycles"?'),
    ("links s.out o.in", 2, '"links" is no command; did you mean "link"?'),
    ("input v v.wav", 2, '"input" is no command; did you mean "source"?'),
    ("volume v 1", 2, '"volume" is no command; did you mean "gain"?'),
    ("play v.wav", 2, '"play" is no command'),
    ("z" * 100000 + " v", 2, f'"{"z" * 200}.." is no command'),
    ("a\\b v", 2, '"a\\\\b" is no command'),
    ("// a comment", 2, '"//" is no command'),
    ("gain v", 3, '"gain" takes these words: gain NAME G'),
    ("gain v 1 2", 3, '"gain" takes these words: gain NAME G'),
    ("gain v 1 # quiet", 3, '"gain" takes these words: gain NAME G' + ALONE),
    ("drain # all", 3, '"drain" takes no words' + ALONE), ("drain 5", 3, '"drain" takes no words'),
    ("source v my voice.wav", 3, '"source" takes these words: source NAME FILE' + BLANKS),
    ("sink v", 3, '"sink" takes these words: sink NAME FILE'),
    ("map p 2 0, 1", 3, '"map" takes these words: map NAME CHANNELS LIST; LIST has no blanks'),
    ("square q 48000 2 9", 3,
     '"square" takes these words: square NAME RATE CHANNELS PERIOD AMP'),
    ("link s.out", 3, '"link" takes these words: link A.PORT B.PORT'),
    ("link s.out -> o.in", 3, '"link" takes these words: link A.PORT B.PORT'),
    ("cycles", 3, '"cycles" takes these words: cycles N'),
    ("meter", 3, '"meter" takes these words: meter NAME'),
    ("offer o in", 3, '"offer" takes these words: offer NAME PORT FILE'),
    ("gain v 0.5", 4, '"0.5": ' + GAIN), ("gain v +3", 4, '"+3": ' + GAIN),
    ("gain v -6dB", 4, '"-6dB": ' + GAIN), ("gain v 01", 4, '"01": ' + GAIN),
    ("gain v 32768", 4, '"32768": ' + GAIN), ("gain v -0", 4, '"-0": ' + GAIN),
    ("mix2 v 1 x", 4, '"x": ' + GAIN), ("mix2 v x 1", 4, '"x": ' + GAIN),
    ("square q 44.1k 2 9 9", 4, f'"44.1k": {RATE}'),
    ("square q 0 2 9 9", 4, f'"0": {RATE}'),
    ("square q 48000 9 9 9", 4, '"9": CHANNELS is 1 to 8'),
    ("square q 48000 2 0 9", 4, '"0": PERIOD is 1 to 1000000 frames'),
    ("square q 48000 2 9 32768", 4, '"32768": AMP is 0 to 32767'),
    ("delay d -1", 4, '"-1": ' + FRAMES),
    ("delay d 10ms", 4, '"10ms": ' + FRAMES),
    ("map p 0 0", 4, '"0": CHANNELS is 1 to 8'),
    ("map p 2 0,2", 4,
     '"0,2": LIST is 1 to 8 numbers from 0 to CHANNELS - 1, parted by single commas'),
    ("driver o 1000001", 4, '"1000001": PRIORITY is 0 to 1000000'),
    ("loop g 16", 4, '"16": K is 0 to 15'), ("buffers g out 0", 4, '"0": N is 1 to 8'),
    ("cycles 0", 4, '"0": N is 1 to 1000000'), ("quantum 8193", 4, '"8193": N is 1 to 8192 frames'),
    ("gain my-gain 1", 5, f'"my-gain": {NAME}'), ("gain V 1", 5, f'"V": {NAME}'),
    ("gain 2nd 1", 5, f'"2nd": {NAME}'), ("gain " + "a" * 32 + " 1", 5, f'"{"a" * 32}": {NAME}'),
    ("link s o.in", 5, '"s": an end is NODE.PORT'),
    ("link s.out o", 5, '"o": an end is NODE.PORT'),
    ("link s.out o:in", 5, '"o:in": an end is NODE.PORT'),
    ("link S.out o.in", 5, f'"S.out": the{NAME[1:]}'),
    ("source v " + "a" * 256, 5, f'"{"a" * 200}..": a file word has at most 255 bytes'),
    ("gain g 1", 6, 'the name is taken: "g"'),
    ("gain dummy 1", 6, '"dummy" is the built-in driver\'s name'),
    ("on vox", 7, EARLIER + 'a node called "vox"'),
    ("driver out 1", 7, EARLIER + 'a node called "out"'),
    ("link s.out late.in", 7, EARLIER + 'the node of "late.in"'),
    ("link s.out oo.in", 7, EARLIER + 'the node of "oo.in"'),
    ("link ss.out oo.in", 7, EARLIER + 'the node of "ss.out"'),
    ("unlink dummy.out o.in", 7, EARLIER + 'the node of "dummy.out"'),
    ("link o.in s.out", 8, f'"o.in" is no output: "o" is a sink, which has none{WAY}'),
    ("link g.in o.in", 8, f'"g.in" is no output: "g" is a gain, whose output is out{WAY}'),
    ("link s.out g.out", 8, '"g.out" is no input: "g" is a gain, whose input is in'),
    ("link s.out m.in", 8, '"m.in" is no input: "m" is a mix2, whose inputs are a and b'),
    ("link s.out s.in", 8, '"s.in" is no input: "s" is a square, which has none'),
    ("link t.out o.in", 8,
     '"t.out" is no output: "t" is a split, whose outputs are left and right'),
    ("buffers o out 2", 8, '"o" has no port "out": it is a sink, whose port is in'),
    ("buffers m in 2", 8, '"m" has no port "in": it is a mix2, whose ports are a, b and out'),
    ("quantum 8", 9, "quantum must stand before every other command"),
    ("driver g 1", 10, '"g" is neither a sink nor a meter, and cannot drive'),
    ("link s.out o.in\nasync s", 14, 'async must stand before the links of its node: "s"'),
]


def lines(place):
    """Lines that people get wrong, each before one that makes a node."""
    for text, why, sentence in LINES:
        place.file("wrong.graph", (START + text + "\nmeter late\n").encode())
        at = (START + text).count("\n") + 1
        wanted = (2, f"script {at} {why}\n".encode(),
                  f"pipegraph: wrong.graph:{at}: {sentence}\n".encode())
        place.same(text, wanted, told(place, ["run", "wrong.graph"]))


def once(place):
    """Scripts that can be read only once."""
    wrong = b"gain a 1\non vox\n"
    said = b':2: no line before this one makes a node called "vox"\n'
    wanted = 2, b"script 2 7\n"
    place.feed("once.fifo", wrong)
    place.same("a named pipe", (*wanted, b"pipegraph: once.fifo" + said),
               told(place, ["run", "once.fifo"]))
    place.same("standard input", (*wanted, b"pipegraph: /dev/stdin" + said),
               told(place, ["run", "/dev/stdin"], given=wrong))
    place.file("own.graph", "quantum 4\nsquare s 48000 1 4 9\nsink a own.graph\nsink o no/o.wav\n"
               "link s.out a.in\nlink s.out o.in\ncycles 1\n")
    place.same("a script that a sink overwrites",
               (7, b"write 4\n", f"pipegraph: own.graph:4: no/o.wav: {UNWRITTEN}\n".encode()),
               told(place, ["run", "own.graph"]))
    place.same("a word that is no text", (1, b"", b"pipegraph: word 2 is not text in UTF-8\n"),
               told(place, [b"run", b"a\xff"]))
    for name, shown in [
            ("a\x1b[31mb\n.graph", "a\\x1b[31mb\\x0a.graph"),
            ("a\u0080\u009f\u00a0", "a\\xc2\\x80\\xc2\\x9f\u00a0"),
            ("a\\x41", "a\\\\x41"), ("a" * 201, "a" * 200 + ".."),
            ("a" + "\u00e9" * 120, "a" + "\u00e9" * 99 + ".."),
            ("\U0001f3b5" * 51, "\U0001f3b5" * 50 + "..")]:
        place.same(f"an odd name: {shown}", f"pipegraph: {shown}: there is no such file\n".encode(),
                   told(place, ["run", name])[2])
