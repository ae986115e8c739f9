"""Each call of the program to the C library for memory, files and threads, refused in its turn."""
from preload import NO_COMPILER, Preload, compiler
from worked import EXTENSIBLE_WAV, FORMAT, GAINS, wav

GRAPH = """quantum 4
source a a.wav
source b b.wav
sink o o.wav
sink q q.wav
driver o 1
link a.out o.in
link b.out o.in
link a.out q.in
link b.out q.in
cycles 2
"""
TRACE = "begin 0\nstart 0 a\nfinish 0 a\n"
COMMANDS = [
    (["run", "two.graph", "--loops", "0", "--trace"], ["o.wav", "q.wav"]),
    (["run", "two.graph", "--loops", "3"], ["o.wav", "q.wav"]),
    (["dump", "gains.pod"], []), (["filter", "format.pod", "format.pod", "f.pod"], ["f.pod"]),
    (["automate", "a.wav", "gains.pod", "g.wav"], ["g.wav"]),
    (["check", "two.graph", "some.trace"], [])]


class Refusals:
    def __init__(self, place, preload, words, files):
        self.place, self.preload, self.words, self.files = place, preload, words, files
        self.old()
        self.whole, self.counts = preload.count(*words)
        self.stored = [place.read(file) for file in files]

    def old(self):
        for file in self.files:
            self.place.file(file, "old")

    def refuse(self, call, number, how):
        """One refusal: how the program ended, and what is left of each file."""
        self.old()
        answer = self.preload.refuse(call, number, how, *self.words)
        left = [self.place.read(file) for file in self.files]
        state = ["old" if now == b"old" else "whole" if now == then else "part"
                 if then.startswith(now) else "wrong"
                 for now, then in zip(left, self.stored)]
        return answer, state

    def compare(self, call, number, how):
        """A refusal is answered by its cause, or all is as without it."""
        answer, state = self.refuse(call, number, how)
        whole, old = ["whole"] * len(state), ["old"] * len(state)
        good = (answer.status, answer.out) == (0, self.whole.out) and state == whole
        word = answer.out.split(b" ")[0]
        if how == "fail" and call == "malloc":
            # Where the words themselves find no memory, nothing is put.
            early = answer.out == b"" and number <= 2 * len(self.words) + 3
            good |= answer.status == 9 and (early or answer.out.endswith(b"memory\n")) \
                and state in (whole, old, ["whole", "old"])
        if how == "fail" and call in ("read", "open"):
            good |= answer.status == 6 and word == b"read" and state == old
        if how == "fail" and call in ("write", "open"):
            order = [["part", "old"], ["whole", "part"], ["old", "old"], ["whole", "old"], ["part"],
                     ["old"]]
            good |= answer.status == 7 and word == b"write" and state in order
            cut = answer.status == 7 and self.whole.out.startswith(answer.out)
            good |= call == "write" and cut and state == whole
        got = f"{answer.status} {answer.out[:40]!r} {state}"
        self.place.same(f"{self.words}: {call} {number} {how}, got {got}", True, good)


def calls(place):
    """Each growth, read, write, open and start of a thread, refused in its turn."""
    if not compiler():
        return place.pass_over(NO_COMPILER)
    preload = Preload(place)
    for name, content in [("two.graph", GRAPH),
                          ("a.wav", wav([100, 200, 300, 400, 500, 600, 700, 800])),
                          ("gains.pod", GAINS),
                          ("b.wav", EXTENSIBLE_WAV), ("format.pod", FORMAT), ("some.trace", TRACE)]:
        place.file(name, content)
    for words, files in COMMANDS:
        refusals = Refusals(place, preload, words, files)
        for call, count in refusals.counts.items():
            for number in range(1, count + 1):
                for how in ["fail", "short"] if call in ("read", "write") else ["fail"]:
                    refusals.compare(call, number, how)
