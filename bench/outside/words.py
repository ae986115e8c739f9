"""Command lines."""
from asking import MAIN, PICTURES, PODS


def odd_words(place):
    """Words of the command line."""
    long, name = "a" * 255, "é" * 127
    for words, status, line in [
            ([], 1, "usage 0\n"), ([""], 1, "usage 0\n"), (["run"], 1, "usage 1\n"),
            (["run", ""], 1, "usage 1\n"),
            (["dump", ""], 1, "usage 1\n"), (["filter", "a", "", "b"], 1, "usage 2\n"),
            (["play"], 1, "usage 0\n"),
            (["run", "-"], 1, "usage 1\n"), (["run", "-a"], 1, "usage 1\n"),
            (["run", "a", "b"], 1, "usage 2\n"),
            (["run", "a", "--loops"], 1, "usage 3\n"),
            (["run", "a", "--loops", "17"], 1, "usage 3\n"),
            (["run", "a", "--loops", "2", "--loops", "3"], 1, "usage 4\n"),
            (["run", "a", "--loops", ""], 1, "usage 3\n"),
            (["run", "a", "--loops", "01"], 1, "usage 3\n"),
            (["run", "a", "--loops", "+1"], 1, "usage 3\n"),
            (["run", "a", "--loops", "-0"], 1, "usage 3\n"),
            (["run", "a", "--loops", "9" * 30], 1, "usage 3\n"),
            (["run", "a", "--loops", "18446744073709551617"], 1, "usage 3\n"),
            (["run", "a", "--loops", "4294967297"], 1, "usage 3\n"),
            (["run", "a", "--loops", "1٣"], 1, "usage 3\n"),
            (["run", "a", "--ticks", "0"], 1, "usage 3\n"),
            (["run", "a", "--ticks", "1000001"], 1, "usage 3\n"),
            (["run", "a", "--ticks", "1000000"], 5, "absent 0\n"),
            (["run", "a", "--loops", "16"], 5, "absent 0\n"),
            (["run", "--loops", "1", "a"], 1, "usage 1\n"),
            (["run", "a", "--trace", "--trace"], 1, "usage 3\n"),
            (["run", "a", "--trace=1"], 1, "usage 2\n"), (["RUN", "a"], 1, "usage 0\n"),
            (["run ", "a"], 1, "usage 0\n"),
            (["dump", "a", "b"], 1, "usage 2\n"), (["dump", "a", "--trace"], 1, "usage 2\n"),
            (["check", "a"], 1, "usage 2\n"), (["automate", "a", "b"], 1, "usage 3\n"),
            (["run", long], 5, "absent 0\n"), (["run", long + "a"], 1, "usage 1\n"),
            (["run", name], 5, "absent 0\n"),
            (["run", name + "aa"], 1, "usage 1\n"), (["run", "a" * 100000], 1, "usage 1\n"),
            (["a" * 100000], 1, "usage 0\n"),
            (["run", "a", "--loops", "1" * 100000], 1, "usage 3\n"),
            (["run", "a"] + ["b"] * 100000, 1, "usage 2\n"),
            (["run", "a"] + ["--trace"] * 100000, 1, "usage 3\n"),
            ([""] * 100000, 1, "usage 0\n"), (["dump", "a"] + ["b" * 10] * 100000, 1, "usage 2\n"),
            (["run", "a", "--steal", "--steal"], 1, "usage 3\n"),
            (["run", "a", "--steal", "--loops", "16", "--trace", "--ticks", "9", "b"], 1,
             "usage 8\n"),
            (["run", "a", "--steal", "--loops", "16"], 5, "absent 0\n"),
            (["groups"], 1, "usage 1\n"), (["groups", "-a"], 1, "usage 1\n"),
            (["groups", "a", "--steal"], 1, "usage 2\n"), (["groups", "a"], 5, "absent 0\n"),
            (["soak"], 1, "usage 1\n"), (["soak", ""], 1, "usage 1\n"),
            (["soak", "-0"], 1, "usage 1\n"), (["soak", "00"], 1, "usage 1\n"),
            (["soak", "1٣"], 1, "usage 1\n"), (["soak", "4294967296"], 1, "usage 1\n"),
            (["soak", "9" * 100000], 1, "usage 1\n"), (["soak", "7", "8"], 1, "usage 2\n"),
            (["soak", "7", "--loops"], 1, "usage 2\n"),
            (["soak", "7"], 0, "soak 7 306 78336 -7763562 32768\n"),
            (["run", "a\nb"], 5, "absent 0\n"), (["run", "no/such/folder"], 5, "absent 0\n")]:
        place.expect(f"{len(words)} words {[w[:20] for w in words[:5]]}", words, status, line)


def helps(place):
    """Help, and what every program says of words that it does not know."""
    for words in [[], ["-h"], ["--help"], ["--version"]]:
        answer = place.expect(f"pipegraph {words}", words, 1, "usage 0\n")
        place.same(f"pipegraph {words}: help", True, answer.errors.startswith(b"pipegraph 0.1: "))
    answer = place.expect("pipegraph-pictures without words", [], 1, "usage 0\n", of=PICTURES)
    place.same("pipegraph-pictures: the version", True,
               b"\nversion 0.1; the manual: man pipegraph-pictures" in answer.errors)
    for word, front in [("-h", b"usage: "), ("--help", b"usage: "), ("--version", b"")]:
        answer = place.ask(word, of=PICTURES)
        place.same(f"pipegraph-pictures {word}", (0, True, b""),
                   (answer.status, answer.out.startswith(front + b"pipegraph-pictures "), answer.errors))
    answer = place.ask("--version", of=PODS)
    place.same("pipegraph-pods --version", (0, b"pipegraph-pods 0.1\n", b""),
               (answer.status, answer.out, answer.errors))
    for words in [["-h"], ["--help"]]:
        answer = place.ask(*words, of=PODS)
        place.same(f"pipegraph-pods {words}", (0, True, b""),
                   (answer.status, answer.out.startswith(b"usage: pipegraph-pods gains LIST OUT\n"),
                    answer.errors))
    for words in [[], ["--versio"], ["play"], ["gains", "a"], ["pod", "a", "b", "c"],
                  ["gains", "", "b"], ["pod", "-a", "b"],
                  ["format", "o", "rate", "2..1", "channels", "1"],
                  ["format", "o", "rate", "1", "channels", "1", "mandatory", "size"]]:
        place.expect(f"pipegraph-pods {words}", words, 1, of=PODS)
    for words, line in [(["play"], "usage 0\n"), (["graph"], "usage 1\n"),
                        (["graph", "-a"], "usage 1\n"),
                        (["graph", "a", "b", "-c"], "usage 3\n"),
                        (["graph", "a", "b", "c", "d"], "usage 4\n"), (["timeline", "a"], "usage 2\n"),
                        (["timeline", "a", "b", "-1", "2"], "usage 3\n"),
                        (["timeline", "a", "b", "1"], "usage 4\n"),
                        (["timeline", "a", "b", "2", "1"], "usage 4\n"),
                        (["timeline", "a", "b", "1", "2", "3"], "usage 5\n"),
                        (["wave"], "usage 1\n"), (["wave", "a", "b"], "usage 2\n"),
                        (["wave", "a" * 256], "usage 1\n")]:
        place.expect(f"pipegraph-pictures {words}", words, 1, line, of=PICTURES)


def no_text(place):
    """Words that are no text in UTF-8, the program's own name among them."""
    for words, at in [
            ([b"\xff"], 1), ([b"run", b"\xff"], 2), ([b"run", b"a", b"\xc3"], 3),
            ([b"run", b"a", b"--loops", b"1", b"\xed\xa0\x80"], 5), ([b"play", b"\x80"], 2),
            ([b"dump", b"a", b"b", b"\xc0\xaf"], 4), ([b"soak", b"\xf8\x88\x80\x80\x80"], 2)]:
        answer = place.expect(f"no text {words}", words, 1)
        said = f"pipegraph: word {at} is not text in UTF-8\n"
        place.same(f"what is said of {words}", said.encode(), answer.errors)
    for of, words in [(MAIN, ["run", "/dev/null"]), (MAIN, ["soak", "7"]), (PODS, ["--help"]),
                      (PICTURES, ["graph", "/dev/null"])]:
        if of != PICTURES:  # which is told its path by the system, whatever its caller says
            answer = place.ask(*words, of=of, name=b"\xff\xfe")
            refused(place, f"{of} by a name that is no text", of, 0, answer)
        answer = place.ask(*words[:-1], b"\xff", of=of)
        refused(place, f"{of} {words[:-1]} and a word that is no text", of, len(words), answer)


def refused(place, what, of, at, answer):
    """A program has said nothing but that this word is no text."""
    place.same(what, (1, b""), (answer.status, answer.out))
    said = f"{of}: word {at} is not text in UTF-8\n"
    place.same(f"what is said of {what}", said.encode(), answer.errors)
