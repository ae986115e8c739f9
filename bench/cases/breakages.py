"""What goes wrong on purpose: cases and programs that are broken, each of which must be told."""
import tempfile
from pathlib import Path
from typing import Callable

import notation
import suite
from calls import can_count

CASES = r"""from hand
text end
  | one more line / the end
given b.pod = pod object 262147 3 1 / prop 65539 0 / int 48000

case a square is stored
  given s.graph = text quantum 2 / square q 48000 1 2 5 / sink o o.wav / link q.out o.in / cycles 1
  $ pipegraph run s.graph
  > link q.out o.in 48000 1 2 / wrote o 2
  left o.wav = wav 48000 1: 5 -5

case an Int
  given f.pod = pod int 7
  $ pipegraph dump f.pod
  > int 7

case $ pipegraph play
  > usage 1
  ! pipegraph: "play" is no command
  ! ...
  ! @end
  status 1

case two rates
  given a.pod = pod object 262147 3 1 / prop 65539 0 / int 44100
  $ pipegraph filter a.pod b.pod o.pod
  > clash 65539
  ! pipegraph: a.pod and b.pod: no common rate (key 65539): 44100 and 48000
  none o.pod

case a gain
  given s = text 2 128
  $ pipegraph-pods gains s o
  left o = pod int 128

case a gain on standard output
  given - = text 2 128
  $ pipegraph-pods gains - -
  > = pod int 128
"""

PROGRAM = r"""#!/bin/sh
case "$1" in
run) printf 'link q.out o.in 48000 1 2\nwrote o 2\n'; printf 'WAVE' >o.wav;;
dump) echo 'int 7';;
filter) echo 'clash 65539'
    echo 'pipegraph: a.pod and b.pod: no common rate (key 65539): 44100 and 48000' >&2;;
play) echo 'usage 1'; printf 'pipegraph: "play" is no command\na\nb\none more line\nthe end\n' >&2; exit 1;;
gains) if [ "$2" = - ]; then printf 'GAIN'; else printf 'GAIN' >o; fi;;
esac
"""

# What is broken, a part of the cases, what stands in its place, and what is told.
OF_CASES = [
    ("a line of standard output", "wrote o 2", "wrote o 3", "-wrote o 3"),
    ("a status", "status 1", "status 2", "status: wanted 2, got 1"),
    ("a sample", "5 -5", "5 -6", "-5 -6"),
    ("a rate", "wav 48000 1: 5 -5", "wav 44100 1: 5 -5", "-wav 44100 1:"),
    ("a POD that is left", "left o = pod int 128", "left o = pod int 129", "+u32 128 0"),
    ("a POD on standard output", "> = pod int 128", "> = pod int 129", "+u32 128 0"),
    ("a word of a sentence", "no common rate", "no common Rate", "-pipegraph: a.pod and b.pod: no common Rate"),
    ("a sentence that no line has", '  ! pipegraph: "play" is no command\n  ! ...\n  ! @end\n', "",
     '+pipegraph: "play" is no command'),
    ("a file that no line has", "  left o = pod int 128\n", "", "o is left, and should not be"),
    ("a file that must not be", "left o = pod int 128", "none o", "o is left, and should not be"),
    ("a file that is not left", "none o.pod", "left o.pod", "o.pod is not left"),
    ("a line behind others", "one more line", "no more line", "-no more line"),
    ("a script", "square q 48000 1 2 5", "square q 48000 1 2 6", "bench/outside: o.wav is wav 48000 1: 6 -6"),
    ("a title that stands twice", "case an Int", "case a gain", "a case has a title of its own"),
    ("no `from`", "from hand", "# hand", "a file begins with `from`"),
    ("a word that begins no line", "  none o.pod", "  nowhere o.pod", "not read:   nowhere o.pod"),
    ("a POD that is none", "pod int 7", "pod int seven", "not read:   given f.pod"),
    *([("a thread", "  > int 7\n", "  > int 7\n  threads 1\n", "threads: wanted 1, got")] if can_count() else []),
    ("a count of threads of a run in four ways", "wrote o 2\n", "wrote o 2\n  threads 0\n",
     "a run that is asked in four ways"),
    ("a POD that goes on", "pod int 7", "pod int 7 / int 7", "the POD ends before its text"),
    ("a line that comes too late", "  > int 7\n", "  > int 7\n  given g = nothing\n", "it comes before >"),
    ("an unknown program", "$ pipegraph dump", "$ pipegraf dump", "begins with the name of a program"),
    ("a text that has no name", "@end", "@start", "not read:   ! @start"),
    ("a case without a command line", "  $ pipegraph dump f.pod\n  > int 7\n", "", "a case has a command line"),
    ("an unknown notation", "given s = text 2 128", "given s = txt 2 128", "no notation: txt 2 128"),
]

# What is broken, a part of the program, what stands in its place, and what is told.
OF_PROGRAMS = [
    ("another sample by loops that steal", "'WAVE' >o.wav;;",
     "'WAVE' >o.wav; [ \"$5\" = --steal ] && printf 'x' >>o.wav;;", "--loops 3 --steal"),
    ("an end by a signal by three loops", "run) ", 'run) [ "$4" = 3 ] && kill -9 $$; ', "got -9"),
    ("a script that is written to", "run) ", "run) echo >>s.graph; ", "    s.graph:"),
    ("a script that is taken away", "run) ", "run) rm s.graph; ", "s.graph is not left"),
    ("nothing on standard error", ">&2;;", ">/dev/null;;", "-pipegraph: a.pod and b.pod"),
    ("a line without its line feed", "echo 'int 7'", "printf 'int 7'", "+int 7\\"),
    ("a file more", "dump) ", "dump) echo >g; ", "g is left, and should not be"),
]

# A notation, and the bytes that it stands for, in hex.
NOTATIONS = [
    ("text a / b\\", "610a62"), ("text \\{ab*3}\\x00\\\\\\", "616261626162005c"), ("text \\@ \\/ \\", "40202f20"),
    ("u32 1 0x10", "0100000010000000"), ("cut 2 u32 1 + repeat 2 hex ff", "0100ffff"), ("nothing", ""),
    ("wav 1 1: 2*-1", "524946462800000057415645666d74201000000001000100010000000200000002001000"
     "6461746104000000ffffffff"),
    ("pod struct 2 / string \"a\" / bool true", "200000000e000000020000000800000061000000000000000400000002000000"
     "0100000000000000"),
    ("pod choice range 0 4 1 / int 2", "1400000013000000010000000000000004000000040000000200000000000000"),
    ("pod array 5 1 / long -1", "100000000d0000000800000005000000ffffffffffffffff"),
    ("pod sequence 0 1 / control 2 1 / none", "18000000100000000000000000000000020000000100000000000000"
     "01000000"),
]


def octal(raw: bytes) -> str:
    """Bytes as printf of sh takes them."""
    return "".join(f"\\{byte:03o}" for byte in raw)


def program() -> str:
    """A program that does what the cases say."""
    return (PROGRAM.replace("WAVE", octal(notation.made("wav 48000 1: 5 -5")))
            .replace("GAIN", octal(notation.made("pod int 128"))))


def asked(folder: Path, cases: str, written: str) -> tuple:
    """How many of these cases fail by a program, and what is told."""
    for name in ("pipegraph", "pipegraph-pods"):
        (folder / name).write_text(written)
        (folder / name).chmod(0o755)
    (folder / "broken.case").write_text(cases)
    told: list = []
    count = suite.ask_files([folder], [folder / "broken.case"], told.append)
    return count.failed, "\n".join(told)


def of_pairs(folder: Path) -> list:
    """The breakages that are not told, and whether the whole passes."""
    failed, text = asked(folder, CASES, program())
    wrong = [f"cases that are not broken fail: {text}"] if failed else []
    for what, old, new, wanted in OF_CASES:
        failed, text = asked(folder, CASES.replace(old, new, 1), program())
        if old not in CASES or not failed or wanted not in text:
            wrong.append(f"not told: {what}: {text}")
    for what, old, new, wanted in OF_PROGRAMS:
        failed, text = asked(folder, CASES, program().replace(old.replace(
            "WAVE", octal(notation.made("wav 48000 1: 5 -5"))), new.replace(
                "WAVE", octal(notation.made("wav 48000 1: 5 -5"))), 1))
        if not failed or wanted not in text:
            wrong.append(f"not told: {what}: {text}")
    return wrong


def of_folder(folder: Path) -> list:
    """Whether a file that is not read is told."""
    (folder / "more.cases").write_text("from hand\n")
    told: list = []
    suite.unread(folder, told.append)
    return [] if any("more.cases" in line for line in told) else ["not told: a file that is not read"]


def of_notations() -> list:
    """The notations that stand for other bytes."""
    found = [(words, notation.made(words).hex(), wanted) for words, wanted in NOTATIONS]
    return [f"{words}: wanted {wanted}, got {got}" for words, got, wanted in found if got != wanted]


def told(say: Callable) -> tuple:
    """Breaks cases and programs, and answers how much was tried and how much of it is wrong."""
    with tempfile.TemporaryDirectory(prefix="pipegraph-breakages-") as name:
        wrong = [*of_pairs(Path(name)), *of_folder(Path(name)), *of_notations()]
    for line in wrong:
        say(line)
    tried = len(OF_CASES) + len(OF_PROGRAMS) + 1 + len(NOTATIONS)
    say(f"{tried:6} broken on purpose, and notations")
    return tried, len(wrong)
