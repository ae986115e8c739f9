"""A second opinion on what a case wants: what bench/outside says of it, which is written apart from the programs.

A value that was pasted from a wrong program fails here, whatever the program says.
"""
import re
import struct
import sys
from pathlib import Path
from typing import Callable, NamedTuple, Optional

sys.path.append(str(Path(__file__).resolve().parents[1] / "outside"))

import formats
import grammar
import model
import parts
import readers
import sequences
import soak
import traces
import worked

from notation import told, wav
from rows import Case, bytes_of

FORMAT = 262147  # the object type of a format
MOST = 3_000_000  # samples of all nodes, and bytes of a file, above which the model is not asked
EVENT = re.compile(r"(?:begin|end) \d+|(?:start|finish) \d+ (\w+)|tick \d+(?: \w+)*")


class Said(NamedTuple):
    """A status, standard output, and the files that are stored; None of one whose content is not known."""
    status: int
    out: str
    files: dict


class NoOpinion(Exception):
    """What bench/outside does not know."""


def files_of(case: Case) -> dict:
    """The files of a case by name; those that are made on the disk only are left out."""
    return {name.decode("utf-8", "replace"): bytes_of(content)
            for name, content in case.given.items() if not isinstance(content, str)}


def known(files: dict, case: Case, name: str) -> Optional[bytes]:
    """The bytes of a file, None where it is not there."""
    if name.encode() in case.given and name not in files or "/" in name or name == "-":
        raise NoOpinion
    if len(files.get(name, b"")) > MOST:
        raise NoOpinion
    return files.get(name)


def plain(script: bytes) -> str:
    """A script without its comments."""
    lines = script.decode().split("\n")
    return "\n".join("" if line.split()[:1] and line.split()[0][0] == "#" else line for line in lines)


def wave(raw: bytes) -> tuple:
    """Channels, rate and frames of a WAV file."""
    channels, rate, body = readers.read_wav(raw)
    samples = struct.unpack(f"<{len(body) // 2}h", body)
    return channels, rate, [list(samples[i:i + channels]) for i in range(0, len(samples), channels)]


def loaded(script: str, files: dict, case: Case) -> tuple:
    """The waves and the offers that a script names, or the line of the first that is at fault."""
    waves, pods = {}, {}
    for at, line in enumerate(script.split("\n"), 1):
        words = line.split()
        if not words or words[0] not in ("source", "offer"):
            continue
        raw = known(files, case, words[-1])
        if raw is None:
            return Said(5, f"absent {at}\n", {}), {}
        try:
            if words[0] == "source":
                waves[words[-1]] = wave(raw)
            else:
                kind, _, pods[words[-1]] = formats.format_of(raw)
                if kind != FORMAT:
                    raise readers.Refused(17)
        except readers.Refused as fault:
            status, word = (3, "wav") if words[0] == "source" else (4, "pod")
            return Said(status, f"{word} {at} {' '.join(map(str, fault.args))}\n", {}), {}
    return waves, pods


def is_long(script: str) -> bool:
    """Whether a script makes more samples than the model is asked for."""
    quantum, nodes, cycles = 1024, 1, 0
    for words in map(str.split, script.split("\n")):
        quantum = int(words[1]) if words[:1] == ["quantum"] else quantum
        nodes += grammar.FORMS[words[0]][:1] == ["new"] if words else 0
        cycles += int(words[1]) if words[:1] == ["cycles"] else words[:1] == ["drain"]
    return quantum * nodes * cycles > MOST


def parts_of(script: str, waves: dict, pods: dict) -> tuple:
    """What `groups` says of a script; which sink of several parts is stored last is not known."""
    status, out, stored = parts.answer(script, waves, pods)
    names = re.findall(r"^sink \S+ (\S+)", script, re.M)
    return status, out, {name: of if names.count(name) == 1 else None for name, of in stored.items()}


def of_script(case: Case, words: list, how: Callable) -> Said:
    """What `run` and `groups` say of a script."""
    files = files_of(case)
    raw = known(files, case, words[0])
    if len(words) > 1 and not re.fullmatch(r"(--loops \d+)?( ?--steal)?", " ".join(words[1:])):
        raise NoOpinion
    if raw is None:
        return Said(5, "absent 0\n", {})
    if fault := grammar.script_fault(raw):
        return Said(2, fault, {})
    script = plain(raw)
    waves, pods = loaded(script, files, case)
    if isinstance(waves, Said):
        return waves
    if is_long(script):
        raise NoOpinion
    status, out, stored = how(script, waves, pods)
    return Said(status, out, {name.encode(): of and worked.wav(*of) for name, of in stored.items()})


def of_dump(case: Case, words: list) -> Said:
    """What `dump` says of a file."""
    raw = known(files_of(case), case, words[0])
    return Said(5, "absent 1\n", {}) if raw is None else Said(*readers.dump(raw), {})


def of_filter(case: Case, words: list) -> Said:
    """What `filter` says of two files, and the object that it stores."""
    files = [known(files_of(case), case, word) for word in words[:2]]
    if None in files:
        raise NoOpinion
    status, out, stored = formats.answer(*files)
    return Said(status, out, {words[2].encode(): stored} if stored else {})


def of_automate(case: Case, words: list) -> Said:
    """What `automate` says of a wave and a control sequence, and what it stores."""
    files = files_of(case)
    raw, controls = (known(files, case, word) for word in words[:2])
    if raw is None or controls is None:
        raise NoOpinion
    try:
        channels, rate, frames = wave(raw)
    except readers.Refused as fault:
        return Said(3, f"wav 1 {fault.args[0]}\n", {})
    try:
        samples = sequences.automated(frames, sequences.points_of(controls))
    except readers.Refused as fault:
        return Said(4, "pod 2 " + " ".join(map(str, fault.args)) + "\n", {})
    stored = wav(f"{rate} {channels}: {' '.join(map(str, samples))}")
    return Said(0, f"wrote {len(frames)}\n", {words[2].encode(): stored})


def of_check(case: Case, words: list) -> Said:
    """What `check` says of a script and a trace."""
    files = files_of(case)
    script, trace = (known(files, case, word) for word in words[:2])
    if script is None or trace is None or grammar.script_fault(script):
        raise NoOpinion
    waves, pods = loaded(plain(script), files, case)
    if isinstance(waves, Said) or is_long(plain(script)):
        raise NoOpinion
    names = set(re.findall(r"^(?:source|square|gain|mix2|delay|map|split|sink|meter) (\w+)",
                           plain(script), re.M)) | {"dummy"}
    lines = trace.decode("utf-8", "replace").removesuffix("\n").split("\n") if trace else []
    for at, line in enumerate(lines, 1):
        if not EVENT.fullmatch(line) or not set(line.split()[2:]) <= names:
            return Said(0, f"line {at}\n", {})
    return Said(0, traces.verdict(traces.cycles_of(plain(script), waves, pods), lines), {})


def of_soak(_: Case, words: list) -> Said:
    """What `soak` says of a number."""
    if not re.fullmatch(r"0|[1-9]\d*", words[0]) or len(words) > 1 and words[1] != "--loops":
        raise NoOpinion
    return Said(0, soak.line_of(int(words[0])), {})


ANSWERS = {"run": (lambda c, w: of_script(c, w, model.run), 1),
           "groups": (lambda c, w: of_script(c, w, parts_of), 1),
           "dump": (of_dump, 1), "filter": (of_filter, 3), "automate": (of_automate, 3),
           "check": (of_check, 2), "soak": (of_soak, 1)}


def said_of(case: Case) -> Optional[Said]:
    """What bench/outside says of a case with one command line; None where it does not know."""
    step = case.steps[0]
    words = [word.decode("utf-8", "replace") for word in step.words]
    if len(case.steps) > 1 or words[0] != "pipegraph" or step.status in (1, 6, 7, 8, 9):
        return None
    if len(words) < 2 or words[1] not in ANSWERS:
        return None
    answer, count = ANSWERS[words[1]]
    if len(words) < 2 + count:
        return None
    try:
        return answer(case, words[2:])
    except NoOpinion:
        return None


def disagreeing(case: Case, said: Said) -> list:
    """What a case wants otherwise than was said, for people."""
    step, found = case.steps[0], []
    if said.status != step.status:
        found += [f"    bench/outside: status {said.status}, and the case wants {step.status}"]
    if not step.is_loose() and bytes_of(step.out) != said.out.encode():
        found += [f"    bench/outside: {said.out!r}, and the case wants {bytes_of(step.out).decode()!r}"]
    for name, raw in said.files.items():
        wanted = case.left.get(name, case.given.get(name))
        if wanted is None:
            found += [f"    bench/outside: {name.decode()} is written, and the case does not say so"]
        elif raw is not None and (isinstance(wanted, str) or bytes_of(wanted) != raw):
            found += [f"    bench/outside: {name.decode()} is {' '.join(told(raw))[:200]}"]
    for name in case.left.keys() - said.files.keys():
        found += [f"    bench/outside: {name.decode()} is not written"]
    return found
