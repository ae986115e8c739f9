"""Whether each name of docs/FORMATS.md and each sentence of the programs has a case, or a named test."""
import re
import sys
from pathlib import Path
from typing import Callable, Iterator

sys.path.append(str(Path(__file__).resolve().parents[1] / "outside"))

import documented

from elsewhere import NUMBERS, SENTENCES
from notation import text
from rows import Reader, bytes_of

TOP = Path(__file__).resolve().parents[2]
# Crates whose texts people read on standard error.
CRATES = ["fault_messages", "pod_text", "program_exit", "word_hints", "pw_pods"]
LITERAL = re.compile(r"""//[^\n]*|b?'(?:[^'\\\n]|\\x[0-9a-f]{2}|\\.)'|b?"((?:[^"\\]|\\.)*)\"""", re.S)
HOLE = re.compile(r"%[a-z]")  # in a form


def all_cases() -> list:
    """The cases of all files that are read."""
    return [case for path in sorted(Path(__file__).parent.glob("*.case")) for case in Reader(path).cases]


def plain(literal: str) -> str:
    """What a literal of a source stands for."""
    literal = re.sub(r"\\\n\s*", "", literal)
    signs = {"n": "\n", "r": "\r", "t": "\t", "0": "\0"}
    return re.sub(r"\\(?:x([0-9a-f]{2})|(.))",
                  lambda m: chr(int(m[1], 16)) if m[1] else signs.get(m[2], m[2]), literal)


def literals(path: Path) -> set:
    """The texts of a source that have a blank, those of its tests apart."""
    source = path.read_text().split("#[test]")[0]
    found = {plain(match[1]) for match in LITERAL.finditer(source) if match[1] is not None}
    return {literal for literal in found if " " in literal.strip()}


def sentences() -> dict:
    """The texts of the crates that speak to people, each with the source that has it."""
    return {literal: f"crates/{path.parent.parent.name}/src/{path.name}" for crate in CRATES
            for path in sorted((TOP / "crates" / crate / "src").glob("*.rt"))
            if path.name not in ("tests.rt", "rows.rt") for literal in sorted(literals(path))}


def is_in(form: str, said: str) -> bool:
    """Whether a form, in which anything may stand in a hole, is in what is said."""
    parts = [re.escape(part) for part in HOLE.split(form)]
    return re.search(".*".join(parts), said) is not None


def outputs(cases: list) -> list:
    """The lines of standard output of all cases."""
    return [line for case in cases for step in case.steps
            for line in bytes_of(step.out).decode("utf-8", "replace").split("\n")]


def numbers() -> Iterator[tuple]:
    """Each number of a table of docs/FORMATS.md, and the pattern of its line."""
    tables = [("script {}", documented.scripts(), r"script \d+ {}( \d+)?"),
              ("wav {}", documented.waves(), r"wav \d+ {}"),
              ("pod {}", {**documented.pods(), **documented.formats(), **documented.sequences(),
                          "Behind": 8, "OfferType": 17, "OfferClash": 18}, r"pod \d+ {}( \d+)*"),
              ("limit {}", documented.limits(), r"limit \d+ {}")]
    for title, table, pattern in tables:
        for name, number in sorted(table.items(), key=lambda item: item[1]):
            yield f"{title.format(number)} {name}", pattern.format(number)
    for why in ("buffers", "loop", "twice", r"\d+"):
        yield f"nolink {why}", rf"nolink \S+ \S+ {why}"
    for limit in (5, 6):
        yield f"script 12 {limit}", rf"script \d+ 12 {limit}"


def without_case(cases: list) -> Iterator[str]:
    """The numbers, commands and statuses that no case has."""
    lines = outputs(cases)
    for title, pattern in numbers():
        if not any(re.fullmatch(pattern, line) for line in lines) and title not in NUMBERS:
            yield title
    words = {step.words[1].decode("utf-8", "replace") for case in cases for step in case.steps
             if step.program == "pipegraph" and len(step.words) > 1 and step.status == 0}
    for command in sorted(documented.commands() - words):
        yield f"the command {command}"
    statuses = {step.status for case in cases for step in case.steps}
    for status, word in sorted(documented.statuses().items()):
        if status not in statuses and f"status {status}" not in NUMBERS:
            yield f"status {status} {word}"


def unsaid(cases: list) -> Iterator[str]:
    """The sentences that no case says."""
    said = "\n".join(part.decode("utf-8", "replace") for case in cases for step in case.steps
                     for part in (text(step.errors), bytes_of(step.out)))
    for form, source in sentences().items():
        if not is_in(form, said) and form not in SENTENCES:
            yield f"{source}: no case says {form!r}"


def not_in_tests() -> Iterator[str]:
    """What is said to be asked elsewhere, and is not, or has a case by now."""
    for what, (where, mark) in {**NUMBERS, **SENTENCES}.items():
        path = TOP / where
        if not path.is_file() or mark not in path.read_text():
            yield f"{what!r}: {where} has no {mark!r}"


def missing(say: Callable) -> tuple:
    """Tells what has neither a case nor a named test, and answers how much was looked for."""
    cases = all_cases()
    lacking = [*without_case(cases), *unsaid(cases), *not_in_tests()]
    for what in lacking:
        say(f"neither a case nor a test of its own: {what}")
    looked = len(list(numbers())) + len(sentences()) + len(documented.commands()) + len(documented.statuses())
    say(f"{looked:6} names and sentences")
    return looked, len(lacking)
