"""The program: from the words of the command line to a picture on standard output, or to why there is none.

Source: docs/pipegraph-pictures.1; statuses as docs/FORMATS.md has them.
"""
from __future__ import annotations

import os
import sys
from dataclasses import dataclass
from typing import List, Tuple

from . import graph, perfetto, request, run_text, script, timeline, wav, wave
from .files import SCRIPT_BYTES, TRACE_BYTES, WAV_BYTES, load
from .look import said
from .shown import shown
from .status import PROGRAM, SECOND_PLACE, Ended, memory

NOTES_PLACE, WAVE_PLACE = 3, 1


@dataclass(frozen=True)
class Answer:
    """The status of a call, what it puts on standard output, and what it says on standard error after that."""

    status: int
    text: bytes
    said: bytes = b""


def title_of(file: bytes) -> str:
    return said(os.path.basename(file) or file)


def fault_said(file: bytes, fault: script.Fault) -> bytes:
    """The sentence on a line at fault, with the line but for one with a byte that no script may have."""
    line = fault.text.split(b"\r")[0]
    quoted = shown(line) + b": " if line and fault.why != script.BYTE else b""
    return b"%s:%d: %s%s" % (shown(file), fault.line, quoted, fault.cause())


def load_script(file: bytes, partial: bool = False) -> script.Script:
    read = script.read(load(file, 0, SCRIPT_BYTES))
    if read.fault is not None and not partial:
        raise Ended(2, read.fault.printed(), fault_said(file, read.fault))
    return read


def load_run(file: bytes, of: script.Script, name: bytes) -> bytes:
    text = load(file, SECOND_PLACE, TRACE_BYTES)
    run_text.Reader(of).check(text, file, name)
    return text


def draw_graph(asked: request.Graph) -> Answer:
    read = load_script(asked.script, asked.partial)
    made: List[run_text.Made] = []
    if asked.run is not None:
        text = load(asked.run, SECOND_PLACE, TRACE_BYTES)
        notes = load(asked.notes, NOTES_PLACE, TRACE_BYTES) if asked.notes is not None else b""
        run_text.Reader(read).check(text, asked.run, asked.script)
        made = run_text.made_of(text, notes, read, asked.script)
    title = title_of(asked.script)
    if read.fault is None:
        return Answer(0, graph.draw(read, made, title))
    sentence = fault_said(asked.script, read.fault)
    return Answer(2, graph.draw(read, made, title, sentence.decode()), PROGRAM + sentence + b"\n")


def no_cycle(asked: request.Timeline) -> Ended:
    """No event of the trace is of a cycle of the range."""
    first = asked.cycles[0] if asked.cycles else 0
    return Ended(1, b"usage 3\n", b"%s: it has no event of cycle %d" % (shown(asked.trace), first))


def events_shown(asked: request.Timeline, text: bytes) -> Tuple[timeline.Shown, List[run_text.Event]]:
    """The events that are drawn, and all of the range where a file of them is asked for."""
    most = sys.maxsize if asked.perfetto else timeline.MOST
    before, count, found = run_text.events_of(text, asked.cycles, most)
    if asked.cycles and not found:
        raise no_cycle(asked)
    return timeline.Shown(found[: timeline.MOST], before, count, asked.illegal), found


def draw_timeline(asked: request.Timeline) -> Answer:
    read = load_script(asked.script)
    text = load_run(asked.trace, read, asked.script)
    shown_events, found = events_shown(asked, text)
    title = f"{title_of(asked.trace)}, a run of {title_of(asked.script)}"
    if asked.perfetto is not None:
        store(asked.perfetto, perfetto.written(read, found, title_of(asked.script)))
    return Answer(0, timeline.Drawing(read, shown_events).draw(title))


def store(file: bytes, text: bytes) -> None:
    try:
        with open(file, "wb") as out:
            out.write(text)
    except OSError as error:
        raise Ended(7, b"write 0\n", shown(file) + b" could not be written") from error


def draw_wave(asked: request.Wave) -> Answer:
    held = load(asked.file, WAVE_PLACE, WAV_BYTES)
    try:
        samples = wav.read(held)
    except wav.Fault as fault:
        raise Ended(3, b"wav %d %d\n" % (WAVE_PLACE, fault.number),
                    shown(asked.file) + b": " + wav.SENTENCES[fault.number]) from fault
    del held
    return Answer(0, wave.draw(samples, title_of(asked.file), asked.decibels))


def picture(asked: request.Request) -> Answer:
    if isinstance(asked, request.Help):
        return Answer(0, asked.text)
    if isinstance(asked, request.Graph):
        return draw_graph(asked)
    return draw_timeline(asked) if isinstance(asked, request.Timeline) else draw_wave(asked)


def put(text: bytes) -> bool:
    """Puts a text on standard output; whether all of it was. An output without a buffer may take a part at a time."""
    left = memoryview(text)
    try:
        while left:
            taken = sys.stdout.buffer.write(left)
            if taken is None:
                return False
            left = left[taken:]
        sys.stdout.buffer.flush()
    except (OSError, ValueError, AttributeError):
        return False
    return True


def tell(text: bytes) -> None:
    """Says something on standard error, where that can be."""
    try:
        sys.stderr.buffer.write(text)
        sys.stderr.buffer.flush()
    except (OSError, ValueError, AttributeError):
        pass


def answer(words: List[bytes]) -> Answer:
    """What the words after the program's own name are answered."""
    try:
        return picture(request.read(words))
    except MemoryError:
        ended = memory()
    except Ended as it:
        ended = it
    return Answer(ended.status, ended.line, ended.sentence + ended.more)


def closed_quietly() -> None:
    """Keeps the end of the program from writing to an output that failed."""
    for stream in (sys.stdout, sys.stderr):
        try:
            os.dup2(os.open(os.devnull, os.O_WRONLY), stream.fileno())
        except (OSError, ValueError, AttributeError):
            pass


def main(argv: List[str]) -> int:
    words = [os.fsencode(word) for word in argv[1:]]
    for index, word in enumerate(words, 1):
        if not request.is_text(word):
            tell(PROGRAM + b"word %d is not text in UTF-8\n" % index)
            return 1
    answered = answer(words)
    is_put = put(answered.text)
    if is_put or answered.status:
        tell(answered.said)
    else:
        tell(PROGRAM + b"the picture could not be written\n")
    if not is_put:
        closed_quietly()
    return answered.status if is_put else answered.status or 7
