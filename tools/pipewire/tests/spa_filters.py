"""The model of spa_pod_filter against what a real daemon made of 200 pairs."""
import json
import shutil
from pathlib import Path

from bridge.spa_filter import parts_of, taken
from tests.asking import RECORDINGS, TOOLS, TOP


def answer(output, input):
    """The Format that the daemon would set, or None; a key of one side alone has its default."""
    found = {}
    for key in [*output, *(key for key in input if key not in output)]:
        if key in output and key in input:
            values = taken(output[key], input[key])
            if values is None:
                return None
            found[key] = values[0]
        else:
            found[key] = parts_of(output.get(key, input.get(key))).default
    return found


def pairs_are_as_the_daemon_took_them(asking):
    for at, line in enumerate((RECORDINGS / "pairs.jsonl").read_text().splitlines(), 1):
        row = json.loads(line)
        asking.same(f"spa_filter: pair {at}", row.get("format"), answer(row["output"], row["input"]))


def crossing_and_steps(asking):
    """The two differences by themselves."""
    asking.same("ranges that cross", [48000], taken({"default": 96000, "min": 64000, "max": 192000},
                                                    {"default": 44100, "min": 8000, "max": 48000}))
    asking.same("a step with alternatives", [96000], taken(
        {"default": 48000, "min": 8000, "max": 96000, "step": 8000},
        {"default": 44100, "alt1": 44100, "alt2": 48000}))
    asking.same("the other way round", [48000], taken(
        {"default": 44100, "alt1": 44100, "alt2": 48000},
        {"default": 48000, "min": 8000, "max": 96000, "step": 8000}))
    asking.same("arrays of two lengths", None, taken(["FL", "FR"], ["MONO"]))


def the_program_prints_what_the_report_says(asking):
    """docs/spa_pod_filter.md, where a compiler and the headers are installed."""
    headers = Path("/usr/include/spa-0.2")
    if not shutil.which("gcc") or not headers.is_dir():
        print("spa_filters: gcc or libspa-0.2-dev is not installed, so the program was not built")
        return
    source = TOOLS / "spa_pod_filter.c"
    asking.same("spa_pod_filter.c: lines", True, len(source.read_text().splitlines()) <= 40)
    asking.same("spa_pod_filter.c: built", 0, asking.ask(
        ["gcc", "-D_GNU_SOURCE", f"-I{headers}", str(source), "-o", "spa_pod_filter"]).status)
    printed = asking.ask([str(asking.folder / "spa_pod_filter")]).text
    report = (TOP / "docs/spa_pod_filter.md").read_text()
    asking.same("spa_pod_filter.c: printed", True,
                "".join(f"    {line}\n" for line in printed.splitlines()) in report and len(printed) > 0)


TESTS = [the_program_prints_what_the_report_says, pairs_are_as_the_daemon_took_them, crossing_and_steps]
