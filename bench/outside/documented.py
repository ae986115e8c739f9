"""The named causes, statuses and commands of docs/FORMATS.md, read off its tables."""
import re
from functools import cache

from asking import TOP

ROW = r"^\| (\d+) \| `(\w+)` \| .* \|$"  # of a table: a number, a name, and what it is


@cache
def section(title):
    """The text of a section of the page, with the sections below it."""
    page = (TOP / "docs/FORMATS.md").read_text()
    mark = re.search(rf"^(#+) {re.escape(title)}$", page, re.M)
    rest = page[mark.end():]
    end = re.search(rf"^#{{1,{len(mark[1])}}} ", rest, re.M)
    return rest[:end.start()] if end else rest


def numbered(pattern, title):
    """The number of each name that a section pairs so; `Memory`, which is always free, is none."""
    found = {name: int(number) for number, name in re.findall(pattern, section(title), re.M)}
    found.pop("Memory", None)
    return found


def waves():
    """The causes of `wav`."""
    return numbered(ROW, "WAV files")


def pods():
    """The causes 1 to 7 of `pod`."""
    return numbered(r"(\d+) `(\w+)`", "PODs")


def formats():
    """The causes 11 to 16 of `pod`: ten more than the faults of an object that is no format."""
    faults = numbered(r"(\d+)\s`(\w+)`", "Formats with choices")
    return {name: 10 + number for name, number in faults.items()}


def sequences():
    """The causes 19 to 22 of `pod`."""
    return {name: int(why) for name, why in re.findall(
        r"^\| \d+ \| `(\w+)`.*\| (\d+)\D[^|]*\|$", section("Control sequences"), re.M)}


def scripts():
    """The causes of `script`."""
    return numbered(ROW, "Scripts")


def limits():
    """The numbers of `limit`, but for those of 5 and 6, which a script has as its cause 12."""
    found = numbered(ROW, "Status lines")
    found.pop("memory", None)  # a status of the table before
    return found


def lists():
    """The faults of a list of gains."""
    return set(re.findall(r"^\| `(\w+)` \|", section("Lists of gains"), re.M))


def texts():
    """The faults of a dump that is read back."""
    rows = re.findall(r"^\| (`.*?`) \|", section("Dumps read back"), re.M)
    return set(re.findall(r"`(\w+)`", " ".join(rows)))


def commands():
    """The commands of `pipegraph`."""
    return set(re.findall(r"^\| `(\w+) ", section("The command line"), re.M))


def statuses():
    """The word of the line of each number that `pipegraph` ends with; 0 has none."""
    lines = section("Status lines").split("| limit |")[0]
    found = re.findall(r"^\| (\d) \| (?:`(\w+)|the text)", lines, re.M)
    return {int(number): word for number, word in found}


def statuses_of_pods():
    """The numbers that `pipegraph-pods` ends with where it refuses something."""
    words = section("What pipegraph-pods answers").split("numbers of `pipegraph`:")[1]
    return {int(number) for number in re.findall(r"\b(\d) [a-z]", words.split(".\n")[0])}
