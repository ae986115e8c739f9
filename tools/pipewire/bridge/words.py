"""The words of a tool: files, and options that stand anywhere among them."""
from typing import Dict, List, Optional, Tuple

from bridge.fault import Fault


def parted(words: List[str], flags, valued, usage) -> Tuple[List[str], Dict[str, str]]:
    """The files, and the options by name: of a flag the value is its name. `usage` is the sentence
    where an option is unknown, stands twice or lacks its value."""
    files, options, rest = [], {}, list(words)
    while rest:
        word = rest.pop(0)
        if not word.startswith("--"):
            files.append(word)
        elif word in options or word not in (*flags, *valued) or (word in valued and not rest):
            raise Fault(usage)
        else:
            options[word] = rest.pop(0) if word in valued else word
    return files, options


def driver_of(options, usage) -> Optional[int]:
    """The id of --driver, if it is there."""
    word = options.get("--driver")
    if word is not None and not (word.isascii() and word.isdigit()):
        raise Fault(usage)
    return None if word is None else int(word)
