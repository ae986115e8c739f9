"""The crates of a checkout in layers, as crates.txt lists them."""
from pathlib import Path
from typing import Dict, List

Uses = Dict[str, List[str]]


def uses_of(checkout: Path) -> Uses:
    """The crates of a checkout, each with the crates and libraries that it names."""
    rows = [row.partition("#")[0] for row in (checkout / "crates.txt").read_text().splitlines()]
    split = [row.partition(":") for row in rows if row.strip()]
    return {name.split()[0]: named.split() for name, _colon, named in split}


def below(uses: Uses, name: str) -> List[str]:
    """The crates below one, each after those that it uses."""
    found: List[str] = []
    for use in uses.get(name, []):
        if use in uses:
            found += [it for it in [*below(uses, use), use] if it not in found]
    return found
