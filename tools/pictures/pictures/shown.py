"""Words of others as they are shown in a sentence, and the names that a word may mean.

Source: UTF-8 (RFC 3629); distances are Levenshtein's; the choices are this project's (docs/FORMATS.md,
docs/pipegraph.1).
"""
from __future__ import annotations

from typing import List

SHOWN_LIMIT = 200


def more_of(byte: int) -> int:
    """How many bytes of a character come after its first."""
    if byte < 0xC2:
        return 0
    if byte < 0xE0:
        return 1
    if byte < 0xF0:
        return 2
    return 3 if byte < 0xF5 else 0


def is_inner(byte: int) -> bool:
    """Whether a byte is not the first of its character."""
    return 0x80 <= byte < 0xC0


def is_hidden(word: bytes, at: int, left: int) -> bool:
    """Whether a byte is shown by its number: a control character, or a byte of no character."""
    byte = word[at]
    if byte < 32 or byte == 127:
        return True
    if byte == 0xC2 and word[at + 1 : at + 2] and 0x80 <= word[at + 1] <= 0x9F:
        return True
    if at and word[at - 1] == 0xC2 and 0x80 <= byte <= 0x9F:
        return True
    return byte >= 0x80 and (left == 0 if is_inner(byte) else more_of(byte) == 0)


def cut_place(word: bytes, most: int) -> int:
    """The last place, `most` at the latest, at which no character is cut."""
    for back in range(3):
        if not is_inner(word[most - back]):
            return most - back
    return most - 3


def shown(word: bytes) -> bytes:
    """A word: control characters and bytes of no character by two digits, a backslash twice, a long one cut."""
    if len(word) > SHOWN_LIMIT:
        return escaped(word[: cut_place(word, SHOWN_LIMIT)]) + b".."
    return escaped(word)


def escaped(word: bytes) -> bytes:
    pieces, left = [], 0
    for at, byte in enumerate(word):
        if is_hidden(word, at, left):
            pieces.append(b"\\x%02x" % byte)
        else:
            pieces.append(b"\\\\" if byte == 0x5C else bytes([byte]))
        left = max(left - 1, 0) if is_inner(byte) else more_of(byte)
    return b"".join(pieces)


def one_near(a: bytes, b: bytes) -> bool:
    """Whether two words are within one letter of each other, or two neighbours changed places."""
    at = next((i for i, (x, y) in enumerate(zip(a, b)) if x != y), min(len(a), len(b)))
    rest, other = a[at:], b[at:]
    return (rest[1:] == other or rest == other[1:] or rest[1:] == other[1:]
            or rest[:2] == other[:2][::-1] and rest[2:] == other[2:])


def two_near(a: bytes, b: bytes) -> bool:
    """Whether two words are within two letters of each other."""
    distances = list(range(len(b) + 1))
    for i, x in enumerate(a, 1):
        row = [i]
        for j, y in enumerate(b, 1):
            row.append(min(row[-1] + 1, distances[j] + 1, distances[j - 1] + (x != y)))
        distances = row
    return distances[-1] <= 2


def guesses(word: bytes, names: List[bytes]) -> List[bytes]:
    """The names that a word may mean: those within one letter, or else within two of a word of at least six."""
    near = [name for name in names if one_near(word, name)]
    if near or len(word) < 6:
        return near
    return [name for name in names if two_near(word, name)]
