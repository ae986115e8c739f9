"""Shapes that are searched, and wrong codes: of each, on which shape it is tried, and what is to be found there.

What is found of a wrong code is a law that some state breaks, a step that the model does not have, that from some state
no end can be reached, or that some run goes round for ever.
"""
from typing import Dict, FrozenSet, NamedTuple, Tuple

from boards import Shape

WAKE, STUCK, SLEEPS = "no wake is lost", "rests are never stuck", "nobody sleeps at the end"
REST, LEAVE = "no step: lies_down", "no step: leaves"
NO_END, ROUND = "no end", "goes round"

SHAPES: Dict[str, Shape] = {shape.name: shape for shape in (
    Shape("two on a loop", ((0, 1),), (0, 0), 1, 2),
    Shape("two alone", (), (0, 0), 1, 1),
    Shape("the driver's own", ((0, 1),), (1, 0), 1, 2),
    Shape("one adopted", ((0, 1),), (0, 1), 2, 2, (1,)),
    Shape("two adopted", (), (0, 1, 2), 3, 1, (1, 2)),
    Shape("all adopted", ((0, 1),), (0, 1), 2, 1, (0, 1)),
    Shape("a pair", (), (0, 1), 2, 1),
    Shape("a chain", ((0, 1),), (0, 1), 2, 1),
    Shape("still starting", ((0, 1),), (0, 0), 1, 1, (), True),
)}


class WrongCode(NamedTuple):
    """A name, the shape that shows it, and all that is to be found there."""

    name: str
    shape: str
    found: FrozenSet[str]


def of(name: str, shape: str, *found: str) -> WrongCode:
    return WrongCode(name, shape, frozenset(found))


LOST = (REST, LEAVE, WAKE, STUCK, NO_END)

WRONG_CODES: Tuple[WrongCode, ...] = (
    of("forgets to unpark a loop", "two on a loop", *LOST),
    of("spares all loops but its own", "two on a loop", *LOST),
    of("spares the loop of the first node", "two on a loop", *LOST),
    of("the driver forgets to unpark", "two on a loop", *LOST),
    of("the beginning sends nothing", "two on a loop", *LOST),
    of("unparks before TRIGGERED", "two on a loop", *LOST),
    of("an adopted loop's wake is not forwarded", "one adopted", *LOST),
    of("the driver's own node is not forwarded", "two on a loop", *LOST),
    of("forgets the driver", "two on a loop", *LOST),
    of("forwards only the first node", "a pair", *LOST),
    of("takes the token after the scan", "two on a loop", REST, WAKE, STUCK, NO_END),
    of("the driver rests before its claim", "two on a loop", REST, WAKE, STUCK, NO_END),
    of("forgets that an adopted loop ran", "one adopted", REST),
    of("skips its last adopted loop", "one adopted", REST, WAKE, STUCK, NO_END),
    of("skips its last adopted loop", "all adopted", NO_END, ROUND),
    of("sleeps again after a take", "two on a loop", REST, WAKE, STUCK, NO_END),
    of("rests without a scan", "two alone", REST, WAKE, STUCK),
    of("rests between two cycles", "two on a loop", REST, STUCK, NO_END),
    of("the scan misses its last follower", "two on a loop", REST),
    of("tokens cancel out", "two on a loop", WAKE, STUCK, NO_END),
    of("a token only for a sleeper", "two on a loop", WAKE, STUCK, NO_END),
    of("a loop rests after a turn that ran", "two on a loop", REST, WAKE, STUCK, SLEEPS, NO_END),
    of("a loop rests at its end", "two on a loop", REST, SLEEPS, NO_END),
    of("the parker does not look again", "two on a loop", NO_END),
    of("scans again without a token", "two on a loop", ROUND),
    of("the driver never rests", "two on a loop", ROUND),
    of("a look never forgets its call", "two on a loop", ROUND),
    of("leaves the number in its queue", "two on a loop", NO_END, ROUND),
    of("gives itself a token before each rest", "two on a loop", ROUND),
    of("never says that it runs", "still starting"),
)
