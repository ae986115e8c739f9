"""What no case can show, and the test that asks it: a file of the repository, and what stands in it."""

TEXTS = "crates/command_tests/src/messages.rt"  # sentences of values that no run finds

# Numbers of docs/FORMATS.md.
NUMBERS = {
    "status 9": ("bench/outside/statuses.py", "def memory("),
}

# Sentences.
SENTENCES = {
    "the node has no such port": (TEXTS, "the node has no such port"),
    "a name, a port or a file word has the wrong form": (TEXTS, "a name, a port or a file word has the wrong form"),
    "a number is out of range, or has the wrong form": (TEXTS, "a number is out of range, or has the wrong form"),
    "no line before this one makes a node of this name": (TEXTS, "no line before this one makes a node of this name"),
    "only a sink or a meter may drive": (TEXTS, "only a sink or a meter may drive"),
    "the first word is no command": (TEXTS, "the first word is no command"),
    "too few words, or too many": (TEXTS, "too few words, or too many"),
    "no memory was left": (TEXTS, "no memory was left"),
    "pipegraph: no memory was left\n": ("crates/command_tests/src/programs.rt", "pipegraph: no memory was left"),
    "standard output cannot be written": (TEXTS, "standard output cannot be written"),
    "an event is missing": ("crates/command_tests/src/reasons.rt", "an event is missing"),
}
