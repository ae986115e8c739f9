"""The first fault of a script, from the tables of docs/FORMATS.md, apart from the program."""
import re

INPUTS = {"gain": ["in"], "mix2": ["a", "b"], "delay": ["in"], "map": ["in"], "split": ["in"],
          "sink": ["in"],
          "meter": ["in"]}
OUTPUTS = {"source": ["out"], "square": ["out"], "gain": ["out"], "mix2": ["out"], "delay": ["out"],
           "map": ["out"],
           "split": ["left", "right"]}
# What follows a command: a new node, a node, a file and so on, or the least and the greatest of a
# number.
FORMS = {
    "quantum": [(1, 8192)], "source": ["new", "file"], "split": ["new"], "sink": ["new", "file"],
    "meter": ["new"],
    "square": ["new", (1, 384000), (1, 8), (1, 1000000), (0, 32767)],
    "gain": ["new", (-32767, 32767)],
    "mix2": ["new", (-32767, 32767), (-32767, 32767)], "delay": ["new", (0, 65536)],
    "map": ["new", (1, 8), "list"],
    "driver": ["node", (0, 1000000)], "loop": ["node", (0, 15)], "offer": ["node", "port", "file"],
    "buffers": ["node", "port", (1, 8)], "link": ["output", "input"], "unlink": ["output", "input"],
    "on": ["node"], "off": ["node"], "async": ["node"], "cycles": [(1, 1000000)], "drain": [],
}
ALLOWED = set(b"\t\n\r") | set(range(0x20, 0x7F))
NAME = re.compile(r"[a-z][a-z0-9_]{0,30}")


def number(word, low, high):
    """The number that a word is, or None."""
    if not re.fullmatch(r"0|-?[1-9][0-9]*" if low < 0 else r"0|[1-9][0-9]*", word):
        return None
    return int(word) if len(word) < 20 and low <= int(word) <= high else None


class Reader:
    def __init__(self):
        self.kinds, self.linked, self.commands, self.epochs = {}, set(), 0, 0

    def node(self, word):
        if not NAME.fullmatch(word):
            return 5
        return None if word in self.kinds else 7

    def endpoint(self, word, ports):
        if word.count(".") != 1:
            return 5
        name, port = word.split(".")
        why = self.node(name)
        return why or (None if port in ports.get(self.kinds[name], []) else 8)

    def argument(self, form, word, before):
        """The fault of one argument, or None; `before` are the words to its left."""
        if form == "new":
            if not NAME.fullmatch(word):
                return 5
            return 6 if word in self.kinds or word == "dummy" else None
        if form == "node":
            return self.node(word)
        if form == "file":
            return None if len(word) <= 255 else 5
        if form == "port":
            kind = self.kinds[before[-1]]
            return None if word in INPUTS.get(kind, []) + OUTPUTS.get(kind, []) else 8
        if form in ("output", "input"):
            return self.endpoint(word, OUTPUTS if form == "output" else INPUTS)
        if form == "list":
            parts = word.split(",")
            good = all(number(part, 0, int(before[-1]) - 1) is not None for part in parts)
            return None if good and len(parts) <= 8 else 4
        return None if number(word, *form) is not None else 4

    def forbidden(self, command, words):
        """What earlier lines forbid."""
        if command == "quantum" and self.commands:
            return (9,)
        if command == "driver" and self.kinds[words[1]] not in ("sink", "meter"):
            return (10,)
        if command in ("offer", "async") and words[1] in self.linked:
            return (11 if command == "offer" else 14,)
        if FORMS[command][:1] == ["new"] and len(self.kinds) == 63:
            return 12, 5
        if command in ("cycles", "drain") and self.epochs == 1024:
            return 12, 6
        return None

    def line(self, line):
        """The fault of a line, or None; a line without one is kept."""
        if not set(line) <= ALLOWED:
            return (1,)
        words = line.decode().replace("\t", " ").replace("\r", " ").split(" ")
        words = [word for word in words if word]
        if not words or words[0].startswith("#"):
            return None
        command = words[0]
        if command not in FORMS:
            return (2,)
        if len(words) != 1 + len(FORMS[command]):
            return (3,)
        for i, form in enumerate(FORMS[command]):
            why = self.argument(form, words[1 + i], words[:1 + i])
            if why:
                return (why,)
        fault = self.forbidden(command, words)
        if fault:
            return fault
        self.commands += 1
        self.epochs += command in ("cycles", "drain")
        if FORMS[command][:1] == ["new"]:
            self.kinds[words[1]] = command
        if command == "link":
            self.linked |= {word.split(".")[0] for word in words[1:]}
        return None


def script_fault(script):
    """The line that is printed of a script at fault, or None."""
    reader = Reader()
    for i, line in enumerate(script.split(b"\n")):
        fault = reader.line(line)
        if fault:
            return f"script {i + 1} " + " ".join(map(str, fault)) + "\n"
    return None
