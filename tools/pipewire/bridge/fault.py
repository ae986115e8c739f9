"""What is wrong with an input, and how a tool ends then."""
import sys


class Fault(Exception):
    """A sentence that names the place, and what was told before it."""

    def __init__(self, sentence, told=()):
        super().__init__(sentence)
        self.told = list(told)


def shown(text):
    """A text as ASCII, without controls, in quotes."""
    plain = str(text).encode("ascii", "backslashreplace").decode()
    return '"' + "".join(c if c.isprintable() else f"\\x{ord(c):02x}" for c in plain) + '"'


def note(tool, sentence):
    """A sentence on standard error."""
    print(f"{tool}: {sentence}", file=sys.stderr)


def store(path, text):
    """Writes a file."""
    try:
        with open(path, "w", encoding="utf-8") as file:
            file.write(text)
    except OSError as error:
        raise Fault(f"{path}: {error.strerror}") from None


def run(tool, usage, work):
    """Runs a tool: its text goes out only when all of it is there."""
    words = sys.argv[1:]
    try:
        if not words or words[0] in ("-h", "--help"):
            print(usage.strip(), file=sys.stdout if words else sys.stderr)
            return 0 if words else 1
        sys.stdout.write(work(words))
        sys.stdout.flush()
        return 0
    except Fault as fault:
        for sentence in fault.told:
            note(tool, sentence)
        note(tool, fault)
    except BrokenPipeError:
        sys.stderr.close()
    except OSError as error:
        note(tool, f"standard output: {error.strerror}")
        sys.stdout = None
    return 1
