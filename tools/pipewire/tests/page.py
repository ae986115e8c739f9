"""The commands of docs/PIPEWIRE.md print what is below them.

They are in blocks that are indented by four spaces: a line that begins with "$ " is run, in a
folder that has tools/ and demo/, and the lines below it are all that it prints.
"""
import subprocess

from tests.asking import TOP

PAGE = TOP / "docs/PIPEWIRE.md"
INDENT = "    "


def commands(text):
    """Each command of the page, with its line's number and what it prints."""
    found, open_block = [], False
    for number, line in enumerate(text.split("\n"), 1):
        if line.startswith(INDENT + "$ "):
            found.append((number, line[len(INDENT) + 2:], []))
            open_block = True
        elif open_block and line.startswith(INDENT):
            found[-1][2].append(line[len(INDENT):])
        else:
            open_block = False
    return found


def commands_print_what_they_say(asking):
    for name in ("tools", "demo"):
        (asking.folder / name).symlink_to(TOP / name)
    for number, command, lines in commands(PAGE.read_text()):
        done = subprocess.run(["bash", "-c", command], cwd=asking.folder, env=asking.environment,
                              stdin=subprocess.DEVNULL, stdout=subprocess.PIPE,
                              stderr=subprocess.STDOUT, text=True, timeout=60)
        asking.same(f"docs/PIPEWIRE.md:{number}: {command}", lines, done.stdout.splitlines())


TESTS = [commands_print_what_they_say]
