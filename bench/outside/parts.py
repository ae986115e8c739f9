"""Runs of the parts of a script: what `groups` prints and stores, by the model of each part."""
import random

import grammar
import graphs
import model
from worked import wav

SINKS = 6


def names_in(words):
    """The nodes that a line names."""
    if words[0] in ("link", "unlink"):
        return [word.split(".")[0] for word in words[1:]]
    return words[1:2] if words[0] not in ("quantum", "cycles", "drain") else []


def told_by(models, words):
    """What a line makes these models tell."""
    told = []
    for one in models:
        one.line(words)
        told += one.text
        one.text = []
    return told


def joined(part, names):
    """Puts the parts of some nodes together."""
    nodes = set(names).union(*(part.get(name, ()) for name in names))
    part.update(dict.fromkeys(nodes, nodes))


def of_whole(lines, waves, pods):
    """What each line tells in the whole script, and the part of each node.

    A part is the nodes that links join which the whole script makes, at whatever line.
    """
    whole, told, part = model.Model(waves, pods), [], {}
    for words in lines:
        told.append(told_by([whole], words) if words else [])
        if words and grammar.FORMS[words[0]][:1] == ["new"]:
            joined(part, [words[1]])
        if told[-1] and told[-1][0].startswith("link "):
            joined(part, names_in(words))
    return told, part


def answer(script, waves, pods):
    """Status, text and files of `groups` on a script in the grammar."""
    status, line, _ = model.run(script, waves, pods)
    if status:
        return status, line, {}
    lines = [line.split() for line in script.split("\n")]
    whole, part = of_whole(lines, waves, pods)
    models, text = {id(nodes): model.Model(waves, pods) for nodes in part.values()}, []
    for words, told in zip(lines, whole):
        owners = {id(part[name]) for name in names_in(words)} if words else set()
        if words and len(owners) < 2:
            told = told_by([models[owner] for owner in owners] or models.values(), words)
        text += told
    return 0, *together(models.values(), part, text)


def together(models, part, text):
    """The lines of all sinks and meters, ascending by number, and all files."""
    files, told = {}, {}
    for one in models:
        lines, stored = one.end()
        told.update({line.split()[1]: line for line in lines.splitlines()})
        files.update(stored)
    text = text + [told[name] for name in part if name in told]
    return "".join(line + "\n" for line in text), files


def compare(place, script, waves, offers):
    status, text, files = answer(script, waves, offers)
    place.file("parts.graph", script)
    place.expect(script, ["groups", "parts.graph"], status, text)
    for name, (samples, channels, rate) in files.items():
        place.same(f"{name} of {script!r}", wav(samples, channels, rate), place.read(name))
        place.forget(name)


def six(place):
    """Six parts at once, each with its own driver, number of cycles and format."""
    waves = graphs.make_waves(place, random.Random(9))
    lines = ["quantum 3"]
    for i in range(SINKS):
        rate, channels = 8000 * (i + 1), i % 3 + 1
        lines += [f"source s{i} {['mono', 'stereo', 'slow'][i % 3]}.wav",
                  f"square q{i} {rate} {channels} {i + 2} {1000 * i + 7}",
                  f"gain g{i} {100 * i - 250}", f"delay d{i} {i}",
                  f"sink o{i} o{i}.out", f"sink p{i} p{i}.out", f"meter m{i}"]
        lines += [f"driver o{i} {i}", f"link s{i}.out g{i}.in", f"link g{i}.out d{i}.in",
                  f"link d{i}.out o{i}.in", f"link g{i}.out m{i}.in", f"link q{i}.out p{i}.in"]
    lines += ["cycles 2", "off s3", "unlink s0.out g0.in", "unlink s1.out g2.in", "cycles 4",
              "on s3", "drain"]
    compare(place, "\n".join(lines), waves, {})


def drawn(place):
    """Random graphs, the parts of each at once."""
    draw = random.Random(10)
    waves, offers = graphs.make_waves(place, draw), graphs.make_offers(place, draw)
    for _ in range(place.some(graphs.COUNT)):
        compare(place, graphs.random_graph(draw), waves, offers)
