"""The scenes that are recorded: each starts clients on a daemon of its own."""
import json
import os
import signal
import time

from bridge.daemon import DUMMY, sink

FILTER = """
context.properties = { log.level = 1 }
context.spa-libs = { audio.convert.* = audioconvert/libspa-audioconvert
    support.* = support/libspa-support }
context.modules = [
    { name = libpipewire-module-protocol-native }
    { name = libpipewire-module-client-node }
    { name = libpipewire-module-adapter }
    { name = libpipewire-module-filter-chain args = {
        node.description = "Low pass"
        filter.graph = { nodes = [ { type = builtin name = low label = bq_lowpass
            control = { "Freq" = 1000.0 } } ] }
        audio.channels = 2 audio.position = [ FL FR ]
        capture.props = { node.name = low_pass media.class = Audio/Sink }
        playback.props = { node.name = low_pass.out target.object = sinkA } } } ]
"""
ECHO = """
context.properties = { log.level = 1 }
context.spa-libs = { audio.convert.* = audioconvert/libspa-audioconvert
    support.* = support/libspa-support }
context.modules = [
    { name = libpipewire-module-protocol-native }
    { name = libpipewire-module-client-node }
    { name = libpipewire-module-adapter }
    { name = libpipewire-module-echo-cancel args = {
        library.name = aec/libspa-aec-null
        capture.props = { node.name = echo_capture target.object = sinkB stream.capture.sink = true }
        source.props = { node.name = echo_source }
        sink.props = { node.name = echo_sink }
        playback.props = { node.name = echo_playback target.object = sinkA } } } ]
"""
COMBINE = """
context.properties = { log.level = 1 }
context.spa-libs = { audio.convert.* = audioconvert/libspa-audioconvert
    support.* = support/libspa-support }
context.modules = [
    { name = libpipewire-module-protocol-native }
    { name = libpipewire-module-client-node }
    { name = libpipewire-module-adapter }
    { name = libpipewire-module-combine-stream args = {
        combine.mode = sink node.name = both node.description = "Both sinks"
        combine.props = { audio.position = [ FL FR ] }
        stream.rules = [ { matches = [ { media.class = "Audio/Sink" node.name = "~sink.*" } ]
            actions = { create-stream = { combine.audio.position = [ FL FR ]
                audio.position = [ FL FR ] } } } ] } } ]
"""
SIX = "[ FL FR FC LFE RL RR ]"
BOTH = DUMMY + sink("sinkA") + sink("sinkB")


def players(daemon):
    """Three players, one sink."""
    for name in ("first", "second", "third"):
        daemon.play("sinkA", name)


def loopbacks(daemon):
    """A player through two loopbacks one after the other, beside a player without."""
    daemon.loopback("second", {"node.name": "second.in", "media.class": "Audio/Sink"},
                    {"node.name": "second.out", "target.object": "sinkA"})
    daemon.loopback("first", {"node.name": "first.in", "media.class": "Audio/Sink"},
                    {"node.name": "first.out", "target.object": "second.in"})
    daemon.play("first.in", "through")
    daemon.play("sinkA", "beside")


def filter_chain(daemon):
    """A player through a filter chain, beside one without."""
    path = daemon.folder / "filter.conf"
    path.write_text(FILTER)
    daemon.start("pipewire", "-c", str(path))
    time.sleep(1)
    daemon.play("low_pass", "filtered")
    daemon.play("sinkA", "plain")


def drivers(daemon):
    """Two sinks with players of their own: two drivers, each with a clock of its own."""
    daemon.play("sinkA", "first")
    daemon.play("sinkB", "second")
    daemon.play("sinkA", "third")


def asynchronous(daemon):
    """A loopback that says node.async, between a player and the sink."""
    daemon.loopback("delayed", {"node.name": "delayed.in", "media.class": "Audio/Sink",
                                "node.async": True},
                    {"node.name": "delayed.out", "target.object": "sinkA", "node.async": True})
    daemon.play("delayed.in", "player")


def monitor(daemon):
    """A loopback from the monitor of the sink that drives to another sink, which follows."""
    daemon.play("sinkA", "player")
    daemon.loopback("copy", {"node.name": "copy.in", "stream.capture.sink": True,
                             "target.object": "sinkA"},
                    {"node.name": "copy.out", "target.object": "sinkB"})


def dummy(daemon):
    """A player into a recorder, and no sink: the daemon's dummy driver drives."""
    daemon.play("0", "player")
    record(daemon, "player", "recorder")


def late(daemon):
    """Three players; the second one is stopped for 60 ms again and again, on purpose."""
    daemon.play("sinkA", "first")
    stopped = daemon.play("sinkA", "stopped")
    daemon.play("sinkA", "third")
    return stopped


def tap(daemon):
    """A player into a sink and a recorder, which is stopped for 60 ms again and again."""
    daemon.play("sinkA", "player")
    return record(daemon, "player", "recorder")


def record(daemon, player, name):
    """A recorder of what a player plays."""
    child = daemon.start("pw-cat", "-r", "--target", "0", "--latency", "1024",
                         "-P", json.dumps({"node.name": name}), "recorded.wav")
    time.sleep(0.6)
    for side in ("FL", "FR"):
        daemon.ask("pw-link", f"{player}:output_{side}", f"{name}:input_{side}")
    time.sleep(0.4)
    return child


def stop_now_and_then(child, seconds):
    """Stops a process for 60 ms, twice a second."""
    for _ in range(int(seconds * 2)):
        time.sleep(0.44)
        os.killpg(child.pid, signal.SIGSTOP)
        time.sleep(0.06)
        os.killpg(child.pid, signal.SIGCONT)


def mono_chain(daemon):
    """A mono player through a mono loopback into a sink."""
    daemon.loopback("lp", {"node.name": "lp.in", "media.class": "Audio/Sink"},
                    {"node.name": "lp.out", "target.object": "sinkA"}, "[ MONO ]")
    daemon.play("lp.in", "player")


def surround(daemon):
    """A player through a loopback of six channels into a sink of six."""
    daemon.loopback("lp", {"node.name": "lp.in", "media.class": "Audio/Sink"},
                    {"node.name": "lp.out", "target.object": "sinkA"}, SIX)
    daemon.play("lp.in", "player")


def late_chain(daemon):
    """A player through two loopbacks; the first of them is stopped for 60 ms again and again."""
    daemon.loopback("b", {"node.name": "b.in", "media.class": "Audio/Sink"},
                    {"node.name": "b.out", "target.object": "sinkA"})
    stopped = daemon.loopback("a", {"node.name": "a.in", "media.class": "Audio/Sink"},
                              {"node.name": "a.out", "target.object": "b.in"})
    daemon.play("a.in", "player")
    return stopped


def echo(daemon):
    """A player through an echo canceller of four streams into a sink, and a recorder of it."""
    path = daemon.folder / "echo.conf"
    path.write_text(ECHO)
    daemon.start("pipewire", "-c", str(path))
    time.sleep(1)
    daemon.play("echo_sink", "player")
    daemon.play("sinkB", "other")
    daemon.start("pw-cat", "-r", "--target", "echo_source", "--latency", "1024",
                 "-P", json.dumps({"node.name": "recorder"}), "recorded.wav")
    time.sleep(0.6)


def forced(daemon):
    """Two players and a loopback; the daemon is stopped for 60 ms again and again."""
    daemon.loopback("lp", {"node.name": "lp.in", "media.class": "Audio/Sink"},
                    {"node.name": "lp.out", "target.object": "sinkA"})
    daemon.play("lp.in", "first")
    daemon.play("sinkA", "second")
    return daemon.children[0]


def monitor_chain(daemon):
    """Two loopbacks in a row from the monitor of the sink that drives to another sink."""
    daemon.play("sinkA", "player")
    daemon.loopback("last", {"node.name": "last.in", "media.class": "Audio/Sink"},
                    {"node.name": "last.out", "target.object": "sinkB"})
    daemon.loopback("copy", {"node.name": "copy.in", "stream.capture.sink": True,
                             "target.object": "sinkA"},
                    {"node.name": "copy.out", "target.object": "last.in"})


def combine(daemon):
    """A player through a combined stream of three streams into two sinks."""
    path = daemon.folder / "combine.conf"
    path.write_text(COMBINE)
    daemon.start("pipewire", "-c", str(path))
    time.sleep(1.5)
    daemon.play("both", "player")


def feedback(daemon):
    """Two loopbacks, each of which takes what the other gives, and a player into one of them."""
    for name in ("one", "two"):
        daemon.loopback(name, {"node.name": f"{name}.in", "media.class": "Audio/Sink"},
                        {"node.name": f"{name}.out", "target.object": "sinkA"})
    daemon.play("one.in", "player")
    for one, two in (("one", "two"), ("two", "one")):
        for side in ("FL", "FR"):
            daemon.ask("pw-link", f"{one}.out:output_{side}", f"{two}.in:playback_{side}")
    time.sleep(0.4)


def join(daemon):
    """A player, and a second one that joins in the middle; the dump is of before."""
    daemon.play("sinkA", "first")

    def meanwhile(seconds):
        time.sleep(seconds / 2)
        daemon.play("sinkA", "joining")
    return meanwhile


def leave(daemon):
    """Two players, of which one leaves in the middle; the dump is of before."""
    daemon.play("sinkA", "first")
    leaving = daemon.play("sinkA", "leaving")

    def meanwhile(seconds):
        time.sleep(seconds / 2)
        leaving.terminate()
    return meanwhile


def many(daemon):
    """Seventy players, six more than pw-profiler has columns for."""
    for at in range(70):
        daemon.play("sinkA", f"player{at}", wait=0.1)
    time.sleep(2)


SCENES = {"players": (BOTH, players), "loopbacks": (BOTH, loopbacks),
          "filter": (BOTH, filter_chain), "drivers": (BOTH, drivers),
          "async": (BOTH, asynchronous), "monitor": (BOTH, monitor), "dummy": (BOTH, dummy),
          "late": (BOTH, late), "tap": (BOTH, tap),
          "mono_chain": (BOTH, mono_chain), "late_chain": (BOTH, late_chain),
          "surround": (DUMMY + sink("sinkA", SIX[2:-2]), surround),
          "rate44": (BOTH, loopbacks, 44100), "echo": (BOTH, echo), "forced": (BOTH, forced),
          "monitor_chain": (BOTH, monitor_chain), "combine": (BOTH, combine),
          "feedback": (BOTH, feedback), "join": (BOTH, join), "leave": (BOTH, leave),
          "many": (BOTH, many)}
