"""A PipeWire of our own, without devices: a daemon, a session manager, and clients."""
import json
import os
import shutil
import signal
import struct
import subprocess
import sys
import time
import wave
from pathlib import Path

from bridge.fault import Fault

PROGRAMS = ["pipewire", "wireplumber", "dbus-run-session", "pw-dump", "pw-link", "pw-cat",
            "pw-loopback", "pw-profiler"]
INSTALL = "apt-get install pipewire pipewire-bin wireplumber libspa-0.2-modules dbus"

CONFIGURATION = """
context.properties = { log.level = 1  core.daemon = true  core.name = pipewire-0
    default.clock.rate = %d  default.clock.quantum = 1024 }
context.spa-libs = {
    audio.convert.* = audioconvert/libspa-audioconvert
    audio.adapt = audioconvert/libspa-audioconvert
    support.* = support/libspa-support }
context.modules = [
    { name = libpipewire-module-protocol-native }
    { name = libpipewire-module-profiler }
    { name = libpipewire-module-metadata }
    { name = libpipewire-module-spa-node-factory }
    { name = libpipewire-module-client-node }
    { name = libpipewire-module-access args = { } }
    { name = libpipewire-module-adapter }
    { name = libpipewire-module-link-factory } ]
context.objects = [
%s]
"""
DUMMY = """    { factory = spa-node-factory args = { factory.name = support.node.driver
        node.name = Dummy-Driver node.group = pipewire.dummy priority.driver = 20000 } }
"""
SINK = """    { factory = adapter args = { factory.name = support.null-audio-sink node.name = %s
        media.class = Audio/Sink object.linger = true audio.position = [ %s ] %s } }
"""


def missing(programs):
    """Those of the programs that are not installed."""
    return [name for name in programs if not shutil.which(name)]


def sink(name, position="FL FR", more=""):
    """A null sink: a driver with a timer of its own."""
    return SINK % (name, position, more)


class Daemon:
    """A daemon in a folder of its own; every process that it starts ends with it."""

    def __init__(self, folder, objects, manager=True, rate=48000):
        self.folder, self.manager = Path(folder), manager
        self.children = []
        runtime = self.folder / "runtime"
        runtime.mkdir(mode=0o700)
        self.environment = {**os.environ, "XDG_RUNTIME_DIR": str(runtime), "HOME": str(folder),
                            "LC_ALL": "C.UTF-8", "PIPEWIRE_RUNTIME_DIR": str(runtime)}
        (self.folder / "daemon.conf").write_text(CONFIGURATION % (rate, objects))

    def __enter__(self):
        signal.signal(signal.SIGTERM, lambda *_: sys.exit(1))  # so that the children end then too
        try:
            self.begin()
        except BaseException:
            self.end()
            raise
        return self

    def begin(self):
        """The daemon, and a session manager where one is wanted."""
        tone(self.folder / "tone.wav")
        self.start("pipewire", "-c", str(self.folder / "daemon.conf"))
        self.wait(lambda: (self.folder / "runtime/pipewire-0").exists(), "the daemon's socket")
        if self.manager:
            self.start("dbus-run-session", "--", "wireplumber")
            time.sleep(2.5)

    def __exit__(self, *_):
        self.end()

    def end(self):
        """Ends every process that was started, one that is stopped too."""
        for child in reversed(self.children):
            if child.poll() is None:
                os.killpg(child.pid, signal.SIGCONT)
                os.killpg(child.pid, signal.SIGTERM)
        for child in self.children:
            try:
                child.wait(timeout=3)
            except subprocess.TimeoutExpired:
                os.killpg(child.pid, signal.SIGKILL)
                child.wait()

    def start(self, *words, **more):
        """Starts a process in a group of its own."""
        log = open(self.folder / f"{len(self.children)}-{Path(words[0]).name}.log", "w")
        child = subprocess.Popen(words, cwd=self.folder, env={**self.environment, **more},
                                 stdin=subprocess.DEVNULL, stdout=log, stderr=log,
                                 start_new_session=True)
        self.children.append(child)
        return child

    def ask(self, *words):
        """What a command prints."""
        done = subprocess.run(words, cwd=self.folder, env=self.environment, timeout=30,
                              stdin=subprocess.DEVNULL, stdout=subprocess.PIPE,
                              stderr=subprocess.STDOUT, text=True)
        return done.stdout

    def dump(self):
        """What pw-dump says, as values."""
        return json.loads(self.ask("pw-dump"))

    def wait(self, holds, what, seconds=8):
        """Waits until something holds."""
        for _ in range(seconds * 20):
            if holds():
                return
            time.sleep(0.05)
        raise Fault(f"waited {seconds} s for {what}, in vain")

    def play(self, target, name="player", latency="1024", wait=0.4):
        """A player of the tone."""
        child = self.start("pw-cat", "-p", "--target", target, "--latency", latency,
                           "-P", json.dumps({"node.name": name}), "tone.wav")
        time.sleep(wait)
        return child

    def loopback(self, name, capture, playback, channels="[ FL FR ]"):
        """Two streams that pass on what they get."""
        child = self.start("pw-loopback", "-n", name, "-m", channels,
                           "--capture-props", json.dumps(capture),
                           "--playback-props", json.dumps(playback))
        time.sleep(0.6)
        return child

    def profile(self, seconds, meanwhile=lambda: None):
        """The lines of pw-profiler over some seconds, and the driver that it says it logs."""
        log = self.folder / "profiler.log"
        child = self.start("pw-profiler", "-o", str(log))
        began = time.monotonic()
        meanwhile()
        time.sleep(max(0, seconds - (time.monotonic() - began)))
        child.send_signal(signal.SIGINT)
        child.wait(timeout=5)
        return log.read_text()


def tone(path, seconds=30, rate=48000):
    """A stereo square of 480 Hz: long enough to play through a scene."""
    frame = [struct.pack("<hh", level, level) for level in [2000] * 50 + [-2000] * 50]
    with wave.open(str(path), "wb") as file:
        file.setnchannels(2)
        file.setsampwidth(2)
        file.setframerate(rate)
        file.writeframes(b"".join(frame) * (seconds * rate // 100))
