"""Threads that run, and threads that the system refuses.

The threads of a run are counted twice: as calls of `pthread_create`, by a library that is put
before the C library, and as entries of /proc/PID/task while a long run goes on, with the processor
time that each of them has used. A refused thread changes no file and no text: the thread that asked
for it does its work.
"""
import os
import resource
import signal
import subprocess
import threading
import time

import model
import parts
from asking import MAIN, lower
from preload import NO_COMPILER, Preload, compiler
from worked import wav

# A run whose nodes name four loops, and one of five parts.
FOUR = ("quantum 4\nsource s in.wav\ngain a 300\ndelay b 5\ngain c -200\nsink o o.wav\nmeter m\n"
        "driver o 1\nloop s 0\nloop a 1\nloop b 2\nloop c 3\nlink s.out a.in\nlink a.out b.in\n"
        "link b.out c.in\nlink c.out o.in\nlink a.out m.in\ncycles 60\noff a\ncycles 3\non a\n"
        "drain\n")
FIVE = "quantum 4\n" + "".join(
    f"source s{i} in.wav\ngain a{i} {100 * i - 150}\nsink o{i} o{i}.wav\ndriver o{i} 1\n"
    f"link s{i}.out a{i}.in\nlink a{i}.out o{i}.in\n" for i in range(5)) + "cycles 80\ndrain\n"
SOAK = b"soak 7 306 78336 -7763562 32768\n"

# The words, how many threads they start, and the files that they store.
RUNS = [(["run", "four.graph", "--loops", "4"], 4, ["o.wav"]),
        (["run", "four.graph", "--loops", "4", "--steal"], 4, ["o.wav"]),
        (["groups", "five.graph"], 4, [f"o{i}.wav" for i in range(5)]), (["soak", "7"], 4, [])]


def expected(waves):
    """What each of the runs prints and stores."""
    four, five = model.run(FOUR, waves, {}), parts.answer(FIVE, waves, {})
    stored = lambda files: {name: wav(*made) for name, made in files.items()}
    return [(text.encode(), stored(files)) for _, text, files in (four, four, five)] + [(SOAK, {})]


def prepared(place):
    """The files of the runs, and what each of these must print and store."""
    samples = [(i * 7919) % 60001 - 30000 for i in range(400)]
    place.file("in.wav", wav(samples))
    place.file("four.graph", FOUR)
    place.file("five.graph", FIVE)
    return expected({"in.wav": (1, 48000, [[s] for s in samples])})


def whole(place, what, answer, wanted, names):
    """Compares text and files with those of a run whose threads all start."""
    text, files = wanted
    place.same(what, (0, text), (answer.status, answer.out))
    place.same(f"{what}: files", True, {name: place.read(name) for name in names} == files)
    place.forget(*names)


# The user of a run has this process as its only one; to root the system refuses none.
NO_THREADS = {"nobody": not os.getuid(), "limits": [(resource.RLIMIT_NPROC, 1)]}


def is_refused():
    """Whether the system refuses a thread to a process with these limits."""
    child = os.fork()
    if child == 0:
        lower(**NO_THREADS)
        try:
            threading.Thread(target=int).start()
        except RuntimeError:
            os._exit(1)
        os._exit(0)
    return os.waitpid(child, 0)[1] != 0


def refused_by_the_system(place):
    """No thread is granted by the system: the same files and text, and no hang."""
    if not is_refused():
        return place.pass_over("the system refuses no thread here")
    for (words, _, names), wanted in zip(RUNS, prepared(place)):
        answer = place.ask(*words, **NO_THREADS)
        whole(place, " ".join(words), answer, wanted, names)


def refused_in_turn(place):
    """Each thread refused in its turn, and all from each on: the same files and text, no hang."""
    if not compiler():
        return place.pass_over(NO_COMPILER)
    preload = Preload(place)
    for (words, threads, names), wanted in zip(RUNS, prepared(place)):
        for number in range(1, threads + 1):
            for how in ["fail", "on"]:
                answer = preload.refuse("thread", number, how, *words)
                what = f"{' '.join(words)}: thread {number} {how}"
                whole(place, what, answer, wanted, names)


# The words of a run, and how many threads it starts beside that of the driver or the first part.
STARTED = [(["run", "four.graph"], 1), (["run", "four.graph", "--loops", "0"], 0),
           (["run", "four.graph", "--loops", "1"], 1), (["run", "four.graph", "--loops", "2"], 2),
           (["run", "four.graph", "--loops", "16"], 16), (["run", "four.graph", "--steal"], 1),
           (["run", "four.graph", "--loops", "3", "--steal"], 3),
           (["run", "four.graph", "--loops", "0", "--steal"], 0), (["groups", "five.graph"], 4),
           (["groups", "two.graph"], 1), (["groups", "four.graph"], 0), (["soak", "7"], 4),
           (["check", "four.graph", "in.wav"], 0), (["dump", "in.wav"], 0)]


def started(place):
    """How many threads each run starts, by the calls of the C library."""
    if not compiler():
        return place.pass_over(NO_COMPILER)
    prepared(place)
    place.file("two.graph", long_parts(2, 3))
    preload = Preload(place)
    for words, threads in STARTED:
        _, counts = preload.count(*words)
        place.same(" ".join(words), threads, counts.get("thread"))


def long_run(cycles):
    """A run of some seconds whose nodes, on four loops, have much to do in each cycle."""
    nodes = "".join(f"square s{i} 48000 8 7 30000\ngain g{i} 200\nloop s{i} {i}\nloop g{i} {i}\n"
                    for i in range(4))
    links = "".join(f"link s{i}.out g{i}.in\nlink g{i}.out m.in\n" for i in range(4))
    return f"quantum 4096\n{nodes}meter m\ndriver m 1\n{links}cycles {cycles}\n"


def long_parts(count, cycles):
    """So many parts, each with a long run of its own."""
    parts = "".join(f"square s{i} 48000 8 7 30000\ngain g{i} 200\nmeter m{i}\ndriver m{i} 1\n"
                    f"link s{i}.out g{i}.in\nlink g{i}.out m{i}.in\n" for i in range(count))
    return f"quantum 4096\n{parts}cycles {cycles}\n"


CYCLES = 100000  # some seconds or minutes: each of these runs is ended once it was seen
WAIT = 30  # seconds for all threads to be there and at work
SEEN = 0.3  # seconds for which they are looked at from then on

# The words of a run, and the threads of its process.
RUNNING = [(["run", "long.graph"], 2), (["run", "long.graph", "--loops", "0"], 1),
           (["run", "long.graph", "--loops", "2"], 3), (["run", "long.graph", "--loops", "4"], 5),
           (["run", "long.graph", "--loops", "3", "--steal"], 4), (["groups", "two.graph"], 2),
           (["groups", "three.graph"], 3)]


def used(process):
    """The processor time in nanoseconds of each thread of a process, by its number."""
    found = {}
    for thread in os.listdir(f"/proc/{process}/task"):
        with open(f"/proc/{process}/task/{thread}/schedstat", encoding="ascii") as file:
            found[thread] = int(file.read().split()[0])
    return found


def watch(child, threads):
    """The most threads that a process had at once, and how many of them had worked in the end."""
    most, worked, until = 0, 0, None
    give_up = time.monotonic() + WAIT
    while child.poll() is None and time.monotonic() < (until or give_up):
        try:
            times = used(child.pid)
        except (FileNotFoundError, ProcessLookupError):  # a thread that has just ended
            continue
        most = max(most, len(times))
        worked = sum(time_used > 1000000 for time_used in times.values())
        if until is None and (len(times), worked) == (threads, threads):
            until = time.monotonic() + SEEN
        time.sleep(0.002)
    return most, worked


def running(place):
    """The threads of a run are there while it goes on, and each of them works."""
    if not os.path.exists("/proc/self/schedstat"):
        return place.pass_over("no /proc/PID/task/TID/schedstat, so no threads were counted")
    place.file("long.graph", long_run(CYCLES))
    place.file("two.graph", long_parts(2, CYCLES))
    place.file("three.graph", long_parts(3, CYCLES))
    for words, threads in RUNNING:
        with subprocess.Popen([place.folder / MAIN, *words], cwd=place.folder,
                              stdin=subprocess.DEVNULL, stdout=subprocess.DEVNULL,
                              stderr=subprocess.DEVNULL) as child:
            seen = watch(child, threads)
            child.send_signal(signal.SIGKILL)
        place.same(f"{' '.join(words)}: threads there, and threads at work",
                   (threads, threads), seen)
