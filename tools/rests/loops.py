"""The loops of the threads, one access of a shared word a step: as the code has them, or wrong in one way.

A wrong code has a name, and differs at each place that asks `is_wrong` for it. The names are in wrong_codes.py.
"""
from typing import List, Optional, Tuple

from boards import BETWEEN, NONE, Shape, begin, ended, tells
from model import Model
from scene import Scene, State


class Threads:
    """A loop's thread receives, tries and rests; the driver's begins, has turns, claims its node and rests."""

    def __init__(self, shape: Shape, wrong: str = "", room: int = 64) -> None:
        self.shape, self.wrong, self.room, self.model = shape, wrong, room, Model(shape)
        self.me = shape.loops  # the driver's thread, and its own loop
        self.turns = [shape.loops] + list(shape.adopted)

    def is_wrong(self, *names: str) -> bool:
        return self.wrong in names

    def start(self) -> State:
        first = ("start",) if self.shape.starting else ("pop",)
        places = [("gone",) if loop in self.shape.adopted else first for loop in range(self.shape.loops)]
        running = [loop for loop in range(self.shape.loops) if loop not in self.shape.adopted]
        started = 0 if self.shape.starting else sum(1 << loop for loop in running)
        return State(self.model.start(), 0, started, ((),) * self.shape.loops, tuple(places) + (("begin", 0),))

    def have_ended(self, state: State) -> bool:
        return all(place == ("gone",) for place in state.places)

    def step(self, state: State, a: int) -> Optional[Scene]:
        """The next access of a thread, or None where it sleeps or has ended."""
        scene = Scene(self.model, state, a)
        name, kept = state.places[a][0], state.places[a][1:]
        if name == "gone" or name == "deep":
            return None
        scene.said = f"thread {a}: " + " ".join(str(word) for word in (name,) + kept[:1])
        if name == "sleep" and not scene.has_token():
            return None
        getattr(self, "do_" + name)(scene, *kept)
        return scene

    def order(self, scene: Scene, loop: int) -> List[int]:
        """The followers of a loop that have cycles left, those that are behind first."""
        board = scene.run.board
        mine = [n for n in range(self.shape.driver) if self.shape.loop_of[n] == loop]
        left = sorted((n for n in mine if not ended(self.shape, board, n)), key=lambda n: (board[n].next, n))
        if self.is_wrong("the scan misses its last follower") and len(left) > 1:
            return left[:-1]
        return left

    # a loop's thread: its queue, its turn, its rest

    def do_start(self, scene: Scene) -> None:
        if not self.is_wrong("never says that it runs"):
            scene.started |= 1 << scene.a
        scene.go("pop")

    def do_pop(self, scene: Scene) -> None:
        queue = scene.queues[scene.a]
        if not queue:
            scene.go("forget")
            return
        if not self.is_wrong("leaves the number in its queue"):
            scene.queues[scene.a] = queue[1:]
        scene.go("try", queue[0])

    def do_forget(self, scene: Scene) -> None:
        if not self.is_wrong("a look never forgets its call"):
            scene.forget()
        if self.order(scene, scene.a) and self.is_wrong("rests without a scan"):
            scene.go("look")
        else:
            self.turn(scene)

    def turn(self, scene: Scene) -> None:
        if self.order(scene, scene.a):
            scene.go("scan", scene.a, 0, False)
        elif self.is_wrong("a loop rests at its end"):
            scene.go("lie", "pop")
        else:
            scene.go("leave")

    def do_try(self, scene: Scene, n: int) -> None:
        if not ended(self.shape, scene.run.board, n) and scene.claim(n):
            scene.go("tell", n, 0, (scene.a, False))
        else:
            scene.go("pop")

    def do_scan(self, scene: Scene, loop: int, i: int, done: bool) -> None:
        order = self.order(scene, loop)
        if scene.claim(order[i]):
            scene.go("tell", order[i], 0, (loop, done))
        elif i + 1 < len(order):
            scene.go("scan", loop, i + 1, done)
        elif scene.a == self.me:
            self.next_turn(scene, loop, done)
        else:
            scene.go("look")

    def do_look(self, scene: Scene) -> None:
        scene.go(*(("pop",) if scene.is_called() else ("lie", "pop")))

    def do_lie(self, scene: Scene, then: str) -> None:
        if self.is_wrong("scans again without a token"):
            scene.go(then, 0) if then == "begin" else self.rested(scene, then)
            return
        if self.is_wrong("takes the token after the scan") and scene.has_token():
            scene.take()
        if self.is_wrong("gives itself a token before each rest"):
            scene.give(scene.a)
        deep = self.is_wrong("the parker does not look again") and not scene.has_token()
        scene.lie_down()
        scene.go(*(("nap", then) if deep else ("sleep", then)))

    def do_nap(self, scene: Scene, then: str) -> None:
        """It saw that there is no token, and sleeps without another look: only a later unpark ends that."""
        scene.go("deep", then)

    def do_sleep(self, scene: Scene, then: str) -> None:
        scene.take()
        if self.is_wrong("sleeps again after a take") and scene.a != self.me and then == "pop":
            scene.go("lie", "again")
        else:
            scene.go("quiet", then)

    def do_quiet(self, scene: Scene, then: str) -> None:
        if scene.a != self.me and not self.is_wrong("a look never forgets its call"):
            scene.forget()
        self.rested(scene, then)

    def rested(self, scene: Scene, then: str) -> None:
        if then == "begin":
            scene.go("begin", 0)
        elif then == "claim":
            scene.go("claim", False)
        elif scene.a == self.me:
            self.round(scene)
        else:
            scene.go("pop")

    def do_leave(self, scene: Scene) -> None:
        scene.leave()
        scene.go("gone")

    # a node that is awake, and what it woke

    def do_tell(self, scene: Scene, n: int, woke: int, back: Tuple[int, bool]) -> None:
        owed = scene.run.board[n]
        target = self.shape.targets(n)[owed.told] if not owed.owes else NONE
        scene.advance(n)
        if target != NONE and scene.run.board[target].pending == 0:
            woke |= 1 << target
            if self.is_wrong("unparks before TRIGGERED") and self.model.home[target] != scene.a:
                self.unpark(scene, self.model.home[target])
        if tells(scene.run.board, n):
            scene.go("tell", n, woke, back)
        else:
            self.forward(scene, woke, back)

    def forward(self, scene: Scene, woke: int, back: Tuple[int, bool]) -> None:
        if self.is_wrong("the beginning sends nothing") and back[0] == NONE:
            woke = 0
        if self.is_wrong("forwards only the first node"):
            woke &= -woke
        self.send(scene, woke, woke, back)

    def send(self, scene: Scene, rest: int, woke: int, back: Tuple[int, bool]) -> None:
        """The next push of those that are left, or the look at whom the driver's thread steps."""
        pushed = [n for n in range(self.shape.driver) if rest >> n & 1 and self.shape.loop_of[n] != self.me]
        if pushed and not self.is_wrong("unparks before TRIGGERED"):
            scene.go("push", pushed[0], rest & ~(2 ** (pushed[0] + 1) - 1), woke, back)
        elif scene.a == self.me or not woke or self.is_wrong("forgets the driver", "unparks before TRIGGERED"):
            self.sent(scene, back)
        else:
            scene.go("see", woke, back)

    def do_push(self, scene: Scene, n: int, rest: int, woke: int, back: Tuple[int, bool]) -> None:
        loop = self.shape.loop_of[n]
        full = len(scene.queues[loop]) >= self.room
        if not full:
            scene.queues[loop] += (n,)
        if self.spares(scene, loop, woke) or full and self.is_wrong("a push that is refused unparks nobody"):
            self.send(scene, rest, woke, back)
        else:
            scene.go("call", loop, rest, woke, back)

    def spares(self, scene: Scene, loop: int, woke: int) -> bool:
        """The thread's own loop is not unparked."""
        if self.is_wrong("spares all loops but its own"):
            return loop != scene.a
        if self.is_wrong("spares the loop of the first node"):
            first = min(n for n in range(self.shape.driver + 1) if woke >> n & 1)
            return loop == scene.a or loop == self.shape.loop(first)
        if self.is_wrong("forgets to unpark a loop"):
            return True
        return loop == scene.a or self.is_wrong("the driver forgets to unpark") and scene.a == self.me

    def do_call(self, scene: Scene, loop: int, rest: int, woke: int, back: Tuple[int, bool]) -> None:
        scene.calls |= 1 << loop
        scene.go("unpark", loop, rest, woke, back)

    def do_unpark(self, scene: Scene, loop: int, rest: int, woke: int, back: Tuple[int, bool]) -> None:
        self.unpark(scene, loop)
        self.send(scene, rest, woke, back)

    def unpark(self, scene: Scene, b: int) -> None:
        there, sleeps = scene.run.tokens >> b & 1, scene.places[b][0] in ("sleep", "deep")
        scene.give(b)
        if self.is_wrong("tokens cancel out") and there or self.is_wrong("a token only for a sleeper") and not sleeps:
            scene.run = scene.run._replace(tokens=scene.run.tokens & ~(1 << b))
        if scene.places[b][0] == "deep":
            scene.places[b] = ("sleep", scene.places[b][1])

    def do_see(self, scene: Scene, rest: int, back: Tuple[int, bool]) -> None:
        """Whether the driver's thread steps the loop of a node: its own, or one that was not started."""
        n = min(n for n in range(self.shape.driver + 1) if rest >> n & 1)
        loop = self.shape.loop(n)
        its = loop == self.me and not self.is_wrong("the driver's own node is not forwarded")
        adopted = loop != self.me and not scene.started >> loop & 1
        if its or adopted and not self.is_wrong("an adopted loop's wake is not forwarded"):
            scene.go("wake", back)
        elif rest & ~(1 << n) and not self.is_wrong("sees only the first node of a set"):
            scene.go("see", rest & ~(1 << n), back)
        else:
            self.sent(scene, back)

    def do_wake(self, scene: Scene, back: Tuple[int, bool]) -> None:
        self.unpark(scene, self.me)
        self.sent(scene, back)

    def sent(self, scene: Scene, back: Tuple[int, bool]) -> None:
        """After a node ran: a loop receives again, the driver's thread has its next turn."""
        if scene.a != self.me:
            scene.go(*(("look",) if self.is_wrong("a loop rests after a turn that ran") else ("pop",)))
        elif back[0] == NONE:
            self.round(scene)
        else:
            forgot = self.is_wrong("forgets that an adopted loop ran") and back[0] != self.me
            self.next_turn(scene, back[0], back[1] if forgot else True)

    # the driver's thread

    def round(self, scene: Scene) -> None:
        self.turn_of(scene, 0, False)

    def next_turn(self, scene: Scene, loop: int, done: bool) -> None:
        self.turn_of(scene, self.turns.index(loop) + 1, done)

    def turn_of(self, scene: Scene, k: int, done: bool) -> None:
        """The turn of the k-th of its loops that has followers with cycles left, or the claim after the last."""
        turns = self.turns[:-1] if self.is_wrong("skips its last adopted loop") and self.shape.adopted else self.turns
        for loop in turns[k:]:
            if self.order(scene, loop):
                scene.go("scan", loop, 0, done)
                return
        if self.is_wrong("the driver rests before its claim") and not done and self.rests():
            scene.go("lie", "claim")
        else:
            scene.go("claim", done)

    def rests(self) -> bool:
        """Another thread has something to do."""
        return len(self.shape.adopted) < self.shape.loops and not self.is_wrong("the driver never rests")

    def do_begin(self, scene: Scene, woke: int) -> None:
        """From the beginning of a cycle to the driver's last target, or the end."""
        node = scene.run.board[self.shape.driver]
        if node.told == BETWEEN and ended(self.shape, scene.run.board, self.shape.driver):
            self.do_leave(scene)
            return
        if node.told == BETWEEN:
            scene.run = scene.run._replace(board=begin(self.shape, scene.run.board))
            scene.go("begin", woke)
            return
        target = NONE if node.owes else self.shape.targets(self.shape.driver)[node.told]
        scene.advance(self.shape.driver)
        if target != NONE and scene.run.board[target].pending == 0:
            woke |= 1 << target
            if self.is_wrong("unparks before TRIGGERED") and self.model.home[target] != scene.a:
                self.unpark(scene, self.model.home[target])
        if tells(scene.run.board, self.shape.driver):
            scene.go("begin", woke)
        else:
            self.forward(scene, woke, (NONE, False))

    def do_claim(self, scene: Scene, done: bool) -> None:
        if scene.claim(self.shape.driver):
            left = not ended(self.shape, scene.run.board, self.shape.driver)
            scene.go(*(("lie", "begin") if left and self.is_wrong("rests between two cycles") else ("begin", 0)))
        elif not done and self.rests() and not self.is_wrong("the driver rests before its claim"):
            scene.go("lie", "round")
        else:
            self.round(scene)
