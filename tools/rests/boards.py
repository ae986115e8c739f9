"""Small boards that run: which nodes are TRIGGERED, how many are waited for, and how far each node is.

A step that no other thread can tell from the one before it is taken with it: a claim has the node's whole work up to
its first target, and the beginning of a cycle has its resets. Each lowered pending word and each trigger is a step.
"""
from typing import List, NamedTuple, Optional, Tuple

NONE = -1
WAITING, BETWEEN = -1, -2


class Node(NamedTuple):
    """A node: the cycle that it is TRIGGERED in, what is waited for, its next cycle, and its targets that are told.

    `told` is NONE while the node is idle, of the driver's node WAITING or BETWEEN; `owes` says that the target told
    last is still to be triggered.
    """

    hot: int
    pending: int
    next: int
    told: int
    owes: bool


Board = Tuple[Node, ...]
# the board after a step, and the node that it triggered or NONE
Stepped = Tuple[Board, int]


class Shape(NamedTuple):
    """Followers by number with the node after the last as the driver's; the loop of each follower.

    Loop l has the thread l, or is adopted. The driver's thread is `loops`, and so is its own loop.
    """

    name: str
    links: Tuple[Tuple[int, int], ...]
    loop_of: Tuple[int, ...]
    loops: int
    cycles: int = 1
    adopted: Tuple[int, ...] = ()
    starting: bool = False  # each loop's thread has still to say that it runs

    @property
    def driver(self) -> int:
        return len(self.loop_of)

    @property
    def threads(self) -> int:
        return self.loops + 1

    def targets(self, node: int) -> Tuple[int, ...]:
        """Those that wait for a node, in their order: of the driver's, all nodes."""
        followers = range(self.driver)
        mine = followers if node == self.driver else [n for n in followers if (node, n) in self.links]
        return tuple(mine) + (self.driver,)

    def required(self, node: int) -> int:
        return sum(self.targets(m).count(node) for m in range(self.driver + 1))

    def loop(self, node: int) -> int:
        return self.loops if node == self.driver else self.loop_of[node]

    def home(self, node: int) -> int:
        """The thread that is unparked for a node."""
        loop = self.loop(node)
        return self.loops if loop in self.adopted else loop


def first(shape: Shape) -> Board:
    """The board before its first cycle."""
    return (Node(NONE, 0, 0, NONE, False),) * shape.driver + (Node(NONE, 0, 0, BETWEEN, False),)


def put(board: Board, n: int, node: Node) -> Board:
    return board[:n] + (node,) + board[n + 1:]


def ended(shape: Shape, board: Board, n: int) -> bool:
    """Whether a node has ended all cycles."""
    return board[n].next == shape.cycles


def is_idle(board: Board, n: int) -> bool:
    """A follower that is idle, or the driver's node where it waits."""
    return board[n].told == NONE


def claim(shape: Shape, board: Board, n: int) -> Optional[Board]:
    """The board after a claim of a node that is idle, or None where that is too early."""
    node = board[n]
    if not is_idle(board, n) or node.hot != node.next:
        return None
    if n == shape.driver:
        return put(board, n, Node(NONE, 0, node.next + 1, BETWEEN, False))
    return put(board, n, node._replace(hot=NONE, told=0))


def begin(shape: Shape, board: Board) -> Board:
    """Each node is reset, and the driver's is about to tell its targets."""
    reset = tuple(node._replace(hot=NONE, pending=shape.required(n)) for n, node in enumerate(board))
    return put(reset, shape.driver, reset[shape.driver]._replace(told=0))


def tell(shape: Shape, board: Board, n: int) -> Stepped:
    """The next target of a node that tells: it is lowered, or triggered if it was the last to be waited for."""
    node, targets = board[n], shape.targets(n)
    if node.owes:
        target = targets[node.told - 1]
        cycle = board[n].next
        board = put(board, n, told_on(shape, n, node._replace(owes=False)))
        return put(board, target, board[target]._replace(hot=cycle)), target
    target = targets[node.told]
    last = board[target].pending == 1
    board = put(board, target, board[target]._replace(pending=board[target].pending - 1))
    node = board[n]
    return put(board, n, told_on(shape, n, node._replace(told=node.told + 1, owes=last))), NONE


def told_on(shape: Shape, n: int, node: Node) -> Node:
    """A node after it told one more: idle again in its next cycle, or waiting, where that was the last."""
    if node.owes or node.told < len(shape.targets(n)):
        return node
    if n == shape.driver:
        return node._replace(told=WAITING)
    return node._replace(next=node.next + 1, told=NONE)


def tells(board: Board, n: int) -> bool:
    return board[n].told >= 0


def advance(shape: Shape, board: Board, n: int) -> Optional[Stepped]:
    """The one advance on a node, or None where it has none."""
    if tells(board, n):
        return tell(shape, board, n)
    if board[n].told == BETWEEN:
        return None if ended(shape, board, n) else (begin(shape, board), NONE)
    after = None if ended(shape, board, n) else claim(shape, board, n)
    return None if after is None else (after, NONE)


def triggered(board: Board) -> List[int]:
    return [n for n, node in enumerate(board) if node.hot != NONE]
