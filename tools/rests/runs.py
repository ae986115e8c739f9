"""What a search of all states finds of the model, and of the threads of a shape."""
from typing import Dict, Iterator, List, NamedTuple, Tuple

from boards import Shape
from model import Model, Run
from scene import State
from search import Graph
from loops import Threads

MOST = 400_000


class Found(NamedTuple):
    """How many states there are, and what is wrong with some, each with a shortest way to it."""

    states: int
    wrong: Dict[str, List[str]]


def search_model(shape: Shape) -> Found:
    """All runs of the model."""
    model, wrong = Model(shape), {}
    graph: Graph[Run] = Graph(model.start())

    def steps(at: int, run: Run) -> Iterator[Tuple[str, Run]]:
        for law in model.wrong(run):
            wrong.setdefault(law, graph.way(at))
        return (("", t) for t in model.steps(run))

    if not graph.explore(steps, MOST):
        wrong["too many states"] = []
    return Found(len(graph.states), wrong)


def search_threads(shape: Shape, name: str = "", room: int = 64) -> Found:
    """All runs of the threads: laws, steps that the model lacks, whether ends are reached, and whether runs end."""
    threads, wrong = Threads(shape, name, room), {}
    graph: Graph[State] = Graph(threads.start())

    def steps(at: int, state: State) -> Iterator[Tuple[str, State]]:
        for law in threads.model.wrong(state.run):
            wrong.setdefault(law, graph.way(at))
        for a in range(shape.threads):
            scene = threads.step(state, a)
            if scene is not None:
                for step in scene.no_steps:
                    wrong.setdefault("no step: " + step, graph.way(at) + [scene.said])
                yield scene.said, scene.state()

    if not graph.explore(steps, MOST):
        wrong["too many states"] = []
        return Found(len(graph.states), wrong)
    for word, states in (("no end", graph.hopeless(threads.have_ended)), ("goes round", graph.rounds())):
        if states:
            wrong[word] = graph.way(states[0])
    return Found(len(graph.states), wrong)
