"""A session from its text to what is printed."""
from .client import Client
from .combine import Refused
from .links import Link
from .memory import PLACES, Memory
from .script import BadLine, script
from .text import shown_entries, shown_outcomes, shown_request, shown_sent, shown_streams, shown_tree

SHOWN = {"refresh": lambda _: [], "xrange": shown_entries, "xread": shown_streams}


class Run:
    """A run of a script: its lines, its links as they stand at the end, and whether memory was refused.

    `faults` are reads and writes that fail besides the script's own, each as (node, access, number).
    """

    make_client, make_link = Client, Link

    def __init__(self, said, faults=(), memory=None):
        self.memory = memory or Memory()
        levels = 100 if said.levels is None else said.levels
        self.links = {
            node: self.make_link(
                stream, piece, said.failing[node] | {it[1:] for it in faults if it[0] == node}, levels
            )
            for node, (stream, piece) in said.nodes.items()
        }
        budget = 1 if said.budget is None else said.budget
        self.client = self.make_client(self.links, budget, self.memory)
        self.lines = [line for call in said.calls for line in self.call(*call)]
        self.lines += shown_sent(self.links)

    def call(self, name, *args):
        self.client.log = []
        answered = self.answer(name, args)
        return [*answered, *map(shown_request, self.client.log)]

    def answer(self, name, args):
        """The lines of a call's answer."""
        try:
            self.memory.begin_call()
            found = getattr(self.client, name)(*args)
        except Refused as refused:
            return [f"err {refused}"]
        if name == "each":
            return shown_outcomes(found)
        return [" ".join(["ok", *SHOWN.get(name, shown_tree)(found)])]


def play(session):
    """The lines that a session prints."""
    try:
        return Run(script(session)).lines
    except BadLine as bad:
        return [f"fault line {bad}"]


def accesses(said, run=Run):
    """Each read and each write that a run makes, and of both one more, which it does not make."""
    for node, link in run(said).links.items():
        yield from ((node, "read", number) for number in range(1, link.reads + 2))
        yield from ((node, "write", number) for number in range(1, link.writes + 2))


def starving(said, run=Run):
    """Each run in which a call lacks memory."""
    for call in range(len(said.calls)):
        yield run(said, memory=Memory(call))
        exchange = 0
        while True:
            runs = [run(said, memory=Memory(call, exchange, place)) for place in PLACES]
            runs = [it for it in runs if it.memory.refused]
            if not runs:
                break
            yield from runs
            exchange += 1
