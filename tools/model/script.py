"""The lines of a session."""
import functools

from .numbers import unsigned, utf8
from .slots import address

LARGEST_PIECE = (1 << 32) - 1
MOST_LEVELS = 512
# What begins a pipeline, and the call that this becomes.
WAYS = {"pipe": "pipeline", "each": "each"}


class BadLine(Exception):
    """The first bad line has this number, counted from 1."""


class Bad(Exception):
    """The line is bad."""


def need(value):
    if value is None:
        raise Bad
    return value


def data(word):
    if word == "-":
        return b""
    try:
        found = bytes.fromhex(word)
    except ValueError:
        raise Bad from None
    if not found or len(word) != 2 * len(found):
        raise Bad
    return found


def some(words, read):
    if not words:
        raise Bad
    return [read(word) for word in words]


def number(word, least=0, most=(1 << 64) - 1):
    found = need(unsigned(word))
    if not least <= found <= most:
        raise Bad
    return found


class Script:
    """What a session sets up, and its calls, each as its name and its arguments."""

    def __init__(self):
        self.nodes, self.failing = {}, {}
        self.budget = self.levels = self.pipeline = self.transaction = None
        # The name of the call that the pipeline becomes.
        self.way = "pipeline"
        self.calls = []

    def node(self, at, piece, bytes_word):
        node = need(address(at))
        if self.calls or node in self.nodes:
            raise Bad
        self.nodes[node] = (data(bytes_word), number(piece, 1, LARGEST_PIECE))
        self.failing[node] = set()

    def fault(self, at, access, which):
        node = need(address(at))
        if self.calls or node not in self.nodes or access not in ("read", "write"):
            raise Bad
        if any(kind == access for kind, _ in self.failing[node]):
            raise Bad
        self.failing[node].add((access, number(which, 1)))

    def set_budget(self, word):
        if self.calls or self.budget is not None:
            raise Bad
        self.budget = number(word, 0, 65535)

    def set_levels(self, word):
        if self.calls or self.levels is not None:
            raise Bad
        self.levels = number(word, 1, MOST_LEVELS)

    def add(self, *call):
        self.calls.append(call)

    def order(self, order, *words):
        numbers = [number(word) for word in order.split(",")]
        self.add("query", some(words, data), 0, numbers)

    def xread(self, keys, ids):
        keys, ids = ([data(word) for word in words.split(",")] for words in (keys, ids))
        if len(keys) != len(ids):
            raise Bad
        self.add("xread", keys, ids)

    def outside(self, word, words, later):
        if word in WAYS and not words and b"run" in later:
            self.pipeline, self.way = [], WAYS[word]
        elif word == "multi" and not words and b"run" in later:
            self.transaction = []
        elif word == "refresh":
            [at] = words
            self.add("refresh", need(address(at)))
        elif word == "query":
            self.add("query", some(words[1:], data), number(words[0]))
        elif word == "fan":
            self.add("fan", some(words, data))
        elif word == "at":
            self.add("at", need(address(words[0])), some(words[1:], data))
        elif word == "xrange":
            key, start, end = words
            self.add("xrange", data(key), data(start), data(end))
        else:
            found = {"node": self.node, "fault": self.fault, "budget": self.set_budget,
                     "levels": self.set_levels, "order": self.order, "xread": self.xread}.get(word)
            need(found)(*words)

    def inside(self, word, words):
        if word == "run" and not words:
            self.add(self.way, self.pipeline)
            self.pipeline = None
        elif word in ("cmd", "skip"):
            self.pipeline.append((some(words, data), word == "skip"))
        else:
            raise Bad

    def as_one(self, word, words):
        if word == "run" and not words:
            self.add("transaction", self.transaction)
            self.transaction = None
        elif word == "cmd":
            self.transaction.append(some(words, data))
        else:
            raise Bad

    def line(self, text, later):
        is_outside = self.pipeline is None and self.transaction is None
        if is_outside and text.startswith("readonly "):
            if self.calls or text == "readonly ":
                raise Bad
            return
        word, *words = text.split(" ")
        if is_outside:
            self.outside(word, words, later)
        elif self.transaction is None:
            self.inside(word, words)
        else:
            self.as_one(word, words)


@functools.cache
def script(session):
    """What the text of a session says."""
    lines = session.split(b"\n")
    found = Script()
    for at, line in enumerate(lines):
        if not line or line.startswith(b"#"):
            continue
        try:
            found.line(need(utf8(line)), lines[at + 1 :])
        except (Bad, ValueError, TypeError, IndexError):
            raise BadLine(at + 1) from None
    return found
