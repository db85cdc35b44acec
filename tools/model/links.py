"""A link to a node: what its calls write, read, and leave behind."""
from .combine import Refused
from .resp import packed, values

BUFFER = 4096
ASKING = packed([b"ASKING"])


class Link:
    """The bytes that come from a node, so many a read, and what went out to it.

    `failing` has the reads and the writes that fail, each as ("read", N) or ("write", N); `levels` is how
    deep values may nest.
    """

    def __init__(self, stream, piece, failing, levels):
        self.piece, self.failing = min(piece, BUFFER), failing
        self.size = len(stream)
        self.values, self.fault = values(stream, levels)
        self.come = self.taken = self.reads = self.writes = 0
        self.sent = b""
        self.is_open = True

    def write(self, data):
        self.writes += 1
        if ("write", self.writes) in self.failing:
            raise Refused("Io")
        self.sent += data

    def read(self):
        self.reads += 1
        got = min(self.piece, self.size - self.come)
        if ("read", self.reads) in self.failing or not got:
            raise Refused("Io")
        self.come += got

    def next_value(self):
        """The next value, for which it reads only as long as it is not there."""
        while True:
            if self.taken < len(self.values):
                tree, end = self.values[self.taken]
                if end <= self.come:
                    self.taken += 1
                    return tree
            elif self.fault is not None and self.fault <= self.come:
                raise Refused("Parse")
            self.read()

    def next_reply(self):
        """The next value that is no push."""
        while (tree := self.next_value())[0] == "push":
            pass
        return tree

    def send(self, data):
        """Writes the bytes, whose replies are owed then. It is not open until they are taken."""
        self.is_open = False
        self.write(data)

    def take(self, offset, count, memory):
        """Drops `offset` replies that are owed, and takes `count`. Refused, it stays closed."""
        memory.at("sent")
        replies = [self.next_reply() for _ in range(offset + count)][offset:]
        self.is_open = True
        return replies

    def call(self, data, offset, count, memory):
        """Writes the bytes, drops `offset` replies, and takes `count`. Refused, it is closed."""
        self.send(data)
        return self.take(offset, count, memory)


class Request:
    """A request of the log."""

    def __init__(self, node, args, asking=False):
        self.node, self.args, self.asking = node, args, asking

    def data(self):
        return (ASKING if self.asking else b"") + packed(self.args)
