"""Runs by wrong rules, each of which tools/fault-checks has to see refused."""
from model.client import Client
from model.combine import Refused
from model.links import Link
from model.play import Run

NIL = ("nil",)


class LeavesLinkOpen(Link):
    def call(self, *args):
        try:
            return super().call(*args)
        finally:
            self.is_open = True


class WritesAgain(Link):
    """Behind a refused write it writes the whole once more."""

    def write(self, data):
        try:
            super().write(data)
        except Refused:
            super().write(data)


class ReadsOnceMore(Link):
    """It reads behind the last reply too."""

    def call(self, *args):
        replies = super().call(*args)
        if self.come < self.size:
            self.read()
        return replies


class ForgetsReplies(Link):
    """A refused call drops what was read, and the link goes on behind it."""

    def call(self, *args):
        try:
            return super().call(*args)
        except Refused:
            self.is_open, self.taken = True, len(self.values)
            raise


class KeepsAHundredLevels(Link):
    """It reads a hundred levels, whatever the session says."""

    def __init__(self, *args):
        super().__init__(*args[:-1], 100)


class ReadsALevelMore(Link):
    def __init__(self, *args):
        super().__init__(*args[:-1], args[-1] + 1)


class ReadsALevelLess(Link):
    def __init__(self, *args):
        super().__init__(*args[:-1], args[-1] - 1)


class TellsFaultsLate(Link):
    """It tells a fault when one byte more is there."""

    def __init__(self, *args):
        super().__init__(*args)
        if self.fault is not None:
            self.fault += 1


class ReadsOnce(Link):
    """Where a value is not whole by one read, it gives up."""

    def next_value(self):
        self.may_read = True
        return super().next_value()

    def read(self):
        if not self.may_read:
            raise Refused("Io")
        self.may_read = False
        super().read()


class LogsBehindSend(Client):
    def exchange(self, node, requests, offset=0):
        log = self.log
        self.log = []
        try:
            replies = super().exchange(node, requests, offset)
        finally:
            self.log = log
        self.log += requests
        return replies


class ClearsMap(Client):
    """A refused refresh clears the slot map."""

    def refresh(self, node):
        try:
            super().refresh(node)
        except Refused:
            self.entries = {}
            raise


class ClosesAll(Client):
    """A refused exchange closes the links to all nodes."""

    def exchange(self, node, requests, offset=0):
        try:
            return super().exchange(node, requests, offset)
        except Refused:
            for link in self.links.values():
                link.is_open = False
            raise


class AnswersNil(Client):
    """Where a link is closed, others answer nil."""

    def follow(self, node, args):
        reply = super().follow(node, args)
        return reply if all(link.is_open for link in self.links.values()) else NIL


class ChecksLinksLate(Client):
    """The link of a part is looked for when the part is sent."""

    def first_node(self, part, number):
        try:
            return super().first_node(part, number)
        except Refused:
            return min(self.links)

    def exchange(self, node, requests, offset=0):
        return super().exchange(self.linked(node), requests, offset)


class AsksAgain(Client):
    """A refused exchange is made again."""

    def exchange(self, node, requests, offset=0):
        try:
            return super().exchange(node, requests, offset)
        except Refused:
            self.links[node].is_open = True
            super().exchange(node, requests, offset)
            raise


class SendsLaterParts(Client):
    """Behind a part whose link failed the later ones are sent."""

    def query(self, args, number=0, order=None):
        try:
            return super().query(args, number, order)
        except Refused as refused:
            if str(refused) in ("Io", "Memory") and self.log and len(args) > 2:
                super().query([args[0], args[-1]])
            raise


class TellsRepliesOfLost(Client):
    """Of a node that failed it tells the replies that had come, and nil for the others."""

    def take(self, node, count):
        link = self.links[node]
        taken = link.taken
        came = super().take(node, count)
        if isinstance(came, Refused):
            had_come = [tree for tree, _ in link.values[taken:link.taken]]
            return [*had_come, *[NIL] * (count - len(had_come))]
        return came


class LogsSentAlone(Client):
    """The requests to a node whose write failed are not in the log."""

    def send(self, node, requests):
        log = self.log[:]
        refused = super().send(node, requests)
        if refused:
            self.log = log
        return refused


class LogsAnsweredAlone(Client):
    """The requests to a node that did not answer are not in the log."""

    def take(self, node, count):
        came = super().take(node, count)
        if isinstance(came, Refused):
            self.log = [request for request in self.log if request.node != node]
        return came


class StopsBehindLost(Client):
    """Behind a node that failed the replies of the later ones are left."""

    def each(self, commands):
        self.lost = None
        return super().each(commands)

    def take(self, node, count):
        came = self.lost or super().take(node, count)
        self.lost = came if isinstance(came, Refused) else None
        return came


class RefusesAll(Client):
    """Where a link fails, the whole pipeline is refused."""

    def take(self, node, count):
        came = super().take(node, count)
        if isinstance(came, Refused):
            raise came
        return came


class TellsFirstRefusal(Client):
    """A command in parts is told by the first that has no value, whatever became of the others."""

    def joined(self, args, parts, outcomes):
        refused = next((it for it in outcomes if isinstance(it, Refused)), None)
        return refused or super().joined(args, parts, outcomes)


class ForgetsLostParts(Client):
    """A command in parts is made of those that were answered."""

    def joined(self, args, parts, outcomes):
        there = [it for it in zip(parts, outcomes) if not isinstance(it[1], Refused)]
        return super().joined(args, *map(list, zip(*there))) if there else outcomes[0]


def by(part):
    """Runs with this wrong link or client."""
    name = "make_link" if issubclass(part, Link) else "make_client"
    return type(part.__name__, (Run,), {name: part})


FAULTS = [by(it) for it in (
    LeavesLinkOpen, WritesAgain, ReadsOnceMore, ForgetsReplies, LogsBehindSend, ClearsMap, ClosesAll, AnswersNil,
    ChecksLinksLate, AsksAgain, SendsLaterParts, TellsRepliesOfLost, LogsSentAlone, LogsAnsweredAlone,
    StopsBehindLost, RefusesAll, TellsFirstRefusal, ForgetsLostParts,
)]
MEMORY = [by(it) for it in (
    LeavesLinkOpen, ForgetsReplies, LogsBehindSend, ClearsMap, ClosesAll, AsksAgain, SendsLaterParts,
    TellsRepliesOfLost, LogsAnsweredAlone, StopsBehindLost, RefusesAll, ForgetsLostParts,
)]
# Each with limits of levels by which it has to be told from a right run.
LEVELS = [(by(it), limits) for it, limits in (
    (KeepsAHundredLevels, (1, 4, 512)), (ReadsALevelMore, (1, 4, 100, 512)), (ReadsALevelLess, (1, 100, 512)),
    (TellsFaultsLate, (1, 4, 100, 512)), (ReadsOnce, (1, 4, 100, 512)),
)]
