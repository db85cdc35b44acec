"""The calls of a client."""
from . import combine, records, routing
from .combine import Refused
from .links import Request
from .numbers import unsigned
from .resp import first_error
from .slots import address, all_nodes, primaries, primary, slot_map

KINDS = {
    b"ERR": "ResponseError", b"EXECABORT": "ExecAbort", b"LOADING": "BusyLoading", b"NOSCRIPT": "NoScript",
    b"MOVED": "Moved", b"ASK": "Ask", b"TRYAGAIN": "TryAgain", b"CLUSTERDOWN": "ClusterDown",
    b"CROSSSLOT": "CrossSlot", b"MASTERDOWN": "MasterDown", b"READONLY": "ReadOnly", b"NOTBUSY": "NotBusy",
    b"NOSUB": "NoSub", b"NOPERM": "NoPerm",
}
CLIENT = Refused("Client")
NO_LINK = Refused("ClusterConnectionNotFound")
ASCII_SPACE = "\t\n\f\r "
# Words that begin, end or guard a transaction, or wait for what others write.
OUTSIDE = (
    b"MULTI", b"EXEC", b"DISCARD", b"WATCH", b"BLPOP", b"BRPOP", b"BLMOVE", b"BLMPOP", b"BRPOPLPUSH", b"BZPOPMIN",
    b"BZPOPMAX", b"BZMPOP",
)


def by_server(error):
    kind = KINDS.get(error[1])
    return Refused(f"Server({kind})" if kind else "Extension")


def without_error(tree):
    error = first_error(tree)
    if error:
        raise by_server(error)
    return tree


def reply_outcome(tree):
    """A reply, or the refusal by the error that it is; one deeper inside is a part of the value."""
    return by_server(tree) if tree[0] == "error" else tree


def fate(outcome):
    """What became of a command: it was answered, sent on by a redirect, or lost with its link."""
    if not isinstance(outcome, Refused):
        return "answered"
    if str(outcome) in ("Server(Moved)", "Server(Ask)"):
        return "redirected"
    return "lost" if str(outcome) in ("Io", "Parse", "Memory") else "answered"


def words(text):
    for space in ASCII_SPACE:
        text = text.replace(space, " ")
    return [word for word in text.split(" ") if word]


def target(tree):
    """Where a redirect leads and whether with ASKING, None for what can not be followed."""
    if tree[0] != "error" or tree[1] not in (b"MOVED", b"ASK"):
        return None
    named = words(tree[2].decode())
    if len(named) < 2 or unsigned(named[0], 16) is None:
        return None
    node = address(named[1])
    return (node, tree[1] == b"ASK") if node else None


def has_no_place(args):
    """Whether a command may not stand in a transaction."""
    upper = [word.upper() for word in args]
    if upper[0] in (b"XREAD", b"XREADGROUP") and b"BLOCK" in upper and b"STREAMS" in upper:
        return upper.index(b"BLOCK") < upper.index(b"STREAMS")
    return upper[0] in OUTSIDE


def redirect_of(replies):
    """Of the replies to an attempt by which nothing was done, the redirect that counts."""
    if replies[0] != ("okay",) or replies[-1][0] not in ("nil", "error"):
        return None
    redirects = [it for it in [replies[-1], *replies] if it[0] == "error" and it[1] in (b"MOVED", b"ASK")]
    return target(redirects[0]) if redirects else None


def answer_of(replies):
    """What an attempt answers that is not followed by another."""
    errors = [it for it in replies if it[0] == "error"]
    is_nil = replies[0] == ("okay",) and replies[-1][0] == "nil" and not errors
    if replies[-1][0] == "array" or is_nil:
        return replies[-1]
    raise by_server(errors[0]) if errors else Refused("UnexpectedReturnType")


class Client:
    """Links by address, the budget of redirects, the slot map, and the log of the call that is made."""

    def __init__(self, links, budget, memory):
        self.links, self.budget, self.memory = links, budget, memory
        self.entries, self.log = {}, []

    def exchange(self, node, requests, offset=0):
        """Writes the requests to the log, sends them in one write, and takes a reply to each."""
        self.memory.begin_exchange()
        self.log += requests
        self.memory.at("logged")
        data = b"".join(request.data() for request in requests)
        replies = self.links[node].call(data, offset, len(requests), self.memory)
        self.memory.at("taken")
        return replies

    def linked(self, node):
        """The node, where there is one and an open link leads to it."""
        if node not in self.links or not self.links[node].is_open:
            raise NO_LINK
        return node

    def refresh(self, node):
        [reply] = self.exchange(self.linked(node), [Request(node, [b"CLUSTER", b"SLOTS"])])
        self.entries = slot_map(without_error(reply), node[0])

    def follow(self, node, args):
        """The reply to one part, behind its redirects."""
        asking, left = False, self.budget
        while True:
            [reply] = self.exchange(node, [Request(node, args, asking)], int(asking))
            onward = target(reply) if left else None
            if not onward:
                return without_error(reply)
            node, asking = self.linked(onward[0]), onward[1]
            left -= 1

    def first_node(self, part, number):
        if part.slot is not None:
            return self.linked(primary(self.entries, part.slot))
        nodes = all_nodes(self.entries)
        return self.linked(nodes[number % len(nodes)] if nodes else None)

    def query(self, args, number=0, order=None):
        try:
            parts = routing.parts(args)
        except routing.NoRoute:
            raise CLIENT from None
        order = list(range(len(parts))) if order is None else order
        if sorted(order) != list(range(len(parts))):
            raise CLIENT
        nodes = [self.first_node(part, number) for part in parts]
        replies = [self.follow(nodes[at], parts[at].args) for at in order]
        if not routing.is_split(args):
            return replies[0]
        return combine.of_parts(args, [parts[at] for at in order], replies)

    def whole_slot(self, args):
        """The one slot that a command of a pipeline goes to."""
        try:
            parts = routing.parts(args)
        except routing.NoRoute:
            raise CLIENT from None
        if len(parts) != 1 or parts[0].slot is None or not routing.is_of_one_slot(routing.read_keys(args)):
            raise CLIENT
        return parts[0].slot

    def pipeline(self, commands):
        """The array of the replies to commands, each with whether its reply is left out."""
        slots = [self.whole_slot(args) for args, _ in commands]
        nodes = [self.linked(primary(self.entries, number)) for number in slots]
        replies = [None] * len(nodes)
        for node in dict.fromkeys(nodes):
            places = [place for place, it in enumerate(nodes) if it == node]
            taken = self.exchange(node, [Request(node, commands[place][0]) for place in places])
            for place, reply in zip(places, taken):
                replies[place] = reply
        for reply in replies:
            without_error(reply)
        return ("array", [reply for reply, (_, ignored) in zip(replies, commands) if not ignored])

    def position_parts(self, args):
        """What goes out for a command of a pipeline that tells of each: its parts, or the command itself."""
        try:
            parts = routing.parts(args)
        except routing.NoRoute:
            raise CLIENT from None
        return parts if len(parts) > 1 else [routing.Part(args, self.whole_slot(args))]

    def send(self, node, requests):
        """Writes the requests to the log and sends them; it answers why the link refused them, if it did."""
        self.log += requests
        try:
            self.links[node].send(b"".join(request.data() for request in requests))
        except Refused as refused:
            return refused
        return None

    def take(self, node, count):
        """The replies of a node that was sent its requests, or why the link has none."""
        self.memory.begin_step()
        try:
            return self.links[node].take(0, count, self.memory)
        except Refused as refused:
            return refused

    def joined(self, args, parts, outcomes):
        """The outcome of a command in parts, by what became of each of them."""
        if len(set(map(fate, outcomes))) > 1:
            return next((it for it in outcomes if fate(it) == "lost"), combine.UNEXPECTED)
        refused = next((it for it in outcomes if isinstance(it, Refused)), None)
        if refused:
            return refused
        self.memory.begin_step()
        try:
            self.memory.at("made")
            return combine.of_parts(args, parts, outcomes)
        except Refused as refused:
            return refused

    def each(self, commands):
        """What became of each command: its reply, or why there is none."""
        positions = [self.position_parts(args) for args, _ in commands]
        parts = [part for those in positions for part in those]
        nodes = [self.linked(primary(self.entries, part.slot)) for part in parts]
        groups = {node: [] for node in nodes}
        for node, part in zip(nodes, parts):
            groups[node].append(Request(node, part.args))
        refused = {node: self.send(node, requests) for node, requests in groups.items()}
        came = {node: refused[node] or self.take(node, len(requests)) for node, requests in groups.items()}
        queues = {node: iter(it) for node, it in came.items() if not isinstance(it, Refused)}
        told = iter([reply_outcome(next(queues[node])) if node in queues else came[node] for node in nodes])
        outcomes = []
        for (args, _), those in zip(commands, positions):
            here = [next(told) for _ in those]
            outcomes.append(self.joined(args, those, here) if len(those) > 1 else here[0])
        return outcomes

    def transaction(self, commands):
        """What EXEC replies behind MULTI and the commands, sent again where nothing was done."""
        slots = [None if has_no_place(args) else self.whole_slot(args) for args in commands]
        if None in slots or len(set(slots)) > 1:
            raise CLIENT
        if not commands:
            return ("array", [])
        node, asking, left = self.linked(primary(self.entries, slots[0])), False, self.budget
        while True:
            words = [[b"MULTI"], *commands, [b"EXEC"]]
            requests = [Request(node, args, asking and not at) for at, args in enumerate(words)]
            replies = self.exchange(node, requests, int(asking))
            onward = redirect_of(replies) if left else None
            if not onward:
                return answer_of(replies)
            node, asking = self.linked(onward[0]), onward[1]
            left -= 1

    def outcome(self, node, args):
        try:
            [reply] = self.exchange(node, [Request(node, args)])
            return without_error(reply)
        except Refused as refused:
            if str(refused) == "Memory":
                raise
            return refused

    def fan(self, args):
        try:
            has_replicas, policy = routing.several(args)
        except routing.NoRoute:
            raise CLIENT from None
        nodes = all_nodes(self.entries) if has_replicas else primaries(self.entries)
        if not nodes:
            raise NO_LINK
        nodes = [self.linked(node) for node in nodes]
        return combine.of_nodes(policy, [(node, self.outcome(node, args)) for node in nodes])

    def at(self, node, args):
        [reply] = self.exchange(self.linked(node), [Request(node, args)])
        return without_error(reply)

    def xrange(self, key, start, end):
        return records.entries(self.query([b"XRANGE", key, start, end]))

    def xread(self, keys, ids):
        if not routing.is_of_one_slot(keys) and len(set(keys)) < len(keys):
            raise CLIENT
        parts = routing.read_parts(keys, ids)
        nodes = [self.first_node(part, 0) for part in parts]
        replies = [self.follow(node, part.args) for node, part in zip(nodes, parts)]
        found = [records.reply(reply) for reply in replies]
        return found[0] if len(parts) == 1 else records.joined(keys, parts, found)
