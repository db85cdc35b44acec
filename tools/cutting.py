"""Hostile replies cut at every place, and what sessions with them have to print, for tools/cut-replies."""
from binascii import crc_hqx
from functools import cache

from model.client import without_error
from model.combine import Refused
from model.resp import packed, values
from model.text import hexed, shown_tree

LIMITS = (1, 4, 100, 512)
SLOTS = 16384
CALLS = 3
# So many nodes stand in a session at most.
NODES = 64
MAP = (b"CLUSTER", b"SLOTS")
# The levels of a slot map.
MAP_LEVELS = 4
IN_STEP = b":7\r\n"
MOST = b"9223372036854775807\r\n"
# What begins a level, and what stands behind the value on it.
HOLDERS = (
    (b"*1\r\n", b""), (b"~1\r\n", b""), (b"%1\r\n", b"_\r\n"), (b"%1\r\n_\r\n", b""),
    (b"|0\r\n", b""), (b"|1\r\n", b"_\r\n_\r\n"), (b">2\r\n+x\r\n", b""),
)
# The last two have a level more.
LEAVES = (
    b":1\r\n", b"*0\r\n", b"%0\r\n", b">0\r\n", b"*-1\r\n", b"x", b"$3\r\na\rb", b"*" + MOST,
    b">1\r\n$1\r\nk\r\n", b"|0\r\n:1\r\n",
)
FLAT = (
    b"+OK\r\n", b"-ERR x\r\n", b":1\n\r\n", b":one\r\n", b"_x\r\n", b"#T\r\n", b",.\r\n", b",+1e5 \r\n", b"(-12\r\n",
    b"=5\r\ntxt:a\r\n", b"=3\r\nabc\r\n", b"!9\r\nMOVED 1 x\r\n", b"$?\r\n", b"$-1\r\n", b"$2\r\nab\rx", b"%-1\r\n",
    b"|-1\r\n", b"+\xff\r\n", b"$" + MOST, b"%" + MOST + b":1\r\n", b"|" + MOST + b":1\r\n", b"~" + MOST + b":1\r\n",
    b"*3\r\n+OK\r\n-LOADING server is loading\r\n+OK\r\n", b"*2\r\n:1\r\nx", b">1\r\n+OK\r\n",
    b"|1\r\n+k\r\n:1\r\n$1\r\nv\r\n", b">2\r\n+invalidate\r\n*1\r\n$1\r\na\r\n",
)
# Of a longer reply each place of so many bytes at its ends, and one of so many others.
LONG, ENDS, STEP = 500, 32, 41


def some_places(reply):
    count = len(reply)
    if count <= LONG:
        return range(1, count + 1)
    return [*range(1, ENDS), *range(ENDS, count - ENDS, STEP), *range(count - ENDS, count + 1)]


def nested(limit):
    """Replies with a leaf at the limit, and one level below it: in each holder one leaf, or where the limit is small all."""
    for at, (front, back) in enumerate(HOLDERS):
        for leaf in LEAVES if limit <= MAP_LEVELS else LEAVES[at : at + 1]:
            yield at, front * (limit - 1) + leaf + back * (limit - 1)
            yield at, front * limit + leaf


def cuts(limit):
    """The sessions of this limit. Arrays are cut at each place, however deep."""
    found = [(reply, some_places(reply)) for reply in FLAT]
    found += [(reply, some_places(reply) if at else range(1, len(reply) + 1)) for at, reply in nested(limit)]
    for reply, places in found:
        for begin in range(0, len(places), NODES):
            part = places[begin : begin + NODES]
            yield from (Cut(limit, reply, part, is_ended) for is_ended in (False, True))


def few(limit):
    """Sessions of this limit in which arrays are cut in the midst and at their ends."""
    for holder, reply in nested(limit):
        places = sorted(it for it in {1, len(reply) // 2, len(reply) - 3, len(reply) - 1, len(reply)} if it > 0)
        if not holder:
            yield from (Cut(limit, reply, places, is_ended) for is_ended in (False, True))


@cache
def keys(count):
    """A key of each of so many ranges of slots, and the ranges' last slots."""
    found, at = {}, 0
    while len(found) < count:
        key = b"%d" % at
        found.setdefault(((crc_hqx(key, 0) % SLOTS + 1) * count - 1) // SLOTS, key)
        at += 1
    return [found[it] for it in range(count)], [SLOTS * it // count - 1 for it in range(1, count + 1)]


def address(at):
    return f"n{at:02}:7000"


def slot_map(ends):
    """The reply to CLUSTER SLOTS by which each node has a range."""
    starts = [0, *(end + 1 for end in ends)]
    row = b"*3\r\n:%d\r\n:%d\r\n*2\r\n$3\r\nn%02d\r\n:7000\r\n"
    rows = [row % (start, end, at) for at, (start, end) in enumerate(zip(starts, ends))]
    return b"*%d\r\n" % len(rows) + b"".join(rows)


def answer(tree, is_shown):
    try:
        without_error(tree)
        return " ".join(["ok", *(shown_tree(tree) if is_shown else [])])
    except Refused as refused:
        return f"err {refused}"


@cache
def answers(stream, levels):
    """The answers of calls with the place behind each, and the place behind the byte that shows a fault or None."""
    found, fault = values(stream, levels)
    told = [(answer(tree, levels >= MAP_LEVELS), end) for tree, end in found if tree[0] != "push"]
    return told, fault


def asked(node, words):
    return " ".join([f"asked {node} plain", *map(hexed, words)])


class Cut:
    """A session whose nodes send one reply, each cut at a place of its own, and what it has to print.

    Where so few levels are allowed that no slot map can be read, each call asks for one.
    """

    def __init__(self, limit, reply, places, is_ended):
        self.limit, self.reply, self.places, self.is_ended = limit, reply, places, is_ended
        self.keys, self.ends = keys(len(places))
        self.has_map = limit >= MAP_LEVELS

    def __str__(self):
        way = "ended behind" if self.is_ended else "in pieces of"
        shown = repr(self.reply[:40])[1:] + f" .. of {len(self.reply)} bytes" * (len(self.reply) > 40)
        return f"limit {self.limit}, {way} {self.places[0]} to {self.places[-1]} bytes: {shown}"

    def call(self, at):
        """The line of a call to a node, and the words that it sends."""
        if not self.has_map:
            return f"refresh {address(at)}", MAP
        words = (b"GET", self.keys[at])
        return " ".join(["query 0", *map(hexed, words)]), words

    def session(self):
        """Its text."""
        lines = [f"levels {self.limit}"]
        data = (self.reply + IN_STEP).hex()
        for at, place in enumerate(self.places):
            piece, sent = (4096, data[: 2 * place]) if self.is_ended else (place, data)
            lines.append(f"node {address(at)} {piece} {sent}")
        if self.has_map:
            lines += [f"node m:7000 4096 {slot_map(self.ends).hex()}", "refresh m:7000"]
        for at in range(len(self.places)):
            lines += [self.call(at)[0]] * CALLS
        return "\n".join([*lines, ""]).encode()

    def at_node(self, place):
        """What calls to a node answer whose reply is cut there, and how many of them are sent."""
        stream = self.reply + IN_STEP
        size = place if self.is_ended else len(stream)
        told, fault = answers(stream, self.limit)
        good = [line for line, end in told if end <= size][:CALLS]
        failing = "err Parse" if fault is not None and fault <= size else "err Io"
        closed = ["err ClusterConnectionNotFound"] * CALLS
        return [*good, failing, *closed][:CALLS], min(len(good) + 1, CALLS)

    def wanted(self):
        """The lines that have to be printed."""
        lines = ["ok", asked("m:7000", MAP)] * self.has_map
        sent = [f"sent m:7000 {packed(MAP).hex()}"] * self.has_map
        for at, place in enumerate(self.places):
            words = self.call(at)[1]
            found, count = self.at_node(place)
            for number, line in enumerate(found):
                lines += [line, asked(address(at), words)] if number < count else [line]
            sent.append(f"sent {address(at)} {(packed(words) * count).hex()}")
        return lines + sent


def difference(lines, wanted):
    """The first line that differs, shortened."""
    for at, (line, want) in enumerate(zip(lines, wanted), 1):
        if line != want:
            return f"line {at} is '{line[:100]}', and not '{want[:100]}'"
    return f"it printed {len(lines)} lines, and not {len(wanted)}"


def wrong(run, cut):
    """What is wrong with the run of a session, or an empty text."""
    lines, fault = run(cut.session())
    wanted = cut.wanted()
    return fault or (difference(lines, wanted) if lines != wanted else "")


def play(run, found, mapped=map):
    """Counts the sessions that are right and wrong, and tells of the latter.

    `run` answers the lines that a session prints and what went wrong by itself; `mapped` is map, or one
    that makes several runs side by side.
    """
    passed = failed = 0
    for cut, fault in zip(found, mapped(lambda it: wrong(run, it), found)):
        if fault:
            print(f"FAILED {cut}: {fault}")
        failed += bool(fault)
        passed += not fault
    return passed, failed
