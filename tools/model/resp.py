"""A node's bytes as trees.

A tree is a tuple of its form and its parts: ("nil",), ("okay",), ("int", n), ("bulk", bytes),
("simple", bytes), ("array", [tree..]), ("set", [tree..]), ("map", [(tree, tree)..]),
("attribute", [(tree, tree)..], tree), ("double", bytes), ("bool", bool),
("verbatim", format, text), ("big", bytes), ("push", kind, [tree..]), ("error", code, details).

All bytes that will ever come are known beforehand. So `values` tells at once which trees they spell
and where each ends; how many of the bytes were read then says which of them are there.
"""
import functools
import re
import sys

from .numbers import signed, trimmed, utf8

# A value of 512 levels is read in some 1,500 calls within one another.
sys.setrecursionlimit(10_000)
DOUBLE = re.compile(
    r"[+-]?(inf|infinity|nan|([0-9]+(\.[0-9]*)?|\.[0-9]+)(e[+-]?[0-9]+)?)", re.I | re.A
)


class Short(Exception):
    """The bytes end before the value does."""


class Fault(Exception):
    """The bytes are faulty, which is known with the byte before `end`."""

    def __init__(self, end):
        super().__init__(end)
        self.end = end


@functools.cache
def values(stream, levels):
    """The trees in order, each with the place behind it, and the place of the fault behind them or None.

    They nest so many levels deep at most.
    """
    found, at = [], 0
    while True:
        try:
            tree, at = value(stream, at, levels)
        except Short:
            return found, None
        except Fault as fault:
            return found, fault.end
        found.append((tree, at))


def line(stream, at):
    """The text up to the first CR LF, and the place behind that."""
    end = stream.find(b"\r\n", at)
    if end < 0:
        raise Short
    text = utf8(stream[at:end])
    if text is None:
        raise Fault(end + 2)
    return text, end + 2


def number(stream, at):
    text, at = line(stream, at)
    count = signed(trimmed(text))
    if count is None:
        raise Fault(at)
    return count, at


def counted(stream, at, count):
    """So many bytes and CR LF behind them, of which a wrong one is known where it stands."""
    end = at + count
    for place, byte in ((end, b"\r"), (end + 1, b"\n")):
        if place >= len(stream):
            raise Short
        if stream[place : place + 1] != byte:
            raise Fault(place + 1)
    return stream[at:end], end + 2


def items(stream, at, count, levels):
    found = []
    for _ in range(count):
        tree, at = value(stream, at, levels)
        found.append(tree)
    return found, at


def pairs(stream, at, levels):
    count, at = number(stream, at)
    if count < 0:
        raise Fault(at)
    found, at = items(stream, at, 2 * count, levels)
    return list(zip(found[::2], found[1::2])), at


def value(stream, at, levels):
    """The tree that begins here, so many levels deep at most, and the place behind it."""
    if at >= len(stream):
        raise Short
    read = READERS.get(stream[at : at + 1])
    if read is None or not levels:
        raise Fault(at + 1)
    return read(stream, at + 1, levels)


def simple(stream, at, _):
    text, at = line(stream, at)
    return ("okay",) if text == "OK" else ("simple", text.encode()), at


def error_of(text):
    code, _, details = text.partition(" ")
    return ("error", code.encode(), details.encode())


def error(stream, at, _):
    text, at = line(stream, at)
    return error_of(text), at


def integer(stream, at, _):
    count, at = number(stream, at)
    return ("int", count), at


def bulk(stream, at, _):
    count, at = number(stream, at)
    if count < 0:
        return ("nil",), at
    data, at = counted(stream, at, count)
    return ("bulk", data), at


def listed(form):
    def read(stream, at, levels):
        count, at = number(stream, at)
        if count < 0:
            return ("nil",), at
        found, at = items(stream, at, count, levels - 1)
        return (form, found), at

    return read


def mapped(stream, at, levels):
    found, at = pairs(stream, at, levels - 1)
    return ("map", found), at


def attribute(stream, at, levels):
    found, at = pairs(stream, at, levels - 1)
    inner, at = value(stream, at, levels - 1)
    return ("attribute", found, inner), at


def push(stream, at, levels):
    count, at = number(stream, at)
    if count <= 0:
        return ("push", b"", []), at
    kind, at = value(stream, at, levels - 1)
    if kind[0] not in ("simple", "bulk") or utf8(kind[1]) is None:
        raise Fault(at)
    found, at = items(stream, at, count - 1, levels - 1)
    return ("push", kind[1], found), at


def nil(stream, at, _):
    _, at = line(stream, at)
    return ("nil",), at


def boolean(stream, at, _):
    text, at = line(stream, at)
    if text not in ("t", "f"):
        raise Fault(at)
    return ("bool", text == "t"), at


def double(stream, at, _):
    text, at = line(stream, at)
    if not DOUBLE.fullmatch(trimmed(text)):
        raise Fault(at)
    return ("double", trimmed(text).encode()), at


def big(stream, at, _):
    text, at = line(stream, at)
    return ("big", text.encode()), at


def blob(stream, at):
    """A text of counted bytes, and what is no UTF-8 in it replaced."""
    count, at = number(stream, at)
    if count < 0:
        raise Fault(at)
    data, at = counted(stream, at, count)
    return data.decode(errors="replace"), at


def verbatim(stream, at, _):
    text, at = blob(stream, at)
    form, colon, rest = text.partition(":")
    if not colon:
        raise Fault(at)
    return ("verbatim", form.encode(), rest.encode()), at


def blob_error(stream, at, _):
    text, at = blob(stream, at)
    return error_of(text), at


READERS = {
    b"+": simple, b"-": error, b":": integer, b"$": bulk, b"*": listed("array"), b"~": listed("set"),
    b"%": mapped, b"|": attribute, b">": push, b"_": nil, b"#": boolean, b",": double, b"(": big,
    b"=": verbatim, b"!": blob_error,
}


def parts(tree):
    """The trees within a tree, in the order in which errors are sought."""
    form = tree[0]
    if form in ("array", "set"):
        return tree[1]
    if form == "push":
        return tree[2]
    if form == "map":
        return [it for pair in tree[1] for it in pair]
    if form == "attribute":
        return [tree[2], *(it for pair in tree[1] for it in pair)]
    return []


def first_error(tree):
    """The first server error that a tree is or holds, or None."""
    if tree[0] == "error":
        return tree
    return next((found for part in parts(tree) if (found := first_error(part))), None)


def packed(args):
    """A command on the wire."""
    return b"*%d\r\n" % len(args) + b"".join(b"$%d\r\n%b\r\n" % (len(arg), arg) for arg in args)
