"""Addresses, slots, and the slot map that a reply lists."""
import functools

from .numbers import unsigned

SLOTS = 16384
# x^16 + x^12 + x^5 + 1
DIVISOR = 1 << 16 | 1 << 12 | 1 << 5 | 1


def address(text):
    """The host and the port that a text spells, or None."""
    host, colon, port = text.rpartition(":")
    host, port = host.lstrip("[").rstrip("]"), unsigned(port, 16)
    return (host.encode(), port) if colon and host and port is not None else None


def shown(node):
    return f"{node[0].decode()}:{node[1]}"


def tagged(key):
    """The part of a key that is hashed."""
    begin = key.find(b"{")
    end = key.find(b"}", begin + 1)
    return key[begin + 1 : end] if begin >= 0 and end > begin + 1 else key


@functools.cache
def slot(key):
    """The remainder of the hashed bits by the polynomial, by long division."""
    hashed = tagged(key)
    bits = int.from_bytes(hashed, "big") << 16
    for place in range(bits.bit_length() - 1, 15, -1):
        if bits >> place & 1:
            bits ^= DIVISOR << place - 16
    return bits % SLOTS


def bound(tree):
    return tree[1] if tree[0] == "int" and 0 <= tree[1] <= 65535 else None


def node_in(tree, host):
    """The node that an item of a row is, or None."""
    if tree[0] != "array" or len(tree[1]) < 2:
        return None
    name, port = tree[1][0], bound(tree[1][1])
    if name[0] == "bulk":
        named = name[1].decode(errors="replace").encode()
    elif name[0] == "nil":
        named = b""
    else:
        return None
    if named == b"?" or port is None:
        return None
    return (named or host, port)


def slot_map(tree, host):
    """The entries of a reply to CLUSTER SLOTS: by each end, in ascending order, the start and the nodes."""
    entries = {}
    for row in tree[1] if tree[0] == "array" else []:
        if row[0] != "array":
            break
        if len(row[1]) < 3:
            continue
        start, end = bound(row[1][0]), bound(row[1][1])
        nodes = [node for node in (node_in(it, host) for it in row[1][2:]) if node]
        if start is not None and end is not None and nodes:
            entries[end] = (start, nodes)
    return dict(sorted(entries.items()))


def primary(entries, number):
    """The primary of a slot: of the entry with the least end that is not below it, if it has the slot."""
    for end, (start, nodes) in entries.items():
        if end >= number:
            return nodes[0] if start <= number else None
    return None


def primaries(entries):
    return sorted({nodes[0] for _, nodes in entries.values()})


def all_nodes(entries):
    return sorted({node for _, nodes in entries.values() for node in nodes})
