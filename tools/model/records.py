"""The entries of streams in a reply: lists, or maps with the same pairs."""
from .combine import unless
from .numbers import unsigned, utf8

PLAIN = {"simple": 1, "bulk": 1, "verbatim": 2}


def inner(tree):
    """What is read of a tree: the value to which attributes belong."""
    while tree[0] == "attribute":
        tree = tree[2]
    return tree


def text(tree):
    tree = inner(tree)
    if tree[0] in PLAIN:
        unless(utf8(tree[PLAIN[tree[0]]]) is None)
        return tree[PLAIN[tree[0]]]
    unless(tree[0] not in ("okay", "int"))
    return b"OK" if tree[0] == "okay" else b"%d" % tree[1]


def sequence(tree):
    tree = inner(tree)
    if tree[0] == "map":
        return [("map", [pair]) for pair in tree[1]]
    unless(tree[0] not in ("array", "set", "nil", "bulk"))
    return [tree] if tree[0] == "bulk" else [] if tree[0] == "nil" else tree[1]


def fields(tree, read):
    """Names with what is read of their values: a repeated name has its first place and last value."""
    tree = inner(tree)
    if tree[0] == "array":
        unless(len(tree[1]) % 2)
        tree = ("map", list(zip(tree[1][::2], tree[1][1::2])))
    unless(tree[0] not in ("map", "nil"))
    found = {}
    for name, value in tree[1] if tree[0] == "map" else []:
        found[text(name)] = read(value)
    return found


def count(tree):
    """A number, or None for nil."""
    tree = inner(tree)
    if tree == ("nil",):
        return None
    if tree[0] == "int":
        unless(not 0 <= tree[1] < 1 << 64)
        return tree[1]
    unless(tree[0] not in ("simple", "bulk") or utf8(tree[1]) is None)
    number = unsigned(utf8(tree[1]))
    unless(number is None)
    return number


def entries(tree):
    """Each entry as its id, its fields, milliseconds since its delivery and how often it was delivered."""
    return [
        (name, found, None, None)
        for item in sequence(tree)
        for name, found in fields(item, lambda it: fields(it, lambda value: value)).items()
    ]


def delivered(tree):
    """The entries of a reply that tells the deliveries."""
    found = []
    for item in sequence(tree):
        unless(item[0] != "array" or len(item[1]) != 4)
        name, values, elapsed, times = item[1]
        found.append((text(name), fields(values, lambda value: value), count(elapsed), count(times)))
    return found


def joined(keys, parts, found):
    """The rows of all parts in the order of the keys, of which each row has one of its own part."""
    rows = {}
    for part, streams in zip(parts, found):
        for key, entries in streams:
            unless(key not in (keys[at] for at in part.places) or key in rows)
            rows[key] = entries
    return [(key, rows[key]) for key in keys if key in rows]


def streams(tree, read):
    return [pair for item in sequence(tree) for pair in fields(item, read).items()]


def reply(tree):
    """The streams with their entries: without deliveries, or where that can not be read, with these."""
    try:
        return streams(tree, entries)
    except Exception as refused:
        if str(refused) != "UnexpectedReturnType":
            raise
        return streams(tree, delivered)
