"""One reply from several."""
from .routing import upper
from .slots import shown

SUMS = ("DEL", "EXISTS", "UNLINK", "TOUCH")
LEAST, MOST = -(1 << 63), (1 << 63) - 1


class Refused(Exception):
    """A call is refused; the text is the kind as a session prints it."""


UNEXPECTED = Refused("UnexpectedReturnType")


def unless(is_wrong):
    if is_wrong:
        raise UNEXPECTED


def total(numbers):
    unless(any(it[0] != "int" for it in numbers))
    added = sum(it[1] for it in numbers)
    unless(not LEAST <= added <= MOST)
    return ("int", added)


def of_parts(args, parts, replies):
    """The reply to a split command from those to its parts, in the same order as these."""
    word = upper(args[0])
    if word in SUMS:
        return total(replies)
    if word not in ("MGET", "JSON.MGET"):
        unless(any(it != ("okay",) for it in replies))
        return ("okay",)
    items = {}
    for part, reply in zip(parts, replies):
        unless(reply[0] != "array" or len(reply[1]) != len(part.places))
        items.update(zip(part.places, reply[1]))
    return ("array", [items[place] for place in sorted(items)])


def of_nodes(policy, outcomes):
    """The reply to a command to several nodes; an outcome is a node with its reply or its refusal."""
    refusals = [it for _, it in outcomes if isinstance(it, Refused)]
    replies = [it for _, it in outcomes if not isinstance(it, Refused)]
    if policy == "one succeeded":
        if replies:
            return replies[0]
        raise refusals[-1]
    if policy == "first not nil":
        told = next((it for it in replies if it != ("nil",)), None)
        if told is None and refusals:
            raise refusals[-1]
        return told or ("nil",)
    if refusals:
        raise refusals[0]
    if policy == "by node":
        return ("map", [(("bulk", shown(node).encode()), reply) for node, reply in outcomes])
    return POLICIES[policy](replies)


def least(replies):
    unless(not replies or any(it[0] != "int" for it in replies))
    return min(replies)


def every(replies):
    unless(any(it[0] != "array" or len(it[1]) != len(replies[0][1]) for it in replies))
    columns = list(zip(*(it[1] for it in replies)))
    unless(any(item[0] != "int" for column in columns for item in column))
    return ("array", [("int", int(all(it[1] for it in column))) for column in columns])


def joined(replies):
    unless(any(it[0] != "array" for it in replies))
    return ("array", [item for it in replies for item in it[1]])


def pairs(tree):
    if tree[0] == "map":
        return tree[1]
    unless(tree[0] != "array" or len(tree[1]) % 2)
    return list(zip(tree[1][::2], tree[1][1::2]))


def added(replies):
    sums = {}
    for key, count in (pair for it in replies for pair in pairs(it)):
        unless(key[0] not in ("bulk", "simple") or count[0] != "int")
        sums[key[1]] = sums.get(key[1], 0) + count[1]
    unless(any(not LEAST <= it <= MOST for it in sums.values()))
    return ("map", [(("bulk", key), ("int", sums[key])) for key in sorted(sums)])


POLICIES = {
    "all succeeded": lambda replies: replies[-1], "sum": total, "least": least, "and": every,
    "join arrays": joined, "add maps": added,
}
