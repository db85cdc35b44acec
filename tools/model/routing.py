"""Where a command goes, and its parts.

The keys are those that Redis' documentation has for each command; `COMMAND DOCS` of a server names them.
"""
from .numbers import unsigned, utf8
from .slots import slot

FAMILIES = {
    "XGROUP", "XINFO", "OBJECT", "MEMORY", "CONFIG", "SLOWLOG", "SCRIPT", "PUBSUB", "FUNCTION", "MODULE",
    "COMMAND", "ACL", "LATENCY",
}
# A word that is split by its keys: the length of a tuple, and whether the last argument is in each part.
SPLIT = {
    **dict.fromkeys(("MGET", "DEL", "EXISTS", "UNLINK", "TOUCH", "WATCH"), (1, False)),
    "MSET": (2, False),
    "JSON.MSET": (3, False),
    "JSON.MGET": (1, True),
}
STREAMS = {"XREAD", "XREADGROUP"}
# The place of the number of keys, and whether a number of 0 leaves the node open.
NUMBERED = {
    **dict.fromkeys(("EVAL", "EVALSHA", "EVAL_RO", "EVALSHA_RO", "FCALL", "FCALL_RO"), (2, True)),
    **dict.fromkeys(("BLMPOP", "BZMPOP"), (2, False)),
    **dict.fromkeys(
        ("LMPOP", "ZMPOP", "SINTERCARD", "ZUNION", "ZINTER", "ZDIFF", "ZINTERCARD"), (1, False)
    ),
}
SECOND = {
    "BITOP", "XINFO STREAM", "XINFO GROUPS", "XINFO CONSUMERS", "XGROUP CREATE", "XGROUP CREATECONSUMER",
    "XGROUP DELCONSUMER", "XGROUP DESTROY", "XGROUP SETID", "OBJECT ENCODING", "OBJECT FREQ",
    "OBJECT IDLETIME", "OBJECT REFCOUNT", "MEMORY USAGE",
}
ANYWHERE = {"ECHO", "TIME", "PUBLISH", "LASTSAVE"}
# A command to several nodes: whether replicas are asked too, and how the replies become one.
SEVERAL = {
    **dict.fromkeys(("FLUSHALL", "FLUSHDB", "PING"), (False, "all succeeded")),
    "DBSIZE": (False, "sum"),
    "KEYS": (False, "join arrays"),
    "WAIT": (False, "least"),
    "SCRIPT EXISTS": (False, "and"),
    "RANDOMKEY": (False, "first not nil"),
    **dict.fromkeys(
        ("CONFIG SET", "CONFIG RESETSTAT", "SLOWLOG RESET", "SCRIPT FLUSH", "SCRIPT LOAD"),
        (True, "all succeeded"),
    ),
    "SCRIPT KILL": (True, "one succeeded"),
    "PUBSUB NUMSUB": (True, "add maps"),
    "INFO": (True, "by node"),
}
NOWHERE = {
    "SCAN", "AUTH", "HELLO", "SELECT", "MULTI", "EXEC", "DISCARD", "SUBSCRIBE", "PSUBSCRIBE", "SSUBSCRIBE",
    "UNSUBSCRIBE", "PUNSUBSCRIBE", "SUNSUBSCRIBE", "CLUSTER", "READONLY", "READWRITE", "ASKING", "MONITOR",
    "QUIT", "RESET", "SHUTDOWN", "CLIENT", "MIGRATE",
}


class NoRoute(Exception):
    """The command goes nowhere, or not in this way."""


def upper(arg):
    """The argument in upper case; a byte that is no ASCII stays apart from each name."""
    return arg.upper().decode("latin-1")


def name(args):
    word = upper(args[0])
    return f"{word} {upper(args[1])}" if word in FAMILIES and len(args) > 1 else word


def argument(args, place):
    if place >= len(args):
        raise NoRoute
    return args[place]


def numbered_key(args, place, is_open):
    text = utf8(argument(args, place))
    count = unsigned(text) if text is not None else None
    if count is None or count == 0 and not is_open:
        raise NoRoute
    return argument(args, place + 1) if count else None


def streams_key(args):
    for place, arg in enumerate(args):
        if place and upper(arg) == "STREAMS":
            return argument(args, place + 1)
    raise NoRoute


def key(args):
    """The key that a command goes by, None where any node may serve it."""
    named = name(args)
    if named in ANYWHERE:
        return None
    if named in NOWHERE or named in SEVERAL:
        raise NoRoute
    if named in SECOND:
        return argument(args, 2)
    if upper(args[0]) in FAMILIES:
        raise NoRoute
    if named in STREAMS:
        return streams_key(args)
    if named in NUMBERED:
        return numbered_key(args, *NUMBERED[named])
    return argument(args, 1)


def several(args):
    """Whether replicas are asked too, and how the replies become one."""
    if name(args) not in SEVERAL:
        raise NoRoute
    return SEVERAL[name(args)]


class Part:
    """A part of a command: its arguments, its slot (None: any node), and the places of its tuples."""

    def __init__(self, args, slot_number, places=()):
        self.args, self.slot, self.places = args, slot_number, list(places)


def parts(args):
    """The parts of a command, in the order in which their slots first appear."""
    word = upper(args[0])
    if word not in SPLIT:
        wanted = key(args)
        return [Part(args, None if wanted is None else slot(wanted))]
    width, is_shared = SPLIT[word]
    shared = args[-1:] if is_shared else []
    own = args[1 : len(args) - len(shared)]
    if not own or len(own) % width or is_shared and len(args) < 2:
        raise NoRoute
    tuples = [own[at : at + width] for at in range(0, len(own), width)]
    places = {}
    for place, one in enumerate(tuples):
        places.setdefault(slot(one[0]), []).append(place)
    return [
        Part([args[0], *(arg for at in there for arg in tuples[at]), *shared], number, there)
        for number, there in places.items()
    ]


def is_of_one_slot(keys):
    return len({slot(key) for key in keys}) < 2


def read_keys(args):
    """The keys of an XREAD: the first half of what stands behind STREAMS, if that is an even number."""
    words = [upper(arg) for arg in args]
    if words[0] != "XREAD" or "STREAMS" not in words[1:]:
        return []
    behind = args[words.index("STREAMS", 1) + 1 :]
    return [] if len(behind) % 2 else behind[: len(behind) // 2]


def read_parts(keys, ids):
    """A read of streams in parts, one for each slot, in the order in which the slots first appear."""
    places = {}
    for place, key in enumerate(keys):
        places.setdefault(slot(key), []).append(place)
    return [
        Part([b"XREAD", b"STREAMS", *(keys[at] for at in there), *(ids[at] for at in there)], number, there)
        for number, there in places.items()
    ]


def is_split(args):
    return upper(args[0]) in SPLIT
