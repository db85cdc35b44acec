"""The rules of a session's text (docs/SESSIONS.md), read for people: which line is bad first, and why.

The program `play` tells the number alone. These rules are written apart from it, so tools/bad-lines and
tools/session-checks compare the two.
"""
import re

LARGEST_NUMBER = 2**64 - 1
LARGEST_PIECE = 2**32 - 1
LARGEST_BUDGET = 2**16 - 1
MOST_LEVELS = 512
LARGEST_PORT = 2**16 - 1
HOW = {
    "node": "node ADDR PIECE BYTES", "fault": "fault ADDR read N, or fault ADDR write N",
    "readonly": "readonly NAME", "budget": "budget N", "levels": "levels N",
    "refresh": "refresh ADDR", "query": "query NUMBER BYTES..", "order": "order I,J,.. BYTES..", "fan": "fan BYTES..",
    "at": "at ADDR BYTES..", "pipe": "pipe", "each": "each", "multi": "multi",
    "cmd": "cmd BYTES..", "skip": "skip BYTES..", "run": "run", "xrange": "xrange KEY START END",
    "xread": "xread KEY,.. ID,..",
}
SETTINGS = ("node", "fault", "readonly", "budget", "levels")


class Bad(Exception):
    """Why a line is bad."""


def first_fault(text):
    """The number from 1 of the first bad line, and why it is bad; nothing where all are good."""
    lines = text.split(b"\n")
    reader = Reader(lines)
    for place, line in enumerate(lines):
        try:
            if line and not line.startswith(b"#"):
                reader.take(place, line)
        except Bad as why:
            return place + 1, str(why)
    return None


def number(word, what, least=0, most=LARGEST_NUMBER):
    """The number that a word is, as Rust reads one."""
    if not re.fullmatch(r"\+?[0-9]+", word):
        raise Bad(f"`{word}` is no number; {what} is wanted")
    digits = word.lstrip("+").lstrip("0") or "0"
    if len(digits) > len(str(LARGEST_NUMBER)) or not least <= int(digits) <= most:
        raise Bad(f"{word} is not from {least} to {most}, as {what} is")
    return int(digits)


def address(word):
    """The host and the port that a word names."""
    host, colon, port = word.rpartition(":")
    if not colon:
        raise Bad(f"`{word}` is no address, since it has no colon; HOST:PORT is wanted")
    host = host.lstrip("[").rstrip("]")
    if not host:
        raise Bad(f"the address `{word}` has no host")
    return host, number(port, "a port", most=LARGEST_PORT)


def hexadecimal(word):
    if word != "-" and not re.fullmatch("([0-9a-fA-F]{2})+", word):
        raise Bad(f"`{word}` is no bytes: two hexadecimal digits for each, or `-` for none")


class Reader:
    """What stood on the lines before."""

    def __init__(self, lines):
        self.last_run = max((place for place, line in enumerate(lines) if line == b"run"), default=-1)
        self.nodes, self.faults = set(), set()
        self.has_budget = self.has_levels = self.has_call = False
        # The line that began a pipeline or a transaction, up to the next `run`.
        self.began = None

    def take(self, place, line):
        """Reads a line that is neither empty nor a comment."""
        try:
            text = line.decode()
        except UnicodeDecodeError:
            raise Bad("it is no UTF-8") from None
        if text.startswith("\ufeff"):
            raise Bad("a byte order mark stands before it; a session begins without one")
        word, *args = text.split(" ")
        if text.endswith("\r") and word != "readonly":
            raise Bad("it ends in CR LF; the lines of a session end in LF alone")
        if word == "readonly":
            args = [text.partition(" ")[2]]
        if word not in HOW and "" not in (word, *args):
            raise Bad(f"no line of a session begins with `{word}`")
        self.stands_here(word)
        if "" in (word, *args) and args != [""]:
            raise Bad("a space too many; words are separated by one, and none stands at either end")
        if word in SETTINGS and self.has_call:
            raise Bad(f"a `{word}` line stands before the first call")
        getattr(self, word)(place, *self.fitting(word, args))
        self.has_call |= word not in SETTINGS

    def stands_here(self, word):
        if self.began in ("pipe", "each") and word not in ("cmd", "skip", "run"):
            raise Bad(f"between `{self.began}` and `run` stand `cmd` and `skip` lines alone")
        if self.began == "multi" and word not in ("cmd", "run"):
            raise Bad("between `multi` and `run` stand `cmd` lines alone")
        if not self.began and word in ("cmd", "skip", "run"):
            behind = "`pipe` or `each`" if word == "skip" else "`pipe`, `each` or `multi`"
            raise Bad(f"a `{word}` line stands behind {behind} alone, up to the next `run`")

    def fitting(self, word, args):
        """The words behind the first, as many as this line takes."""
        wanted = HOW[word].split(", or ")[0].split(" ")[1:]
        more = bool(wanted) and wanted[-1].endswith("BYTES..")
        if len(args) < len(wanted) or not more and len(args) > len(wanted) or args == [""]:
            raise Bad(f"it has too few words or too many; `{HOW[word]}` is wanted")
        return args

    def node(self, _, at, piece, data):
        if address(at) in self.nodes:
            raise Bad(f"a line above sets up the node {at}, however it is spelled there")
        number(piece, "the most bytes of a read", 1, LARGEST_PIECE)
        hexadecimal(data)
        self.nodes.add(address(at))

    def fault(self, _, at, access, count):
        if address(at) not in self.nodes:
            raise Bad(f"no line above sets up the node {at}")
        if access not in ("read", "write"):
            raise Bad(f"`{access}` is neither `read` nor `write`")
        if (address(at), access) in self.faults:
            raise Bad(f"a line above has a fault of a {access} of {at}")
        number(count, "the number of a read or write", 1)
        self.faults.add((address(at), access))

    def readonly(self, _, name):
        """Any name is taken."""

    def budget(self, _, count):
        if self.has_budget:
            raise Bad("a line above has the budget")
        number(count, "a budget", most=LARGEST_BUDGET)
        self.has_budget = True

    def levels(self, _, count):
        if self.has_levels:
            raise Bad("a line above has the limit of levels")
        number(count, "a limit of levels", 1, MOST_LEVELS)
        self.has_levels = True

    def refresh(self, _, at):
        address(at)

    def query(self, _, count, *args):
        number(count, "the number of a query")
        self.fan(_, *args)

    def order(self, _, parts, *args):
        for part in parts.split(","):
            number(part, "the number of a part")
        self.fan(_, *args)

    def fan(self, _, *args):
        for word in args:
            hexadecimal(word)

    cmd = skip = xrange = fan

    def at(self, _, node, *args):
        address(node)
        self.fan(_, *args)

    def pipe(self, place):
        self.begin(place, "pipe")

    def each(self, place):
        self.begin(place, "each")

    def multi(self, place):
        self.begin(place, "multi")

    def begin(self, place, word):
        if place > self.last_run:
            raise Bad("no `run` line follows")
        self.began = word

    def run(self, _):
        self.began = None

    def xread(self, _, keys, ids):
        keys, ids = keys.split(","), ids.split(",")
        self.fan(_, *keys, *ids)
        if len(keys) != len(ids):
            raise Bad(f"it has {len(keys)} keys and {len(ids)} ids, and wants as many")
