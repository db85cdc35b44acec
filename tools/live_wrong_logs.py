"""Logs for tools/live_log.py, made up by hand: a right one, and wrong ones, each a change of it."""
import math

from live_log import ANSWERED, OPEN, REFUSED, Step, faults_of

# Client and number, what is done, where, what is written; the reply, or what became of it; from when to when.
RIGHT = (
    ("a1", "append", "text:1", "a1;", 3, 0, 2),
    ("b1", "append", "text:1", "b1;", 6, 1, 3),
    ("a2", "append", "text:1", "a2;", 9, 4, 5),
    ("c2", "append", "text:1", "c2;", OPEN, 4, math.inf),
    ("b3", "length", "text:1", None, 9, 6, 7),
    ("a3", "append", "text:1", "a3;", REFUSED, 7, 8),
    ("b4", "text", "text:1", None, "a1;b1;a2;", 8, 9),
    ("a5", "incr", "count:1", None, 1, 10, 12),
    ("b5", "incr", "count:1", None, 2, 11, 13),
    ("a6", "incr", "count:1", None, 4, 14, 16),
    ("c6", "incr", "count:1", None, OPEN, 14, math.inf),
    ("b7", "count", "count:1", None, 4, 17, 18),
    ("b8", "incr", "count:1", None, REFUSED, 18, 19),
    ("a8", "write", "pair:1", "a8", "OK", 20, 22),
    ("b9", "read", "pair:1", None, ("a8", "a8"), 21, 23),
    ("b10", "write", "pair:1", "b10", "OK", 24, 26),
    ("a10", "write", "pair:1", "a10", "OK", 25, 27),
    ("c10", "write", "pair:1", "c10", OPEN, 25, math.inf),
    ("b11", "read", "pair:1", None, ("b10", "b10"), 28, 29),
    ("a11", "read", "pair:1", None, ("c10", "c10"), 30, 31),
    ("b12", "write", "pair:1", "b12", REFUSED, 32, 33),
)
FINALS = {"text:1": "a1;b1;a2;c2;", "count:1": 4, "pair:1": ("c10", "c10")}

# Each with its name, the replies, times and values at the end that differ from the right log's.
WRONG = (
    ("an append is lost", {"text:1": "a1;a2;c2;"}),
    (
        "an append is lost, and the later ones are answered so",
        {"text:1": "a1;a2;c2;", "a2": 6, "b3": 6, "b4": "a1;a2;"},
    ),
    ("the last append is lost", {"text:1": "a1;b1;", "b3": 6, "b4": "a1;b1;"}),
    ("an append stands twice", {"text:1": "a1;b1;a2;a2;"}),
    (
        "an append stands twice, and the later one is answered so",
        {"text:1": "a1;a1;b1;a2;c2;", "b1": 9, "a2": 12, "b3": 12, "b4": "a1;a1;b1;a2;"},
    ),
    ("an append without an answer stands twice", {"text:1": "a1;b1;a2;c2;c2;"}),
    ("two clients' orders are exchanged", {"text:1": "b1;a1;a2;c2;", "b4": "b1;a1;a2;"}),
    ("two clients' answers are exchanged", {"a1": 6, "b1": 3}),
    ("a client's own order is exchanged", {"text:1": "a2;b1;a1;c2;", "a1": 9, "a2": 3, "b4": "a2;b1;a1;"}),
    (
        "a client's own order is exchanged within one call",
        {"text:1": "a2;b1;a1;c2;", "a1": 9, "a2": 3, "b4": "a2;b1;a1;", "a1 a2": (0, 6)},
    ),
    (
        "an append stands before one that was answered before it was sent",
        {"text:1": "a1;a2;b1;c2;", "b1": 9, "a2": 6, "b4": "a1;a2;b1;"},
    ),
    (
        "an append without an answer stands before it was sent",
        {"text:1": "c2;a1;b1;a2;", "a1": 6, "b1": 9, "a2": 12, "b3": 12, "b4": "c2;a1;b1;a2;"},
    ),
    ("a refused append stands", {"text:1": "a1;b1;a2;c2;a3;"}),
    ("a token that no one appended stands", {"text:1": "a1;b1;a2;d1;"}),
    ("half a token stands", {"text:1": "a1;b1;a2;c2"}),
    ("a length within a token is read", {"b3": 8}),
    ("an old length is read", {"b3": 6}),
    ("an old text is read", {"b4": "a1;b1;"}),
    ("a text is read that never was", {"b4": "b1;a1;a2;"}),
    ("a count is answered twice", {"b5": 1}),
    ("a count is answered twice, and one number less at the end", {"b5": 1, "a6": 3, "b7": 3, "count:1": 3}),
    ("a number is left out", {"count:1": 5}),
    ("a number is left out before the last", {"a6": 5, "b7": 5, "count:1": 5}),
    ("the last count is lost", {"count:1": 3}),
    ("a refused count was done", {"c6": REFUSED}),
    ("a count without an answer was done before it was sent", {"c6": (17, math.inf)}),
    ("a count is answered less than an earlier one", {"a5": 4, "a6": 1}),
    ("two counts of a client are exchanged within one call", {"a5": 4, "a6": 1, "a5 a6": (10, 16)}),
    ("an old count is read", {"b7": 3}),
    ("a pair is read half written", {"b9": ("a8", None)}),
    ("a pair is half written at the end", {"pair:1": ("c10", "a10")}),
    ("a pair is read before it was written", {"b9": ("b10", "b10")}),
    ("an old pair is read", {"b11": ("a8", "a8")}),
    ("a pair is read as at the beginning", {"b11": (None, None)}),
    ("a pair is read that no one wrote", {"b11": ("d1", "d1")}),
    ("a refused pair is read", {"b12": REFUSED, "pair:1": ("b12", "b12")}),
    ("a pair is read new, then old", {"b11": ("c10", "c10"), "a11": ("b10", "b10")}),
    ("a pair is overwritten by an earlier one", {"pair:1": ("b10", "b10")}),
    (
        "a client's pair is overwritten by its earlier one, of one call",
        {"b12": "OK", "b10 b12": (24, 33), "b11": ("a10", "a10"), "a11": ("a10", "a10"), "pair:1": ("b10", "b10")},
    ),
    ("the last pair at the end is lost", {"b12": "OK"}),
)


def step_of(row, changes):
    who, verb, key, value, reply, sent, answered = row
    for named, change in changes.items():
        if who in named.split():
            if isinstance(change, tuple) and not isinstance(change[0], (str, type(None))):
                sent, answered = change
            else:
                reply = change
    fate = reply if reply in (OPEN, REFUSED) else ANSWERED
    return Step(who[0], int(who[1:]), verb, key, value, fate, reply, sent, answered)


def complaints(changes):
    """What is found against the right log with these changes."""
    steps = [step_of(row, changes) for row in RIGHT]
    finals = {key: changes.get(key, value) for key, value in FINALS.items()}
    return [fault for faults in faults_of(steps, finals).values() for fault in faults]


def self_check():
    """How many wrong logs are refused, of how many; none counts where the right one is refused."""
    for fault in complaints({}):
        print(f"the right log is refused: {fault}")
        return 0, len(WRONG)
    accepted = [what for what, changes in WRONG if not complaints(changes)]
    for what in accepted:
        print(f"not refused: {what}")
    return len(WRONG) - len(accepted), len(WRONG)
