"""Whether what clients were answered is explained, key by key, by one order of all that they did there.

What one command does on a key, or on a pair of keys of one slot, is a `Step`. A step without an answer was done once or
not at all (OPEN); one that a server refused was not done (REFUSED). Three kinds of keys are known:

- text: its appended tokens end in ';' and are all different. The text at the end is the order of the appends.
- count: it is only counted up by one, so the answers are the order.
- pair: its two keys are written together, each time with another value, and read together. Here the order has to be
  found. It exists if the zones of the values lie as Gibbons and Korach have shown ("Testing Shared Memories", 1997).

In such an order each step stands at a time between its request and its answer, and a client's answered ones stand in
their order."""
import bisect
import math
import re
from collections import namedtuple

ANSWERED, OPEN, REFUSED = "answered", "open", "refused"

# A client's step by its number, what it does, where, and what it writes; what became of it, and the reply; when it was
# asked for, and when it was answered or refused, which is never where it may still be done later.
Step = namedtuple("Step", "client number verb key value fate reply sent answered")


def name(step):
    words = f"{step.verb} {step.value}" if step.value else step.verb
    reply = str(step.reply if step.fate == ANSWERED else step.fate)
    return f"{step.client}{step.number} ({words}: {reply if len(reply) < 60 else '..' + reply[-50:]})"


def order_faults(placed):
    """What speaks against an order, given by each step's place in it; a read stands behind the writes of its place."""
    faults, latest, own = [], None, {}
    reads = ("length", "text", "count")
    placed = sorted(placed, key=lambda item: (item[0], item[1].verb in reads, item[1].sent, item[1].number))
    for _, step in placed:
        if latest and step.answered < latest.sent:
            faults.append(f"{name(step)} has to stand behind {name(latest)}, and was answered before that was sent")
        if step.fate == ANSWERED:
            before = own.get(step.client, step)
            if step.number < before.number:
                faults.append(f"{name(step)} has to stand behind {name(before)}, a later one of the same client")
            own[step.client] = step
        if not latest or step.sent > latest.sent:
            latest = step
    return faults


def text_faults(steps, text):
    tokens = {step.value: step for step in steps if step.verb == "append"}
    faults, placed, ends, place = [], [], {0}, 0
    for piece in re.findall("[^;]*;|[^;]+$", text):
        place += len(piece)
        ends.add(place)
        step = tokens.pop(piece, None)
        if not step or step.fate == REFUSED:
            why = "that was refused" if step else "for which no append is left"
            faults.append(f"{piece} stands in the text up to {place}, {why}")
            continue
        if step.fate == ANSWERED and step.reply != place:
            faults.append(f"{name(step)} stands in the text up to {place}")
        placed.append((place, step))
    faults += [f"{name(step)} does not stand in the text" for step in tokens.values() if step.fate == ANSWERED]
    for step in steps:
        if step.fate != ANSWERED or step.verb == "append":
            continue
        length = step.reply if step.verb == "length" else len(step.reply)
        if length not in ends or (step.verb == "text" and not text.startswith(step.reply)):
            faults.append(f"{name(step)} is no front of the text")
        placed.append((length, step))
    return faults + order_faults(placed)


def count_faults(steps, last):
    faults, seen = [], {}
    placed = [(step.reply, step) for step in steps if step.fate == ANSWERED]
    for value, step in placed:
        if not (step.verb == "count" or 1 <= value) or value > last:
            faults.append(f"{name(step)}, and in the end it is {last}")
        elif step.verb == "incr" and value in seen:
            faults.append(f"{name(step)} and {name(seen[value])}")
        if step.verb == "incr":
            seen[value] = step
    gaps = [value for value in range(1, last + 1) if value not in seen]
    return faults + gap_faults(steps, placed, gaps) + order_faults(placed)


def gap_faults(steps, placed, gaps):
    """The numbers that no one was answered and no open step explains. Each needs one of its own, that was sent before
    this number or a higher one was told; the first sent serve the lowest."""
    told = sorted((value, step.answered) for value, step in placed)
    values = [value for value, _ in told]
    firsts = [math.inf]
    for _, answered in reversed(told):
        firsts.append(min(firsts[-1], answered))
    firsts.reverse()
    sent = sorted(step.sent for step in steps if step.verb == "incr" and step.fate == OPEN)
    faults = []
    for turn, gap in enumerate(gaps):
        if turn >= len(sent) or sent[turn] >= firsts[bisect.bisect_left(values, gap)]:
            faults.append(f"no one was answered {gap}, and no request without an answer explains it")
    return faults


def pair_faults(steps, last):
    """`last` is read at the end of all, as the two values of the pair."""
    steps = steps + [Step("end", 0, "read", None, None, ANSWERED, last, math.inf, math.inf)]
    faults = []
    members = {None: [Step("none", 0, "write", None, None, ANSWERED, None, -math.inf, -math.inf)]}
    members |= {step.value: [step] for step in steps if step.verb == "write" and step.fate != REFUSED}
    for step in steps:
        if step.verb != "read" or step.fate != ANSWERED:
            continue
        one, other = step.reply
        if one != other:
            faults.append(f"{name(step)} reads a pair half written")
        elif one not in members:
            faults.append(f"{name(step)} reads what no one wrote")
        else:
            members[one].append(step)
    return faults + zone_faults(members) + overwritten(steps, members.get(last[0]))


def zone_faults(members):
    """What speaks against any order of the writes and reads of a pair: each value's write first, then what read it."""
    faults, forward, backward = [], [], []
    for write, *reads in members.values():
        if write.fate == OPEN and not reads:
            continue
        early = [read for read in reads if read.answered < write.sent]
        faults += [f"{name(read)} was answered before {name(write)} was sent" for read in early]
        first = min(step.answered for step in (write, *reads))
        latest = max(step.sent for step in (write, *reads))
        (forward if first < latest else backward).append((min(first, latest), max(first, latest), name(write)))
    forward.sort()
    for one, other in zip(forward, forward[1:]):
        if other[0] < one[1]:
            faults.append(f"{one[2]} and {other[2]}: each has to hold before the other's last read")
    for begin, end, what in backward:
        place = bisect.bisect_left(forward, (begin,)) - 1
        if place >= 0 and forward[place][0] < begin and end < forward[place][1]:
            faults.append(f"{what} falls into the time in which {forward[place][2]} has to hold")
    return faults


def overwritten(steps, found):
    """The answered writes behind the last value's own, of the same client."""
    if not found or found[0].fate != ANSWERED:
        return []
    last = found[0]
    return [
        f"{name(step)} is overwritten by {name(last)}, an earlier one of the same client"
        for step in steps
        if step.verb == "write" and step.fate == ANSWERED and step.client == last.client and step.number > last.number
    ]


FAULTS = {"text": text_faults, "count": count_faults, "pair": pair_faults}


def kind_of(key):
    return key.partition(":")[0]


def faults_of(steps, finals):
    """For each key what its log and its value at the end leave without an explanation."""
    by_key = {key: [] for key in finals}
    for step in steps:
        by_key[step.key].append(step)
    return {key: FAULTS[kind_of(key)](by_key[key], finals[key]) for key in finals}
