"""What a run in which something fails has to print, for tools/faults and tools/refusals.

tools/model plays the session itself, with the same failure, and so says what the calls behind it
answer too: which link is closed then, which replies are left, and which slot map stands.
"""
from model.play import Run, accesses, starving
from model.script import BadLine, script
from model.slots import shown


def text(lines):
    return "\n".join(lines)


def with_piece(session, piece):
    """The session with that size of a read at each node."""
    lines = session.split(b"\n")
    for at, line in enumerate(lines):
        if line.startswith(b"node "):
            words = line.split(b" ")
            lines[at] = b" ".join([*words[:2], b"%d" % piece, *words[3:]])
    return b"\n".join(lines)


def with_fault(session, node, access, number):
    """The session with that read or write of a node failing."""
    lines = session.split(b"\n")
    at = max(at for at, line in enumerate(lines) if line.startswith(b"node "))
    fault = f"fault {shown(node)} {access} {number}".encode()
    return b"\n".join([*lines[: at + 1], fault, *lines[at + 1 :]])


def shown_fault(fault):
    node, access, number = fault
    return f"{shown(node)} {access} {number}"


def followed(session):
    """The session with calls behind its own, which show the slot map and the state of each link.

    GET a and GET b go by the map. Then each node is asked for its map: a closed link sends nothing, and
    one that is in step takes the reply that is next.
    """
    nodes = script(session).nodes
    queries = ["query 0 474554 61", "query 0 474554 62"] if nodes else []
    calls = [*queries, *(f"refresh {shown(node)}" for node in nodes)]
    return b"\n".join([session.removesuffix(b"\n"), *(it.encode() for it in calls), b""])


def is_good(session):
    """Whether a session has no bad line."""
    try:
        script(session)
    except BadLine:
        return False
    return True


def may_fail(session):
    """Whether a good session has a node, and no fault of its own."""
    said = script(session)
    return bool(said.nodes) and not any(said.failing.values())


def unfailing(session, run=Run):
    return run(script(session)).lines


def faults_of(session, run=Run):
    """Each read and each write of a run, as node, access and number, and one more of both."""
    return list(accesses(script(session), run))


def failing(session, fault, run=Run):
    """The lines of a run in which that read or write of a node fails."""
    return run(script(session), [fault]).lines


def lacking_memory(session, run=Run):
    """The texts of which a run prints one where one request for memory is refused.

    A call may lack memory at each of its steps; what is printed does not always tell at which. A
    node's writer, which stands in memory, may lack it as well: then that write fails. And a call that
    can do without what was refused answers as it would have.
    """
    said = script(session)
    writes = [it for it in accesses(said, run) if it[1] == "write"]
    runs = [run(said), *(run(said, [it]) for it in writes), *starving(said, run)]
    return {text(it.lines) for it in runs}


def difference(lines, wanted):
    """The first line that differs from that of the wanted text which is like it the longest."""
    def same(other):
        pairs = zip(lines, other)
        return next((at for at, (one, two) in enumerate(pairs) if one != two), min(len(lines), len(other)))

    best = max((it.split("\n") for it in wanted), key=same)
    at = same(best)
    here, there = (it[at] if at < len(it) else "the end" for it in (lines, best))
    return f"line {at + 1} is '{here}', and not '{there}'"


def wrong(lines, wanted):
    """What is wrong with the lines of a run that has to print one of these texts."""
    return "" if text(lines) in wanted else difference(lines, wanted)
