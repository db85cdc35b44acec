"""What is printed."""
from .combine import Refused
from .slots import shown


def hexed(data):
    return data.hex() or "-"


def shown_tree(tree):
    """A tree as words."""
    form, *rest = tree
    if form in ("nil", "okay"):
        return [form]
    if form == "int":
        return ["int", str(rest[0])]
    if form == "bool":
        return ["bool", "true" if rest[0] else "false"]
    if form in ("array", "set"):
        return [form, str(len(rest[0])), *(word for it in rest[0] for word in shown_tree(it))]
    if form == "push":
        items = [word for it in rest[1] for word in shown_tree(it)]
        return ["push", hexed(rest[0]), str(len(rest[1])), *items]
    if form in ("map", "attribute"):
        pairs = [word for pair in rest[0] for it in pair for word in shown_tree(it)]
        inner = shown_tree(rest[1]) if form == "attribute" else []
        return [form, str(len(rest[0])), *pairs, *inner]
    if form == "error":
        return ["error", hexed(rest[0])]
    return [form, *map(hexed, rest)]


def shown_entries(entries):
    words = ["ids", str(len(entries))]
    for name, fields, elapsed, times in entries:
        words += ["id", hexed(name), str(len(fields))]
        for field, value in fields.items():
            words += [hexed(field), *shown_tree(value)]
        words += ["-" if it is None else str(it) for it in (elapsed, times)]
    return words


def shown_streams(streams):
    words = ["keys", str(len(streams))]
    for key, entries in streams:
        words += ["key", hexed(key), *shown_entries(entries)]
    return words


def shown_outcome(outcome):
    return f"err {outcome}" if isinstance(outcome, Refused) else " ".join(["ok", *shown_tree(outcome)])


def shown_outcomes(outcomes):
    """The lines of an answer that tells of each command."""
    return [f"ok each {len(outcomes)}", *(f"each {shown_outcome(it)}" for it in outcomes)]


def shown_request(request):
    way = "asking" if request.asking else "plain"
    return " ".join(["asked", shown(request.node), way, *map(hexed, request.args)])


def shown_sent(links):
    return [f"sent {shown(node)} {hexed(links[node].sent)}" for node in sorted(links)]
