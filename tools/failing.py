"""Plays a session with each of its reads and writes failing in turn, for tools/faults."""
import outcomes


def outcome(run, session, fault):
    """The lines of a run with that fault, and what is wrong with it."""
    lines, wrong = run(outcomes.with_fault(session, *fault))
    return lines, wrong or outcomes.wrong(lines, [outcomes.text(outcomes.failing(session, fault))])


def play(run, name, session, mapped=map):
    """Counts the runs that are right and wrong, and tells of the latter.

    `run` answers the lines that a session prints and what went wrong by itself; `mapped` is map, or
    one that makes several runs side by side.
    """
    right = outcomes.unfailing(session)
    faults = outcomes.faults_of(session)
    failed = met = 0
    for fault, (lines, wrong) in zip(faults, mapped(lambda it: outcome(run, session, it), faults)):
        if wrong:
            print(f"FAILED {name}, {outcomes.shown_fault(fault)}: {wrong}")
        failed += bool(wrong)
        met += lines != right
    passed = len(faults) - failed
    if not met and any(line.startswith("asked ") for line in right):
        print(f"FAILED {name}: no read or write failed")
        failed += 1
    return passed, failed
