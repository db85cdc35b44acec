"""Which edits that must fail are tried, in which order, and how long that takes, for tools/test.

`rt must-fail CRATE` tries the edits in crates/CRATE/must-fail in turn, and tells of them when the
last has ended. It proves the crate once, below the first of them, and needs the libraries below it.
So the edits of a crate are tried some at a time, and a run of them is begun only where its end is
reckoned to come in time: by the proof of the crate, where it was not proved yet, and its dearest
edit as seen so far. The few that take much longer than their crate's others have a cost each.
"""
import re
import subprocess
from collections import namedtuple

Edit = namedtuple("Edit", "crate name")

NAME = re.compile(r"[A-Za-z0-9_-][A-Za-z0-9_.-]*\.edit")
# How many commits count as new where there is no tag.
NEW_COMMITS = 10


def crates_of(root):
    """Each crate of the repository with the crates of the repository that it names."""
    named = {}
    for line in (root / "crates.txt").read_text().splitlines():
        name, colon, uses = line.partition("#")[0].partition(":")
        if colon:
            named[name.split()[0]] = uses.split()
    return {name: [use for use in uses if use in named] for name, uses in named.items()}


def below(crates, name):
    """The libraries below a crate, lowest first."""
    found = []
    for use in crates[name]:
        found += [it for it in [*below(crates, use), use] if it not in found]
    return found


def edits_of(root):
    """The edits of all crates, by crate and name, and the files among them that are none."""
    good, bad = [], []
    for folder in sorted((root / "crates").glob("*/must-fail")):
        for file in sorted(folder.iterdir()):
            if file.is_file() and NAME.fullmatch(file.name):
                good.append(Edit(folder.parent.name, file.name))
            elif file.suffix != ".md":
                bad.append(file.relative_to(root))
    return good, bad


def git(root, *words):
    """What git says, or nothing where it fails."""
    ran = subprocess.run(["git", "-C", root, *words], capture_output=True, text=True)
    return ran.stdout.strip() if ran.returncode == 0 else ""


def changed_crates(root):
    """The crates with a file that changed since the newest tag, or else in the last ten commits."""
    since = git(root, "describe", "--tags", "--abbrev=0")
    if not since:
        commits = git(root, "rev-list", f"--max-count={NEW_COMMITS + 1}", "HEAD").split()
        since = commits[-1] if commits else ""
    if not since:
        return set()
    files = git(root, "diff", "--name-only", since, "--", "crates").splitlines()
    files += git(root, "ls-files", "--others", "--exclude-standard", "crates").splitlines()
    return {file.split("/")[1] for file in files}


def ring_from(commit, edits):
    """The edits in their order, from the one that the commit's hash names round to the one before."""
    if not edits or not commit:
        return edits
    start = int(commit, 16) % len(edits)
    return edits[start:] + edits[:start]


def in_order(edits, changed, commit, costs):
    """The edits as they are to be tried: those of changed crates, cheapest first, then the others."""
    first = [edit for edit in edits if edit.crate in changed]
    first.sort(key=lambda edit: (costs.edit(edit), edit))
    return first + ring_from(commit, [edit for edit in edits if edit.crate not in changed])


class Costs:
    """Seconds that a crate's proof and its edits take, by one job."""

    # For a crate that no table names.
    UNKNOWN = (300.0, 60.0, 120.0)

    def __init__(self, file):
        self.crates, self.steps, self.dear = {}, {}, {}
        self.check, self.slowness = ("", 0.0), 1.0
        for line in file.read_text().splitlines():
            words = line.partition("#")[0].split()
            if not words:
                continue
            if words[0] == "crate":
                self.crates[words[1]] = tuple(map(float, words[2:5]))
            elif words[0] == "edit":
                self.dear[Edit(words[1], words[2])] = float(words[3])
            elif words[0] == "step":
                self.steps[words[1]] = tuple(map(float, words[2:4]))
            elif words[0] == "check":
                self.check = words[1], float(words[2])

    def proof(self, crate):
        return self.slowness * self.crates.get(crate, self.UNKNOWN)[0]

    def mean(self, crate):
        return self.slowness * self.crates.get(crate, self.UNKNOWN)[1]

    def dearest(self, crate):
        return self.slowness * self.crates.get(crate, self.UNKNOWN)[2]

    def edit(self, edit):
        return self.slowness * self.dear[edit] if edit in self.dear else self.dearest(edit.crate)

    def before_edits(self, crate, is_proved):
        """What a run takes beside its edits: the proof below the first."""
        return 0.0 if is_proved else self.proof(crate)

    def fitting(self, edits, most, seconds, is_proved):
        """Those of a crate's edits, at most so many, that can be tried in these seconds, and one check more."""
        crate, chosen = edits[0].crate, []
        rest = seconds - self.before_edits(crate, is_proved) - self.dearest(crate)
        for edit in edits:
            if len(chosen) < most and self.edit(edit) <= rest:
                chosen.append(edit)
                rest -= self.edit(edit)
        return chosen

    def saw_check(self, seconds):
        """Takes how long the check took by which machines are compared."""
        if self.check[1]:
            self.slowness = seconds / self.check[1]

    def saw_batch(self, batch, seconds, was_proved):
        """Where a run of edits took longer than reckoned, every further one is reckoned so."""
        reckoned = self.before_edits(batch[0].crate, was_proved) + sum(map(self.edit, batch))
        if seconds > reckoned:
            self.slowness *= seconds / reckoned


def outcomes(batch, said, status):
    """Whether each edit was refused, with what was said of it, and what else went wrong.

    `said` is all that `rt must-fail` printed of the crate. An edit that it does not name has failed.
    """
    found = {}
    for line in said.splitlines():
        named = re.match(r"rt: must-fail ([^/ ]+)/([^ :]+): (.*)", line)
        if named:
            found[Edit(named[1], named[2])] = named[3]
    each = []
    for edit in batch:
        text = found.get(edit, "nothing was said of it")
        each.append((edit, text.startswith("refused, as it must be"), text))
    other = ""
    if status and all(refused for _, refused, _ in each):
        other = f"rt must-fail ended with status {status}: {said.strip()[-300:]}"
    return each, other
