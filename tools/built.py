#!/usr/bin/env python3
"""Of which sources a program is built, and what was built of these, for tools/play and tools/build.

tools/built.py CRATE: notes of which sources the program of this crate was proved and built.
"""
import hashlib
import os
import shutil
import sys
from pathlib import Path

ROOT = Path(__file__).resolve().parent.parent
RT = os.environ.get("RT", "rt")
# So many programs that were not proved are kept.
KEPT = 4


def crates_of(crate):
    """This crate and all of the repository below it, each with its line of crates.txt."""
    lines = [line.partition("#")[0].split() for line in (ROOT / "crates.txt").read_text().splitlines()]
    listed = {words[0].rstrip(":"): words for words in lines if words}
    found, to_come = {}, [crate]
    while to_come:
        name = to_come.pop()
        if name in listed and name not in found:
            found[name] = listed[name]
            to_come += listed[name][1:]
    return sorted(found.items())


def files_of(crate, folders):
    """The files in these folders of this crate and of all below it."""
    for name, _ in crates_of(crate):
        for folder in folders:
            yield from sorted(path for path in (ROOT / "crates" / name / folder).rglob("*") if path.is_file())


def key(crate, *folders):
    """What stands in these folders of the crate and of all below it, the lines of these in crates.txt, and the kit."""
    rt = Path(shutil.which(RT) or RT).resolve()
    kit = (str(rt), rt.stat().st_size, rt.stat().st_mtime_ns) if rt.exists() else ()
    told = hashlib.sha256(repr((kit, crates_of(crate))).encode())
    for path in files_of(crate, folders):
        text = path.read_bytes()
        told.update(f"{path.relative_to(ROOT)} {len(text)}\n".encode() + text)
    return told.hexdigest()[:32]


def out(crate):
    return ROOT / "crates" / crate / "out"


def note_proved(crate):
    (out(crate) / "proved-of").write_text(key(crate, "src", "specs") + "\n")


def is_proved(crate):
    """Whether the program that was proved is there, and was built of the sources as they are.

    A gate that built it has noted nothing; then no source may be newer.
    """
    program, noted = out(crate) / crate, out(crate) / "proved-of"
    if not os.access(program, os.X_OK):
        return False
    built = program.stat().st_mtime
    if noted.exists() and noted.stat().st_mtime >= built:
        return noted.read_text().strip() == key(crate, "src", "specs")
    sources = [ROOT / "crates.txt", *files_of(crate, ("src", "specs"))]
    if any(path.stat().st_mtime > built for path in sources):
        return False
    note_proved(crate)
    return True


def unproved(crate):
    """Where the program of these sources is kept that was compiled before any proof."""
    return out(crate) / "unproved" / key(crate, "src")


def keep(program, kept):
    """Keeps a program that was compiled before any proof, and the newest few of those that were kept."""
    kept.parent.mkdir(parents=True, exist_ok=True)
    others = sorted(kept.parent.iterdir(), key=lambda path: path.stat().st_mtime, reverse=True)
    for old in others[KEPT - 1:]:
        old.unlink()
    os.replace(program, kept)


if __name__ == "__main__":
    note_proved(sys.argv[1])
