"""What stands in the pages of the repository, for tools/pages, tools/files and tools/sockets.

A page is a file of Markdown: at the top, in docs/ or in the folder of a crate. A block between two lines of ``` is
known by the words behind the first of them:

    ```rust program NAME: CRATE CRATE ..    a whole program, with the crates on which it stands
    ```text printed                         what the program or session above it prints
    ```session                              a session, or a part of one
"""
import re
from collections import namedtuple

# `text` is what stands between the fences, and `line` the number of its first line.
Block = namedtuple("Block", "words text line")
Program = namedtuple("Program", "page name crates text line printed")

FENCE = re.compile(r"```(.*)")
PROGRAM = re.compile(r"rust program ([a-z][a-z0-9_]*): ([a-z0-9_ ]+)")


class Unreadable(Exception):
    """A page that is not as it has to be."""


def crates_in(root):
    """Each crate of crates.txt, in order, with all crates on which it stands."""
    lines = [line.partition("#")[0] for line in (root / "crates.txt").read_text().splitlines()]
    named = [line.partition(":") for line in lines if line.strip()]
    return {name.split()[0]: uses.split() for name, _, uses in named}


def pages_in(root):
    """The pages, each by its path from the top."""
    found = [path for where in ("*.md", "docs/*.md", "crates/*/*.md") for path in sorted(root.glob(where))]
    return {str(path.relative_to(root)): path.read_text() for path in found}


def blocks_in(page, text):
    """The fenced blocks of a page, in order."""
    found, begun = [], None
    for number, line in enumerate(text.splitlines(), 1):
        fence = FENCE.fullmatch(line)
        if fence and begun is None:
            begun = (fence[1].strip(), number, [])
        elif fence:
            words, first, lines = begun
            found.append(Block(words, "".join(f"{it}\n" for it in lines), first + 1))
            begun = None
        elif begun is not None:
            begun[2].append(line)
    if begun is not None:
        raise Unreadable(f"{page}:{begun[1]}: the block is not closed")
    return found


def printed_behind(blocks, place):
    """What the program or session at this place prints, where a block before the next one says it."""
    for block in blocks[place + 1:]:
        if block.words == "text printed":
            return block.text
        if block.words == "session" or PROGRAM.fullmatch(block.words):
            break
    return None


def programs_in(page, text):
    """The programs of a page."""
    blocks = blocks_in(page, text)
    for place, block in enumerate(blocks):
        head = PROGRAM.fullmatch(block.words)
        if head:
            printed = printed_behind(blocks, place)
            yield Program(page, head[1], head[2].split(), block.text, block.line, printed)
        elif block.words.startswith("rust program"):
            raise Unreadable(f"{page}:{block.line - 1}: a program has a name, a colon and its crates")


def sessions_in(page, text):
    """The sessions of a page, each with its line and what it prints."""
    blocks = blocks_in(page, text)
    for place, block in enumerate(blocks):
        if block.words == "session":
            yield block.line, block.text, printed_behind(blocks, place)
