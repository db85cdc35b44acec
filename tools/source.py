"""What stands in the files of the crates, for tools/contracts and tools/definitions.

`Source` reads a file of src/: its functions with their clauses, its traits, and the ghost members of
traits and impls. `Specs` reads the files of specs/: which words each defines. Neither knows the whole
language; what they can not read is an error, and never passed over.
"""
import re
from collections import namedtuple

# Crates of tests, of stubs for them, of examples and benches, and the program `live`, have no contracts.
LEFT_OUT = re.compile(r"\w+_tests|\w+_stubs|\w+_bench|example_\w+|redis_live|redis_proxy|node_files")

TOKEN = re.compile(
    r"""(?P<blank>\s+|//[^\n]*|/\*.*?\*/)
    |(?P<text>b?r(?P<marks>\#*)".*?"(?P=marks)|b?"(?:\\.|[^"\\])*"|b?'(?:\\[^'\n]+|[^'\\\n])')
    |(?P<life>'[^\W\d]\w*)
    |(?P<word>[^\W\d]\w*|«\w+»)
    |(?P<number>\d[\w.]*)
    |(?P<sign>->|=>|::|.)""",
    re.S | re.X,
)
CLOSING = {"{": "}", "(": ")", "[": "]"}
# Words that may stand before `fn`, and those that begin a clause of a contract.
BEFORE_FN = {"final", "const", "unsafe"}
CLAUSES = ("ensures", "requires", "ghost")

Token = namedtuple("Token", "kind text line")
# What a `ghost use` brings: the path of its file, the name there, or none for the file as a whole, and here.
Use = namedtuple("Use", "path name alias")
# A clause of a contract, or a ghost member: its sort, its name and its tokens.
Clause = namedtuple("Clause", "sort name tokens")
# The trait or impl around an item: of which trait, if any, and for which type.
Holder = namedtuple("Holder", "is_impl trait owner")
# `uses` are all names that its clauses may use, and `members` the ghost members beside a method.
Function = namedtuple("Function", "name line is_pub answers clauses holder uses members")
Member = namedtuple("Member", "holder clause uses")


class Unreadable(Exception):
    """A place in a file that these readers do not understand."""


def tokens_of(text):
    """The tokens of a file of src/, without blanks and comments."""
    found, line = [], 1
    for match in TOKEN.finditer(text):
        if match.lastgroup != "blank" and match["blank"] is None:
            kind = next(it for it in ("text", "life", "word", "number", "sign") if match[it])
            found.append(Token(kind, match[0], line))
        line += match[0].count("\n")
    return found


def sources_in(root):
    """The files of src/ of each crate whose public functions have contracts."""
    crates = sorted(path for path in (root / "crates").iterdir() if not LEFT_OUT.fullmatch(path.name))
    return [Source(path) for crate in crates for path in sorted((crate / "src").rglob("*.rt"))]


def traits_in(sources):
    """Each trait of these files, and whether it is public."""
    return {name: is_public for source in sources for name, is_public in source.traits.items()}


def is_public(is_pub, holder, traits):
    """Whether an item is public, which is `pub` or not, and stands in this trait or impl."""
    if holder is None or holder.trait is None:
        return is_pub
    # Traits of std are public.
    return traits.get(holder.trait, True)


class Source:
    """A file of src/: `functions`, `traits`, and `members`, the ghost members outside of functions."""

    def __init__(self, path):
        self.path, self.tokens, self.at = path, tokens_of(path.read_text()), 0
        self.functions, self.traits, self.members = [], {}, []
        self.items(None)

    def fail(self, why):
        line = self.tokens[min(self.at, len(self.tokens) - 1)].line
        raise Unreadable(f"{self.path}:{line}: {why}")

    def here(self, ahead=0):
        at = self.at + ahead
        return self.tokens[at].text if at < len(self.tokens) else ""

    def take(self, text=None):
        token = self.tokens[self.at]
        if text is not None and token.text != text:
            self.fail(f"{text!r} was expected in place of {token.text!r}")
        self.at += 1
        return token

    def group(self):
        """The tokens between the bracket here and its closing one."""
        start, open_ones = self.at + 1, []
        while True:
            if self.at >= len(self.tokens):
                self.fail("a bracket is not closed")
            text = self.take().text
            if text in CLOSING:
                open_ones.append(CLOSING[text])
            elif open_ones and text == open_ones[-1]:
                open_ones.pop()
            if not open_ones:
                return self.tokens[start:self.at - 1]

    def until(self, *ends):
        """The tokens up to one of these, which is not within brackets and is not taken."""
        start = self.at
        while self.here() not in ends:
            if self.at >= len(self.tokens):
                self.fail(f"none of {ends} follows")
            self.group() if self.here() in CLOSING else self.take()
        return self.tokens[start:self.at]

    def items(self, holder):
        """The items up to the closing brace or the end; `holder` is the trait or impl around them."""
        functions, inner = len(self.functions), len(self.members)
        uses, members = [], []
        while self.at < len(self.tokens) and self.here() != "}":
            self.item(holder, uses, members)
        # What a block uses holds in all of it, wherever it stands, but where an inner one has the name.
        for place, function in enumerate(self.functions[functions:], functions):
            beside = members if function.members is None else function.members
            self.functions[place] = function._replace(uses=function.uses + uses, members=beside)
        for place, member in enumerate(self.members[inner:], inner):
            self.members[place] = member._replace(uses=member.uses + uses)
        self.members += [Member(holder, clause, uses) for clause in members]

    def item(self, holder, uses, members):
        is_test, is_pub = self.is_test(), self.is_pub()
        before = len(self.functions), dict(self.traits), len(self.members)
        while self.here() in BEFORE_FN and self.here(1) in BEFORE_FN | {"fn"}:
            self.take()
        kind = self.here()
        if kind == "fn":
            self.function(is_pub, holder)
        elif kind == "ghost":
            self.ghost(uses, members)
        elif kind in ("trait", "impl"):
            self.block(kind, is_pub)
        elif kind == "mod":
            self.module()
        elif kind in ("use", "type", "const", "static"):
            self.until(";")
            self.take(";")
        elif kind in ("struct", "enum", "union"):
            self.until(";", "{")
            self.body()
        elif self.here(1) == "!":
            self.until("{", "(")
            self.body()
        else:
            self.fail(f"no item begins with {kind!r}")
        if is_test:
            del self.functions[before[0]:], self.members[before[2]:]
            self.traits = before[1]

    def is_test(self):
        """Takes the attributes, and answers whether they are those of a test."""
        found = False
        while self.here() == "#":
            self.take()
            if self.here() == "!":
                self.take()
            words = [token.text for token in self.group()]
            found |= words == ["test"] or words[:1] == ["cfg"] and "test" in words
        return found

    def is_pub(self):
        """Takes the visibility, and answers whether it is `pub` for all."""
        if self.here() != "pub":
            return False
        self.take()
        if self.here() != "(":
            return True
        self.group()
        return False

    def body(self):
        """Takes what stands between braces, and the semicolon behind or in place of it."""
        if self.here() in CLOSING:
            self.group()
        if self.here() == ";":
            self.take()

    def module(self):
        self.take("mod")
        self.take()
        if self.here() == ";":
            self.take()
            return
        self.take("{")
        self.items(None)
        self.take("}")

    def block(self, kind, is_pub):
        """A trait or an impl."""
        self.take(kind)
        self.angles()
        # `where` and its bounds are no part of the type's name.
        head = [token.text for token in self.until("{", "where")]
        self.until("{")
        trait, owner = None, "".join(spaced(head))
        if kind == "trait":
            trait, owner = head[0], head[0]
            self.traits[trait] = is_pub
        elif "for" in head:
            at = head.index("for")
            path = head[:head.index("<")] if "<" in head[:at] else head[:at]
            trait, owner = path[-1], "".join(spaced(head[at + 1:]))
        self.take("{")
        self.items(Holder(kind == "impl", trait, owner))
        self.take("}")

    def angles(self):
        """Takes the type parameters, where there are any."""
        depth = 0
        while depth or self.here() == "<":
            text = self.take().text
            depth += (text == "<") - (text == ">")

    def function(self, is_pub, holder):
        self.take("fn")
        name, line, clauses = self.here(), self.tokens[self.at].line, []
        self.take()
        self.angles()
        self.group()
        answers = self.here() == "->"
        self.until(*CLAUSES, "{", ";")
        while self.here() in CLAUSES:
            sort = self.take().text
            self.until("{")
            clauses.append(Clause(sort, "", self.group()))
            self.until(*CLAUSES, "{", ";")
        self.body()
        self.functions.append(Function(name, line, is_pub, answers, clauses, holder, [], None))

    def ghost(self, uses, members):
        """Takes a `ghost use`, or a ghost member."""
        self.take("ghost")
        if self.here() == "use":
            self.take()
            uses += uses_in("".join(spaced([token.text for token in self.until(";")])))
        else:
            name, start = self.take().text, self.at
            self.until(";")
            members.append(Clause("ghost", name, self.tokens[start:self.at]))
        self.take(";")


def spaced(texts):
    """These texts with a space between two words."""
    for before, text in zip(["", *texts], texts):
        yield " " + text if before[-1:].isalnum() and text[:1].isalnum() else text


def uses_in(text):
    """The names that a `ghost use` brings, each with the path of its file and its name here."""
    path, brace, names = text.partition(".{")
    if not brace:
        path, _, alias = path.partition(" as ")
        return [Use(path, "", alias or path.split(".")[-1])]
    found = []
    for one in names.rstrip("}").split(","):
        name, _, alias = one.strip().partition(" as ")
        found.append(Use(path, name, alias or name))
    return found


DEFINED = re.compile(
    r"(?:(?:abbrev|unfolding|unfoldable) )*(?:pub )?(?:(?:record|data) )?([^\W\d][\w']*)(?= *[:({])"
)
MUTUAL = re.compile(r"(?:\w+ )*mutual")
CONSTRUCTOR = re.compile(r" {2}([^\W\d][\w']*) *:")


# A word that a file of specs/ defines: the comment right above it, and the type whose constructor it is, if it is one.
Word = namedtuple("Word", "name comment of")


def words_of(text):
    """The words that a file of specs/ defines, by name and in its order, the constructors of its types among them."""
    found, indent, data, told = {}, "", "", []
    for line in text.splitlines():
        if line[:1].strip():
            indent = "  " if MUTUAL.fullmatch(line) else ""
        if line.strip().startswith("--"):
            told = [] if line.strip().startswith("-- ----") else [*told, line.strip()[2:].strip()]
            continue
        if not line.startswith(indent) or not line.strip():
            told = []
            continue
        line = line.removeprefix(indent)
        named, comment = DEFINED.match(line), " ".join(told)
        if named:
            found.setdefault(named[1], Word(named[1], comment, ""))
            data = named[1] if line.partition(named[1])[0].endswith("data ") else ""
        elif data and CONSTRUCTOR.match(line):
            name = CONSTRUCTOR.match(line)[1]
            found.setdefault(name, Word(name, comment, data))
        told = []
    return found


def head_of(text):
    """The first sentences of a file of specs/, which tell what it is about, without its sources."""
    told = []
    for line in text.splitlines():
        if not line.startswith("--"):
            break
        told.append(line[2:].strip())
    return re.split(r"(?<=\.) Sources?:|^Sources?:", " ".join(" ".join(told).split()))[0].strip()


class Specs:
    """The files of specs/ of every crate, by crate and name, each with the words that it defines.

    `heads` are what they are about, and `names` all names that stand in them, those of files too.
    """

    def __init__(self, root):
        self.files, self.heads, self.names = {}, {}, set()
        for path in sorted((root / "crates").glob("*/specs/**/*.antt")):
            crate = path.relative_to(root / "crates").parts[0]
            name = path.relative_to(root / "crates" / crate / "specs").with_suffix("").as_posix()
            text = path.read_text()
            self.files[crate, name] = words_of(text)
            self.heads[crate, name] = head_of(text)
            self.names |= {*name.split("/"), *re.findall(r"[^\W\d][\w']*", text)}

    def home(self, use):
        """The crate and the file that define what a `ghost use` brings, or nothing."""
        crate, _, names = use.path.removeprefix("Rattle.").partition(".specs.")
        names = names.split(".")
        # A path may end in a type of the file, whose constructors it names.
        for length in (len(names), len(names) - 1):
            file = crate, "/".join(names[:length])
            if use.name in self.files.get(file, ()):
                return file
        return None
