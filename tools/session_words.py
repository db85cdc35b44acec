"""Sessions in readable lines, and back (docs/SESSIONS.md), for tools/session and tools/session-checks.

Texts are bytes; here each byte is one character, so that any file is read and written as it is.
"""
import re
import sys

# An answer of 512 levels is read in some 2,000 calls within one another.
sys.setrecursionlimit(10_000)
INDENT = "  "
QUOTED = r'"(?:[^"\\]|\\.)*"|' + r"'(?:[^'\\]|\\.)*'"
WORD = re.compile(rf"({QUOTED}|[^ \"'\r]+)(?: |$)")
ITEM = re.compile(rf"({QUOTED}|[^ \"',\r]+)(?:,|$)")
LIST = re.compile(rf"((?:{QUOTED}|[^ \"'\r]+)+)(?: |$)")
ESCAPES = {"\n": "n", "\r": "r", "\t": "t", "\a": "a", "\b": "b", '"': '"', "\\": "\\"}
NAMED = {"n": "\n", "r": "\r", "t": "\t", "a": "\a", "b": "\b"}
# How many words of a line stand as they are, behind its first; then words that are bytes, or lists of them.
WORDS = {"query": 1, "order": 1, "fan": 0, "at": 1, "cmd": 0, "skip": 0, "xrange": 0}
AS_THEY_ARE = ("fault", "readonly", "budget", "levels", "refresh", "pipe", "each", "multi", "run")


class Unreadable(Exception):
    """A line that can not be read, with its place from 0, and why."""

    def __init__(self, place, why):
        super().__init__(why)
        self.place = place


def quoted(data):
    """These bytes in double quotes, as redis-cli writes them."""
    return '"' + "".join(escaped(one) for one in data) + '"'


def escaped(one):
    if one in ESCAPES:
        return "\\" + ESCAPES[one]
    return one if " " <= one <= "~" else f"\\x{ord(one):02x}"


def word_of(data, plain=r"[!-~]+"):
    """These bytes as a word, in quotes where that is needed."""
    is_plain = re.fullmatch(plain, data) and not re.search(r"[\"'\\]", data)
    return data if is_plain else quoted(data)


def unquoted(word):
    """The bytes that a word stands for."""
    if word[0] == "'":
        return word[1:-1].replace("\\'", "'")
    if word[0] != '"':
        return word
    hexadecimal = r"\\x([0-9a-fA-F]{2})|\\(.)"
    return re.sub(hexadecimal, lambda it: chr(int(it[1], 16)) if it[1] else NAMED.get(it[2], it[2]), word[1:-1], flags=re.S)


def hex_of(data):
    return data.encode("latin-1").hex() or "-"


def bytes_of(word):
    """The bytes of a word of a session, or nothing where it is none."""
    if word == "-":
        return ""
    return bytes.fromhex(word).decode("latin-1") if re.fullmatch("([0-9a-fA-F]{2})+", word) else None


def cut(pattern, text, place):
    """All of a text, cut into what the pattern takes."""
    found, at = [], 0
    while at < len(text) or not found or text[at - 1] == " ":
        match = pattern.match(text, at)
        if not match:
            raise Unreadable(place, f"no word begins with `{text[at:at + 20]}`; words are separated by one space")
        found.append(match[1])
        at = match.end()
    return found


# ---- replies, as redis-cli prints them and as RESP

SHORT = {"$-1": "(nil)", "*0": "(empty array)", "%0": "(empty hash)", "~0": "(empty set)", ">0": "(empty push)",
         "#t": "(true)", "#f": "(false)"}
LONG = {short: resp for resp, short in SHORT.items()}
BEFORE = {":": "(integer) ", "-": "(error) ", ",": "(double) "}
MARKS = {"*": ")", "~": "~", "%": "#"}
NUMBERED = re.compile(r" *([0-9]+)([)~#]) ")
PAIR = re.compile(rf"({QUOTED}|.*?) => (.*)", re.S)


class Unframed(Exception):
    """The bytes at a place are no whole value of RESP."""


def line_at(data, at):
    end = data.find("\r\n", at)
    if end < 0:
        raise Unframed
    return data[at:end], end + 2


def frame(data, at):
    """The value at this place, as its first line and its parts or bytes, and where it ends."""
    line, at = line_at(data, at)
    kind, count = line[:1], line[1:]
    if kind not in tuple("+-:$*_,#(!=%~>|") or kind == "":
        raise Unframed
    if kind in "+-:_,#(":
        return (line, None), at
    if not re.fullmatch("-?[0-9]+", count):
        raise Unframed
    if kind in "$!=" and int(count) >= 0:
        end = at + int(count)
        if data[end:end + 2] != "\r\n":
            raise Unframed
        return (line, data[at:end]), end + 2
    parts = []
    for _ in range(max(0, int(count)) * (2 if kind in "%|" else 1) + (kind == "|")):
        part, at = frame(data, at)
        parts.append(part)
    return (line, parts), at


def printed(value):
    """The lines of a value as redis-cli prints it; nothing where it has another way, or none."""
    line, parts = value
    if line in SHORT:
        return [SHORT[line]]
    if line[0] == "$" and parts is not None:
        return [quoted(parts)]
    if line[0] == "+":
        return [line[1:]]
    if line[0] in BEFORE:
        return [BEFORE[line[0]] + line[1:]]
    return printed_list(MARKS.get(line[0]), parts) if isinstance(parts, list) and parts else None


def printed_list(mark, parts):
    items = [printed(part) for part in parts]
    if mark is None or None in items:
        return None
    if mark == "#":
        if any(len(name) > 1 for name in items[::2]):
            return None
        items = [[name[0] + " => " + value[0], *value[1:]] for name, value in zip(items[::2], items[1::2])]
    width, found = len(str(len(items))), []
    for number, item in enumerate(items, 1):
        found.append(f"{number:>{width}}{mark} {item[0]}")
        found += [" " * (width + 2) + line for line in item[1:]]
    return found


def replies_of(data):
    """The lines for these bytes: of each reply as redis-cli prints it, or else as RESP in quotes."""
    found, at = [], 0
    while at < len(data):
        try:
            value, end = frame(data, at)
            lines = printed(value)
        except (Unframed, RecursionError):
            end, lines = len(data), None
        found += lines if lines and reads_back(lines, data[at:end]) else ["resp " + quoted(data[at:end])]
        at = end
    return [INDENT + line for line in found]


def reads_back(lines, data):
    """Whether these lines say just this one reply."""
    try:
        return not any(set(line) & set("\r\n") for line in lines) and Replies(lines, 0).all() == data
    except Unreadable:
        return False


class Replies:
    """Reads lines of replies, of which the first stands at this place of its text."""

    def __init__(self, lines, place):
        self.lines, self.place, self.at = lines, place, 0

    def fail(self, why):
        raise Unreadable(self.place + min(self.at, len(self.lines) - 1), why)

    def all(self):
        found = ""
        while self.at < len(self.lines):
            line = self.lines[self.at]
            if line.startswith("resp "):
                found += self.in_quotes(line[len("resp "):])
                self.at += 1
            else:
                found += self.value(line, 0)
        return found

    def in_quotes(self, text):
        if not re.fullmatch(QUOTED, text, re.S):
            self.fail(f"`{text}` is not in quotes, or a quote in it has no backslash")
        return unquoted(text)

    def value(self, text, margin):
        """The RESP of the value that begins with this text, and whose further items stand at the margin."""
        numbered = NUMBERED.match(text)
        if numbered and int(numbered[1]) == 1:
            return self.items(text, margin, numbered[2])
        self.at += 1
        return self.one(text)

    def one(self, text):
        """A value without items."""
        if text[:1] in ('"', "'"):
            data = self.in_quotes(text)
            return f"${len(data)}\r\n{data}\r\n"
        if text in LONG:
            return LONG[text] + "\r\n"
        for kind, begin in BEFORE.items():
            if text.startswith(begin):
                return kind + text[len(begin):] + "\r\n"
        if not text or text[0] in " (" or NUMBERED.match(text) or "\r" in text:
            self.at -= 1
            self.fail(f"`{text}` is no reply as redis-cli prints one; any bytes can stand as `resp \"..\"`")
        return "+" + text + "\r\n"

    def items(self, text, margin, mark):
        kind = next(kind for kind, sign in MARKS.items() if sign == mark)
        found, count = "", 0
        while True:
            count += 1
            numbered = NUMBERED.match(text)
            inner = margin + numbered.end()
            text = text[numbered.end():]
            if mark == "#":
                pair = PAIR.fullmatch(text)
                if not pair:
                    self.fail("a pair of a hash is `KEY => VALUE`")
                found += self.one(pair[1])
                text = pair[2]
            found += self.value(text, inner)
            text = self.next_item(margin, mark, count + 1)
            if text is None:
                return f"{kind}{count}\r\n{found}"

    def next_item(self, margin, mark, number):
        """The next line from the margin on, where it is this item of the same list."""
        line = self.lines[self.at] if self.at < len(self.lines) else ""
        numbered = NUMBERED.match(line[margin:])
        is_next = numbered and int(numbered[1]) == number and numbered[2] == mark
        return line[margin:] if is_next and not line[:margin].strip(" ") else None


# ---- lines

def session_of(text):
    """The session that readable lines stand for, and for each of its lines the place of its first one."""
    lines, found, places, at = text.split("\n"), [], [], 0
    while at < len(lines):
        end = at + 1
        if lines[at].startswith("node "):
            while end < len(lines) and lines[end].startswith(INDENT):
                end += 1
        found.append(session_line(lines[at], lines[at + 1:end], at))
        places.append(at)
        at = end
    return "\n".join(found), places


def session_line(line, replies, place):
    """The line of the session that this one stands for, with the replies below it."""
    word, _, rest = line.partition(" ")
    if line == "" or line.startswith("#"):
        return line
    if word == "raw":
        return rest
    if line.endswith("\r"):
        raise Unreadable(place, "it ends in CR LF; lines end in LF alone")
    if word in AS_THEY_ARE:
        return line
    if word == "node":
        if len(line.split(" ")) != 3:
            raise Unreadable(place, "`node ADDR PIECE` is wanted; what comes from it stands below, two spaces in")
        data = Replies([reply[len(INDENT):] for reply in replies], place + 1).all()
        return f"{line} {hex_of(data)}"
    if word == "xread":
        lists = cut(LIST, rest, place)
        return " ".join([word, *(",".join(hex_of(unquoted(it)) for it in cut(ITEM, one, place)) for one in lists)])
    if word not in WORDS:
        raise Unreadable(place, f"no line begins with `{word}`; replies stand two spaces in, below their node")
    words = cut(WORD, rest, place)
    before = WORDS[word]
    return " ".join([word, *words[:before], *(hex_of(unquoted(it)) for it in words[before:])])


def words_of(text):
    """The readable lines of a session. A line that is no session's, or spelled in another way, stands behind `raw`."""
    return "\n".join(line for one in text.split("\n") for line in lines_of(one))


def lines_of(line):
    try:
        found = readable(line)
        if found and session_line(found[0], found[1:], 0) == line:
            return found
    except Unreadable:
        pass
    return ["raw " + line]


def readable(line):
    """The readable lines of one of a session, where it has such."""
    word, *args = line.split(" ")
    if line == "" or line.startswith("#") or word in AS_THEY_ARE:
        return [line]
    before = {"node": 2, "xread": 0}.get(word, WORDS.get(word))
    if before is None:
        return None
    listed = [[bytes_of(it) for it in one.split(",")] for one in args[before:]]
    if any(it is None for one in listed for it in one):
        return None
    if word == "node":
        return [" ".join([word, *args[:2]]), *replies_of(listed[0][0])] if len(args) == 3 else None
    plain = r"[!-+.-~-]+" if word == "xread" else r"[!-~]+"
    return [" ".join([word, *args[:before], *(",".join(word_of(it, plain) for it in one) for one in listed)])]


# ---- what `play` prints

ONE_WORD = ("bulk", "simple", "double", "big", "error")


def answers_of(text):
    """The lines that `play` printed, with the bytes in them as words."""
    return "\n".join(printed_line(line, place) for place, line in enumerate(text.split("\n")))


def printed_line(line, place):
    words = iter(line.split(" "))
    try:
        word = next(words)
        if line.startswith("ok each "):
            found = [word, next(words), next(words)]
        elif line.startswith("each ok "):
            found = [word, next(words), *answer(words)]
        elif word == "ok" and line != "ok":
            found = [word, *answer(words)]
        elif word == "asked":
            found = [word, next(words), next(words), *(data(it) for it in words)]
        elif word == "sent":
            found = [word, next(words), data(next(words))]
        elif word in ("", "ok", "err", "fault") or line.startswith("each err "):
            return line
        else:
            raise Unreadable(place, f"`play` prints no line that begins with `{word}`")
        left = next(words, None)
    except StopIteration:
        raise Unreadable(place, "a word is missing") from None
    except (KeyError, ValueError) as error:
        raise Unreadable(place, f"a word that can not be read: {error}") from None
    if left is not None:
        raise Unreadable(place, f"`{left}` is a word too many")
    return " ".join(found)


def data(word):
    """A word of bytes, readable."""
    found = bytes_of(word)
    if found is None:
        raise ValueError(word)
    return word_of(found)


def answer(words):
    """The words of an answer."""
    form = next(words)
    if form in ("nil", "okay"):
        return [form]
    if form in ("int", "bool"):
        return [form, next(words)]
    if form in ONE_WORD:
        return [form, data(next(words))]
    if form == "verbatim":
        return [form, data(next(words)), data(next(words))]
    before = [data(next(words))] if form == "push" else []
    count = next(words)
    return [form, *before, count, *(it for part in parts_of(form, int(count), words) for it in part)]


def parts_of(form, count, words):
    if form == "ids":
        return [entry(words) for _ in range(count)]
    if form == "keys":
        return [[next(words), data(next(words)), *answer(words)] for _ in range(count)]
    parts = {"array": count, "set": count, "push": count, "map": 2 * count, "attribute": 2 * count + 1}[form]
    return [answer(words) for _ in range(parts)]


def entry(words):
    """The words of an entry of a stream."""
    found = [next(words), data(next(words)), next(words)]
    for _ in range(int(found[-1])):
        found += [data(next(words)), *answer(words)]
    return [*found, next(words), next(words)]
