"""Words that a guest of `redis_proxy` may say, and what other guests of the same nodes meet then, for tools/proxy-test."""
import socket

from live_cluster import HOST, PORTS, masters, slot_of
from proxy_guests import LISTEN, Guest

# With these behind a word it is sent; {} stands for a number, so that no key of one is another's.
SHAPES = ("", "a", "a b", "0 a", "1 a b", "a 0", "a 1 2", "yes", "sync", "on", "off", "0", "10", "{} {}", "block 0 streams a $")
# Further ones of words that do more behind a word of their own.
BEHIND = ("", "a", "0", "yes", "on", "1 2", "a b c", "timeout 1", "requirepass x", "maxclients 1", "push")
# What a server says to a word that it does not know.
UNKNOWN = b"-ERR unknown command 'nosuch', with args beginning with: 'a' 'b' \r\n"
WAIT = 0.05


def tree(guest):
    """The next reply, read."""
    line = guest.file.readline()
    kind, rest = line[:1], line[1:-2]
    if kind == b"$" and rest != b"-1":
        return guest.file.read(int(rest) + 2)[:-2].decode()
    if kind in (b"*", b"~") and rest != b"-1":
        return [tree(guest) for _ in range(int(rest))]
    return rest.decode()


def listed():
    """Each command that a node lists, and each subcommand, as two words."""
    node = Guest(PORTS[0])
    node.send("COMMAND")
    found = []
    for command in tree(node):
        found.append(command[0])
        found += [one[0].replace("|", " ") for one in (command[9] if len(command) > 9 else [])]
    return sorted(found)


def debugs():
    """The subcommands of DEBUG, which a node tells by its help alone."""
    node = Guest(PORTS[0])
    node.send("DEBUG HELP")
    return sorted({f"debug {line.split()[0]}" for line in tree(node) if line[:1].isupper() and line.split()[0].isupper()})


class Others:
    """Three guests of each node, one of them in RESP3, that read and write a key of theirs."""

    def __init__(self, port=LISTEN):
        self.guests = []
        for _, _, ranges in masters():
            key = next(f"own:{n}" for n in range(10000) if any(low <= slot_of(f"own:{n}") <= high for low, high in ranges))
            for number in range(3):
                guest = Guest(port, timeout=20)
                if number == 2:
                    guest.ask("HELLO 3")
                self.guests.append((guest, key))
        self.count = 0

    def wrong(self):
        """What one of them reads that it should not."""
        for guest, key in self.guests:
            self.count += 1
            text = str(self.count)
            said = guest.ask(f"SET {key} {text}"), guest.ask(f"GET {key}"), guest.ask("EVAL return(1) 0")
            if said != (b"+OK\r\n", b"$%d\r\n%s\r\n" % (len(text), text.encode()), b":1\r\n"):
                return said
        return None


def say(lines, port=LISTEN):
    """A guest says the lines and goes, once it has read something or waited."""
    guest = Guest(port, timeout=WAIT)
    try:
        guest.send(*lines)
        for _ in lines:
            guest.reply()
    except (OSError, ValueError):
        pass
    guest.close()


def read_all(text):
    """All that a guest reads that sends these bytes; None where its connection is not closed."""
    said = b""
    with socket.create_connection((HOST, LISTEN), timeout=5) as guest:
        guest.sendall(text)
        try:
            while piece := guest.recv(65536):
                said += piece
        except TimeoutError:
            return None
    return said


def mixed(word):
    """The word with letters of both cases."""
    return "".join(letter.upper() if place % 2 else letter for place, letter in enumerate(word))


def try_listed(checks):
    """Each command and each subcommand, with arguments of several shapes, also behind HELLO 3 and behind MULTI."""
    others, words = Others(), [*listed(), *debugs(), "post", "host:", "nosuch"]
    print(f"{len(words)} words are said in {len(SHAPES)} shapes and more")
    checks.see(len(words) > 400, f"a node lists only {len(words)} words")
    for word in words:
        shapes = BEHIND if " " in word else SHAPES
        for number, shape in enumerate(shapes):
            line = f"{(word, word.upper(), mixed(word))[number % 3]} {shape.format(number, number)}"
            say([line])
            say(["HELLO 3", line])
            say(["MULTI", line, "EXEC"])
        wrong = others.wrong()
        checks.see(not wrong, f"behind {word}: another guest reads {wrong}")
        if wrong:
            others = Others()
    checks.see(not Others().wrong(), "behind all words new guests read what they should not")


def try_named(checks):
    """Words of which users told, in the forms in which they came."""
    others = Others()
    say(["SCRIPT DEBUG YES", "EVAL return(1) 0"])
    say(["script debug sync", "EVAL return(1) 0"])
    say(["MULTI", "SCRIPT DEBUG YES", "EXEC"])
    checks.see(not others.wrong(), "SCRIPT DEBUG reaches the node")
    others.guests[0][0].ask("SET hacked 0")
    for text in (b"POST / HTTP/1.1\r\nHost: a\r\n\r\nSET hacked 1\r\n", b"GET / HTTP/1.1\r\nHost: a\r\n\r\nSET hacked 1\r\n",
                 b"*1\r\n$4\r\npOsT\r\n*3\r\n$3\r\nSET\r\n$6\r\nhacked\r\n$1\r\n1\r\n", b"*2\r\n$5\r\nhOsT:\r\n$1\r\na\r\nSET hacked 1\r\n",
                 b"MULTI\r\nPOST a\r\nEXEC\r\nSET hacked 1\r\n"):
        said = read_all(text)
        checks.see(said and b"words of HTTP" in said, f"{text[:20]} is answered {said}")
        checks.see(not others.wrong(), f"behind {text[:20]} another guest reads what it should not")
        checks.see(others.guests[0][0].ask("GET hacked") == b"$1\r\n0\r\n", f"what stands behind {text[:20]} is done")
    guest = Guest()
    checks.see(guest.ask("nosuch a b") == UNKNOWN, "a word that no node knows is not told so")
    guest.ask("XGROUP CREATE str{g} streams $ MKSTREAM")
    for line in ("XREADGROUP GROUP streams c BLOCK 0 STREAMS str{g} >", "XREAD BLOCK 0 BLOCK 0 STREAMS str{g} $"):
        say([line])
        checks.see(not others.wrong(), f"{line} holds the node's link up")
