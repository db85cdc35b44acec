"""Guests of the program `redis_proxy`, and what is seen of them, for tools/proxy-test and the parts of it."""
import socket

from live_cluster import HOST

# One program, and several side by side.
LISTEN, SEVERAL = 17200, 17201
PROGRAMS = 3


class Guest:
    """A guest of the proxy, which reads RESP as far as it needs to."""

    def __init__(self, port=LISTEN, timeout=120):
        self.socket = socket.create_connection((HOST, port), timeout=timeout)
        self.file = self.socket.makefile("rb")

    def send(self, *lines):
        words = [line.split() for line in lines]
        self.socket.sendall(b"".join(
            b"*%d\r\n" % len(command) + b"".join(b"$%d\r\n%s\r\n" % (len(word), word.encode()) for word in command)
            for command in words
        ))

    def reply(self):
        """The bytes of the next reply."""
        line = self.file.readline()
        kind, count = line[:1], line[1:-2]
        if kind == b"$" and count != b"-1":
            return line + self.file.read(int(count) + 2)
        if kind in b"*%~>" and count not in (b"-1", b""):
            items = int(count) * (2 if kind == b"%" else 1)
            return line + b"".join(self.reply() for _ in range(items))
        return line

    def ask(self, line):
        self.send(line)
        return self.reply()

    def close(self):
        self.file.close()
        self.socket.close()


class Checks:
    def __init__(self):
        self.passed = self.failed = 0

    def see(self, holds, text):
        self.passed += bool(holds)
        self.failed += not holds
        if not holds:
            print("FAILED", text)
