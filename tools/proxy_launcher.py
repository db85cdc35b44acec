"""Tries tools/proxy, the launcher, for tools/proxy-test: what it says, its status, and that nothing of it stays."""
import os
import re
import select
import signal
import socket
import subprocess
import tempfile
import time
from contextlib import suppress

from live_cluster import HOST, PORTS, TOOLS, masters, wait_for

LISTEN = 17202
COUNT = 2
# Seconds: for a sentence, which may need both programs in C, for a start, and for an end.
QUICK, START, END = 30, 60, 20
# So late a program knows the slot map, which is later than the launcher waits before it says so.
LATE = 14
# The node that the launcher asks for the others.
ASKED = PORTS[-1]
OUTAGE = 8
# Lines of the log for an outage: of each program's bridge what failed, by a kind or two, and that the node answers.
MOST_LINES = 4 * COUNT
USAGE = "tools/proxy PROGRAM HOST PORT LISTEN [COUNT]"
BEGUN = f"proxy: one server at {HOST}:{LISTEN}\n"
LINE = re.compile(r"\d{4}-\d\d-\d\d \d\d:\d\d:\d\d (proxy|bridge): ")
KEYS = range(60)
READY = r"printf '\376\377\377\377\0\0\0\0'"
# Programs that the launcher may be given, by the name of their file.
SCRIPTS = {
    "unrunnable": "#!/no/such/interpreter\n",
    "late": f"#!/bin/sh\nsleep {LATE}\n{READY}\nexec cat\n",
    "silent": f"#!/bin/sh\n{READY}\nsleep 1\nexit 0\n",
}


class Launcher:
    """A launcher in a process group of its own."""

    # Those that were not ended yet.
    started = []

    def __init__(self, folder, *words):
        self.started.append(self)
        self.log = os.path.join(folder, "log")
        with open(self.log, "w") as log:
            self.process = subprocess.Popen(
                [os.path.join(TOOLS, "proxy"), *map(str, words)], stdout=subprocess.PIPE, stderr=log, text=True,
                start_new_session=True, env={**os.environ, "TMPDIR": folder},
            )

    def parts(self):
        """Its processes that have not ended, each with its words."""
        found = {}
        for name in filter(str.isdigit, os.listdir("/proc")):
            with suppress(OSError), open(f"/proc/{name}/stat") as stat, open(f"/proc/{name}/cmdline") as words:
                state, _, group = stat.read().rpartition(")")[2].split()[:3]
                if int(group) == self.process.pid and state not in "ZX":
                    found[int(name)] = words.read().split("\0")
        return found

    def part(self, name):
        """The process of a part, by the name of its program."""
        for process, words in self.parts().items():
            if os.path.basename(words[0]) == name:
                return process

    def begins(self):
        """Whether it says so, and that first."""
        ready, _, _ = select.select([self.process.stdout], [], [], START)
        return ready and self.process.stdout.readline() == BEGUN

    def status(self, seconds):
        """Its status, or nothing where it does not end."""
        with suppress(subprocess.TimeoutExpired):
            return self.process.wait(seconds)

    def said(self):
        with open(self.log) as log:
            return log.read()

    def kill(self):
        for process in self.parts():
            with suppress(OSError):
                os.kill(process, signal.SIGKILL)

    def end(self):
        """Ends it in any case, and answers whether nothing of it was left and the port is free."""
        gone = wait_for(END, lambda: not self.parts()) and is_free()
        self.kill()
        self.process.wait()
        self.process.stdout.close()
        self.started.remove(self)
        return gone


def is_free():
    with socket.socket() as one:
        one.setsockopt(socket.SOL_SOCKET, socket.SO_REUSEADDR, 1)
        with suppress(OSError):
            one.bind((HOST, LISTEN))
            return True


def try_usage(checks):
    for words, status, place in (((), 2, 1), (("program", HOST), 2, 1), (("--help",), 0, 0), (("-h",), 0, 0)):
        told = subprocess.run([os.path.join(TOOLS, "proxy"), *words], capture_output=True, text=True, timeout=QUICK)
        texts = (told.stdout, told.stderr)
        is_good = told.returncode == status and texts[place].startswith(USAGE) and not texts[1 - place]
        checks.see(is_good, f"tools/proxy {' '.join(words)}: status {told.returncode}, {texts}")


def refused(checks, folder, words, sentence):
    launcher = Launcher(folder, *words)
    status = launcher.status(QUICK)
    said, gone = launcher.said(), status is not None and not launcher.parts()
    is_told = said.count("\n") == 1 and LINE.match(said) and sentence in said
    launcher.kill()
    printed = launcher.process.stdout.read()
    launcher.end()
    text = f"tools/proxy {' '.join(map(str, words))}: status {status}, '{said[:300]}', '{printed}'"
    checks.see(status == 1 and is_told and not printed and gone, text)


def try_refusals(checks, folder, program):
    node = (HOST, ASKED)
    file = os.path.join(folder, "file")
    open(file, "w").close()
    for port in ("99999", "abc", "", "0", "-1"):
        refused(checks, folder, (program, *node, port), f"the port '{port}' is no number of 1 to 65535")
    refused(checks, folder, (program, HOST, "abc", LISTEN), "the node's port 'abc' is no number of 1 to 65535")
    for count in ("0", "65", "x", ""):
        refused(checks, folder, (program, *node, LISTEN, count), f"the count of programs '{count}' is no number of 1 to 64")
    for missing in ("/no/such/program", file, folder):
        refused(checks, folder, (missing, *node, LISTEN), f"the program '{missing}' is not there, or can not be run")
    unrunnable = os.path.join(folder, "unrunnable")
    refused(checks, folder, (unrunnable, *node, LISTEN), f"the program {unrunnable} can not be run: No such file")
    with socket.create_server((HOST, LISTEN)):
        refused(checks, folder, (program, *node, LISTEN, COUNT), f"the port {LISTEN} is taken")
    # (nobody takes connections at that port now)
    refused(checks, folder, (program, HOST, LISTEN, LISTEN), f"no server takes connections at {HOST}:{LISTEN}")


def answers_at_once():
    """Whether commands for all primaries are answered as soon as somebody asks."""
    asked = "".join(f"SET launch:{key} v\r\n" for key in KEYS) + "".join(f"GET launch:{key}\r\n" for key in KEYS)
    wanted = b"+OK\r\n" * len(KEYS) + b"$1\r\nv\r\n" * len(KEYS)
    with suppress(OSError), socket.create_connection((HOST, LISTEN), timeout=5) as guest, guest.makefile("rb") as replies:
        guest.sendall(asked.encode())
        return replies.read(len(wanted)) == wanted


def try_late(checks, folder):
    """A program that knows the slot map late."""
    launcher = Launcher(folder, os.path.join(folder, "late"), HOST, ASKED, LISTEN)
    begun = time.monotonic()
    is_late = launcher.begins() and time.monotonic() - begun > LATE
    checks.see(is_late, "a server is told before its program knows the slot map")
    said = launcher.said()
    is_told = said.count("\n") == 1 and LINE.match(said) and "no node tells the slot map yet" in said
    checks.see(is_told, f"a slot map is late: {said}")
    launcher.process.terminate()
    checks.see(launcher.status(END) == 143, "the launcher does not end when it is told to")
    checks.see(launcher.end(), "something is left of a launcher that was told to end")


def try_status_0(checks, folder):
    """A program that ends by itself, as if all were well."""
    launcher = Launcher(folder, os.path.join(folder, "silent"), HOST, ASKED, LISTEN)
    status, said = launcher.status(START), launcher.said()
    checks.see(status == 1 and "program 0 ended with status 0" in said, f"a program ended: status {status}, {said}")
    checks.see(launcher.end(), "something is left where a program ended")


def try_kill(checks, folder, program, name, sentence):
    """A part is killed, and all are gone."""
    launcher = Launcher(folder, program, HOST, ASKED, LISTEN, COUNT)
    checks.see(launcher.begins(), f"there is no server before {name} is killed: {launcher.said()}")
    checks.see(answers_at_once(), "the first commands of a guest are not answered at once")
    killed = launcher.process.pid if name == "proxy" else launcher.part(name)
    checks.see(killed and len(launcher.parts()) == 2 + 2 * COUNT, f"the launcher has other parts: {launcher.parts()}")
    if killed:
        os.kill(killed, signal.SIGKILL)
    status, wanted = launcher.status(END), -signal.SIGKILL if name == "proxy" else 1
    checks.see(status == wanted, f"{name} was killed, and the launcher has status {status}")
    checks.see(launcher.end(), f"{name} was killed, and something is left")
    said = launcher.said()
    checks.see(sentence in said and all(map(LINE.match, said.splitlines())), f"{name} was killed: {said}")


def ask_until(end):
    """A guest asks commands for all primaries, whatever is answered."""
    with socket.create_connection((HOST, LISTEN), timeout=60) as guest, guest.makefile("rb") as replies:
        while time.monotonic() < end:
            for key in KEYS:
                guest.sendall(b"INCR down:%d\r\n" % key)
                replies.readline()


def try_outage(checks, folder, program, servers):
    """A primary is down for some seconds, while a guest asks."""
    launcher = Launcher(folder, program, HOST, ASKED, LISTEN, COUNT)
    checks.see(launcher.begins(), f"there is no server: {launcher.said()}")
    port = next(port for port, _, _ in masters() if port != ASKED)
    servers[port].kill()
    servers[port].wait()
    with suppress(OSError):
        ask_until(time.monotonic() + OUTAGE)
    said = launcher.said()
    servers[port] = subprocess.Popen(servers[port].args, stdout=subprocess.DEVNULL, stderr=subprocess.DEVNULL)
    checks.see(f"bridge: {HOST}:{port}: " in said, f"a primary was killed, and the log does not tell: {said[:300]}")

    def is_told():
        with suppress(OSError):
            ask_until(time.monotonic() + 0.5)
        return f"{HOST}:{port}: it answers again" in launcher.said()

    checks.see(wait_for(START, is_told), "a primary is there again, and the log does not tell")
    lines = launcher.said().splitlines()
    checks.see(len(lines) <= MOST_LINES, f"a primary was down, and the log has {len(lines)} lines: {lines[:10]}")
    checks.see(all(map(LINE.match, lines)), f"a line of the log has no time: {lines[:10]}")
    launcher.process.terminate()
    checks.see(launcher.status(END) == 143 and launcher.end(), "something is left of a launcher that was told to end")


def try_all(checks, folder, program, servers):
    for name, text in SCRIPTS.items():
        with open(os.path.join(folder, name), "w") as file:
            file.write(text)
        os.chmod(file.name, 0o755)
    try_usage(checks)
    try_refusals(checks, folder, program)
    try_late(checks, folder)
    try_status_0(checks, folder)
    for name, sentence in (
        ("mux", "mux was ended by signal 9"),
        ("bridge", "was ended by signal 9"),
        (os.path.basename(program), "was ended by signal 9"),
        ("proxy", "who started it is gone"),
    ):
        try_kill(checks, folder, program, name, sentence)
    try_outage(checks, folder, program, servers)


def try_launcher(checks, program, servers):
    """All of that. It kills a primary of the cluster, and starts it again."""
    with tempfile.TemporaryDirectory() as folder:
        try:
            try_all(checks, folder, os.path.abspath(program), servers)
        finally:
            for launcher in Launcher.started:
                launcher.kill()
