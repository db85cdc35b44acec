"""What guests of `redis_proxy` read while a primary fails or hands over, for tools/proxy-test. No slot is moved meanwhile."""
import signal
import threading
import time

from live_cluster import PORTS, cli, hand_over_from, has_recovered, is_replica, masters, revive, wait_for
from proxy_guests import LISTEN, SEVERAL, Guest

KEYS = [f"kept:{number}" for number in range(60)]
# So many seconds behind the cluster's own recovery all has to be served.
SOON = 1.0


def wrong_answers(guest):
    """What a guest reads otherwise than one server would answer: of the keys, of their number, and of FLUSHALL."""
    wrong = {}
    for key in KEYS:
        said = guest.ask(f"SET {key} {key}"), guest.ask(f"GET {key}")
        if said != (b"+OK\r\n", b"$%d\r\n%s\r\n" % (len(key), key.encode())):
            wrong[key] = said
    for line, reply in (("DBSIZE", b":60\r\n"), ("FLUSHALL", b"+OK\r\n"), ("DBSIZE", b":0\r\n")):
        said = guest.ask(line)
        if said != reply:
            wrong[line] = said
    if not guest.ask("KEYS *").startswith(b"*0"):
        wrong["KEYS"] = b"keys are left"
    return wrong


class Asking(threading.Thread):
    """A guest that asks for each key in turn until it is told to end."""

    def __init__(self, port, ended):
        super().__init__()
        self.port, self.ended = port, ended

    def run(self):
        guest = Guest(self.port)
        while not self.ended.wait(0.005):
            for key in KEYS:
                guest.ask(f"GET {key}")
        guest.close()


def try_failover(checks, servers):
    """A primary is killed: behind its replica's promotion each of its slots is served within a second, by a proxy that was asked all the
    time, and by one that was not."""
    guests = {"asked all the time": Guest(LISTEN), "idle": Guest(SEVERAL)}
    for name, guest in guests.items():
        guest.ask("FLUSHALL")
        checks.see(not wrong_answers(guest), f"the proxy that is to be {name} serves no whole cluster")
    dead = masters()[1][0]
    live = [port for port in PORTS if port != dead]
    wait_for(10, lambda: cli(dead, "wait", "1", "500") == "1\n")
    ended = threading.Event()
    asking = Asking(LISTEN, ended)
    asking.start()
    servers[dead].send_signal(signal.SIGKILL)
    servers[dead].wait()
    checks.see(wait_for(60, lambda: has_recovered(dead, live)), "no replica took the place of the primary")
    begun = time.monotonic()
    wrong = dict.fromkeys(guests, True)
    while any(wrong.values()) and time.monotonic() < begun + 20:
        wrong = {name: wrong_answers(guest) if wrong[name] else {} for name, guest in guests.items()}
    taken = time.monotonic() - begun
    print(f"a primary was killed: all was served {taken:.2f} s behind the cluster's own recovery")
    ended.set()
    asking.join()
    for name in guests:
        checks.see(not wrong[name], f"the proxy that is {name} answers {wrong[name]}")
    checks.see(taken < SOON, f"all was served only {taken:.1f} s behind the cluster's own recovery")
    checks.see(revive(servers, dead), "the primary that was killed does not come back")


def try_planned_failover(checks):
    """A primary hands its slots to its replica while the proxy is idle: the second FLUSHALL at the latest is right."""
    guest = Guest(LISTEN)
    guest.ask("FLUSHALL")
    old = masters()[0][0]
    checks.see(hand_over_from(old), "the replica does not take over")
    said = [guest.ask("FLUSHALL") for _ in range(2)]
    checks.see(said[1] == b"+OK\r\n", f"FLUSHALL behind a planned failover: {said}")
    checks.see(not wrong_answers(guest), "behind a planned failover the proxy serves no whole cluster")
    checks.see(wait_for(20, lambda: is_replica(old)), "the old primary does not become a replica")
