"""A Redis Cluster of six on this machine, clients of it, and slots that move, for tools/live-test and live-clients."""
import binascii
import os
import re
import shutil
import subprocess
import sys
import time
from contextlib import suppress

HOST = "127.0.0.1"
PORTS = range(17100, 17106)
NOTES = ("(no link", "(map from", "-> Redirected")
TOOLS = os.path.dirname(os.path.abspath(__file__))
NAME = os.path.basename(sys.argv[0])


def need_programs():
    for needed in ("redis-server", "redis-cli"):
        if not shutil.which(needed):
            sys.exit(f"{NAME}: {needed} is not here (Debian: apt-get install redis-server redis-tools)")


def cli(port, *words):
    command = ["redis-cli", "-h", HOST, "-p", str(port), *words]
    return subprocess.run(command, capture_output=True, text=True).stdout


def wait_for(seconds, test):
    """Whether the test holds within so many seconds."""
    end = time.monotonic() + seconds
    while time.monotonic() < end:
        if test():
            return True
        time.sleep(0.1)
    return False


def start_cluster(folder, timeout=2000, more=""):
    """Three masters and a replica of each; one that is silent for `timeout` milliseconds is taken for dead. `more` are
    further options of each server."""
    servers = {}
    for port in PORTS:
        own = os.path.join(folder, str(port))
        os.mkdir(own)
        options = f"--port {port} --bind {HOST} --dir {own} --cluster-enabled yes --cluster-node-timeout {timeout}"
        options += f" --appendonly no {more}"
        words = ["redis-server", *options.split(), "--save", ""]
        servers[port] = subprocess.Popen(words, stdout=subprocess.DEVNULL, stderr=subprocess.DEVNULL)
    if not wait_for(20, lambda: all(cli(port, "ping") == "PONG\n" for port in PORTS)):
        end_cluster(servers, folder)
        sys.exit(f"{NAME}: the servers do not start")
    nodes = [f"{HOST}:{port}" for port in PORTS]
    cli(PORTS[0], "--cluster", "create", *nodes, "--cluster-replicas", "1", "--cluster-yes")
    if not wait_for(30, lambda: all("cluster_state:ok" in cli(port, "cluster", "info") for port in PORTS)):
        end_cluster(servers, folder)
        sys.exit(f"{NAME}: the cluster does not form")
    return servers


def end_cluster(servers, folder):
    for server in servers.values():
        server.kill()
        server.wait()
    shutil.rmtree(folder)


class Client:
    """A client that takes a command a line and answers it in lines."""

    def __init__(self, command):
        self.process = subprocess.Popen(command, stdin=subprocess.PIPE, stdout=subprocess.PIPE, text=True)

    def send(self, line):
        self.process.stdin.write(line + "\n")
        self.process.stdin.flush()

    def answer(self):
        while True:
            line = self.process.stdout.readline()
            if not line or not line.startswith(NOTES):
                return line.rstrip("\n")

    def ask(self, line):
        self.send(line)
        return self.answer()

    def end(self):
        with suppress(BrokenPipeError):
            self.process.stdin.close()
        self.process.stdout.read()
        self.process.wait()


def live(program):
    return [os.path.join(TOOLS, "live"), program, HOST, str(PORTS[0])]


def redis_cli():
    return ["redis-cli", "-h", HOST, "-p", str(PORTS[0]), "-c", "--no-raw"]


def slot_of(key):
    """The slot of a key, which is that of what stands in its first braces, where something does."""
    tag = key.partition("{")[2].partition("}")
    return binascii.crc_hqx((tag[0] if tag[0] and tag[1] else key).encode(), 0) % 16384


def masters():
    """The masters with slots: port, id, and the ranges of slots."""
    found = []
    told = next(filter(None, (cli(port, "cluster", "nodes") for port in reversed(PORTS))), "")
    for line in told.splitlines():
        words = line.split()
        if "master" in words[2] and "fail" not in words[2] and len(words) > 8:
            ranges = [word.split("-") for word in words[8:] if not word.startswith("[")]
            port = int(words[1].split("@")[0].split(":")[1])
            found.append((port, words[0], [(int(r[0]), int(r[-1])) for r in ranges]))
    return found


def has_recovered(dead, ports):
    """Whether all slots have a primary again in place of the dead one, as all of these nodes see it."""
    found = [port for port, _, _ in masters()]
    return len(found) == 3 and dead not in found and all("cluster_state:ok" in cli(port, "cluster", "info") for port in ports)


def is_replica(port):
    """Whether a node has its primary's keys."""
    told = cli(port, "info", "replication")
    return "role:slave" in told and "master_link_status:up" in told


def revive(servers, port):
    """Whether a node that was killed comes back as a replica."""
    servers[port].wait()
    servers[port] = subprocess.Popen(servers[port].args, stdout=subprocess.DEVNULL, stderr=subprocess.DEVNULL)
    return wait_for(30, lambda: is_replica(port))


def hand_over_from(port):
    """Whether the replica of a primary took its place when it was asked to, as all nodes see it."""
    replicas = re.findall(rf"^\S+ {HOST}:(\d+)@\S+ slave ", cli(port, "cluster", "nodes"), re.M)
    own = [replica for replica in replicas if f"master_port:{port}\n" in cli(replica, "info", "replication")]
    return bool(own) and cli(own[0], "cluster", "failover") == "OK\n" and wait_for(20, lambda: has_recovered(port, PORTS))


def move_slots(ended, count):
    """Moves slots from master to master, `count` at a time, until it is told to end, and prints how often it did. They
    are the lowest slots of a master, so after the first turns it is always the lowest of all that move. A turn before
    which the nodes do not yet agree on the last one is tried again."""
    turns = 0
    while not ended.is_set():
        ids = [identity for _, identity, _ in masters()]
        if len(ids) < 3:
            time.sleep(0.1)
            continue
        source, target = ids[turns % 3], ids[(turns + 1) % 3]
        options = f"--cluster-from {source} --cluster-to {target} --cluster-slots {count} --cluster-pipeline 1"
        words = ["redis-cli", "--cluster", "reshard", f"{HOST}:{PORTS[0]}", *options.split(), "--cluster-yes"]
        turns += subprocess.run(words, stdout=subprocess.DEVNULL, stderr=subprocess.DEVNULL).returncode == 0
    print(f"slots were moved {turns} times, {count} at a time")
    return turns
