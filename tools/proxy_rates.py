"""Servers, proxies and nutcracker, and what redis-benchmark tells of them, for tools/proxy-bench and wait-bench."""
import csv
import os
import subprocess
import sys

from live_cluster import HOST, NAME, PORTS, TOOLS, cli, wait_for

NUTCRACKER = 17213
BEHIND_NUTCRACKER, REPLICAS = range(17214, 17217), range(17217, 17220)
POOL = """alpha:
  listen: {host}:{port}
  hash: fnv1a_64
  distribution: ketama
  redis: true
  servers:
"""


def start_server(folder, port, *more):
    own = os.path.join(folder, str(port))
    os.mkdir(own)
    words = ["redis-server", "--port", str(port), "--bind", HOST, "--dir", own, "--save", "", "--appendonly", "no", *more]
    return subprocess.Popen(words, stdout=subprocess.DEVNULL)


def start_servers(folder):
    """The servers behind nutcracker, each with its replica."""
    servers = [start_server(folder, port) for port in BEHIND_NUTCRACKER]
    return servers + [
        start_server(folder, port, "--replicaof", HOST, str(primary)) for port, primary in zip(REPLICAS, BEHIND_NUTCRACKER)
    ]


def start_nutcracker(folder, ports):
    """nutcracker before the servers at these ports."""
    pool = POOL.format(host=HOST, port=NUTCRACKER) + "".join(f"   - {HOST}:{port}:1\n" for port in ports)
    settings = os.path.join(folder, "nutcracker.yml")
    with open(settings, "w") as file:
        file.write(pool)
    words = ["nutcracker", "-c", settings, "-o", os.path.join(folder, "nutcracker.log"), "-v", "0"]
    return subprocess.Popen(words, cwd=folder)


def start_proxy(program, port, count):
    return subprocess.Popen([os.path.join(TOOLS, "proxy"), program, HOST, str(PORTS[0]), str(port), str(count)])


def end_all(processes):
    for process in processes:
        process.terminate()
        process.wait()


def see_begun(name, port):
    """Ends where what should be at a port does not answer."""
    if not wait_for(20, lambda: cli(port, "set", "began", "1") == "OK\n"):
        sys.exit(f"{NAME}: {name} does not start")


def rates(port, rows):
    """What redis-benchmark tells of the server at a port: a row's name and its requests a second. Each of the rows has a
    name, the words that ask redis-benchmark for it, and how many requests it is asked for."""
    found = {}
    for name, words, requests in rows:
        command = ["redis-benchmark", "-h", HOST, "-p", str(port), "--csv", "-r", "100000", "-c", "50", "-n", str(requests), *words]
        told = subprocess.run(command, capture_output=True, text=True, timeout=300).stdout
        for row in csv.reader(told.splitlines()):
            if row and row[0] != "test":
                found[f"{row[0].split()[0]}, {name}"] = float(row[1])
    return found


def show(columns):
    """The table of what was found, in Markdown."""
    names = list(columns)
    print("| | " + " | ".join(names) + " |")
    print("|---" * (len(names) + 1) + "|")
    for row in columns[names[0]]:
        found = [columns[name].get(row, 0) for name in names]
        print(f"| {row} | " + " | ".join(f"{number:,.0f}" if number >= 100 else f"{number:.2f}" for number in found) + " |")
    if "nutcracker" not in names:
        print("nutcracker is not here, and was not asked (Debian: apt-get install nutcracker)")
