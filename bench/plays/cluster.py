#!/usr/bin/env python3
"""Plays three proxies of examples_rust/ behind HAProxy, as docs/CLUSTER.md says, all on loopback.

  bench/plays/cluster.py PROXY [COMMAND..]     COMMAND is cache_sim; else bench/make/tried.py builds it without a proof

Each key is fetched once for all; a purge reaches all; a node that dies moves its keys alone, and takes them back; with a parent in front
of the origin, what moves is not fetched from the origin; and the hit ratio of a trace stands beside that of `cache_sim --nodes 3`. The
configuration of HAProxy is the block of docs/CLUSTER.md, with other ports. It takes a minute, ends with 1 where something is not as it
should be, and with 2 where there is no haproxy (Debian: apt-get install haproxy).
"""
import collections
import http.client
import http.server
import os
import random
import re
import shutil
import signal
import socket
import subprocess
import sys
import tempfile
import threading
import time

TOP = os.path.realpath(f"{os.path.dirname(os.path.realpath(__file__))}/../..")
KEYS, SIZE, REQUESTS, CACHED = 600, 1000, 20_000, 200
HOST = "site.example"
os.environ["PATH"] += ":/usr/sbin"
fetched, lock, failed, running = collections.Counter(), threading.Lock(), [], []


def holds(what, is_so):
    print(f"{'' if is_so else 'WRONG: '}{what}", flush=True)
    failed.append(not is_so)


class Origin(http.server.BaseHTTPRequestHandler):
    protocol_version = "HTTP/1.1"

    def log_message(self, *_):
        pass

    def do_GET(self):
        with lock:
            fetched[self.path] += 1
        body = (self.path.encode() * SIZE)[:SIZE]
        self.send_response(200)
        self.send_header("Cache-Control", "max-age=3600")
        self.send_header("Content-Length", str(len(body)))
        self.end_headers()
        self.wfile.write(body)


def free_port():
    with socket.socket() as it:
        it.bind(("127.0.0.1", 0))
        return it.getsockname()[1]


def start(*words):
    run = subprocess.Popen(words, stdout=subprocess.DEVNULL, stderr=subprocess.DEVNULL)
    running.append(run)
    return run


class Node:
    def __init__(self, program, origin, limit):
        self.words, self.port, self.operator = (program, origin, limit), free_port(), free_port()
        self.start()

    def start(self):
        program, origin, limit = self.words
        self.run = start(program, f"127.0.0.1:{self.port}", f"127.0.0.1:{origin}", "--limit", str(limit), "--operator", f"127.0.0.1:{self.operator}")
        wait_for(self.operator)

    def counts(self):
        return {name: int(count) for name, count in re.findall(r"^pcache_(\S+) (\d+)$", ask(self.operator, "/metrics")[2].decode(), re.M)}

    def purge(self, path):
        return ask(self.port, path, "PURGE")[0]


def wait_for(port):
    until = time.time() + 20
    while time.time() < until:
        try:
            return socket.create_connection(("127.0.0.1", port), 1).close()
        except OSError:
            time.sleep(0.05)
    sys.exit(f"WRONG: nothing listens at {port}")


def ask(port, path, method="GET", to=None):
    to = to or http.client.HTTPConnection("127.0.0.1", port, timeout=10)
    to.request(method, path, headers={"Host": HOST})
    answer = to.getresponse()
    return answer.status, answer, answer.read()


def balance(nodes, room):
    """Starts HAProxy with the block of the page."""
    with open(f"{TOP}/docs/CLUSTER.md", encoding="utf-8") as it:
        text = re.search(r"```haproxy\n(.*?)```", it.read(), re.S)[1]
    port = free_port()
    text = text.replace("*:80\n", f"127.0.0.1:{port}\n")
    for number, node in enumerate(nodes, 1):
        text = text.replace(f"10.0.0.{number}:8080", f"127.0.0.1:{node.port}").replace(f"port 9080  # {number}", f"port {node.operator}")
    with open(f"{room}/haproxy.cfg", "w", encoding="utf-8") as it:
        it.write(text)
    checked = subprocess.run(["haproxy", "-c", "-f", it.name], capture_output=True, text=True, check=False)
    if checked.returncode:
        sys.exit(f"WRONG: haproxy does not read the page's block\n{checked.stdout}{checked.stderr}")
    start("haproxy", "-db", "-f", it.name)
    wait_for(port)
    return port


def ask_all(port, paths):
    """The node that each path went to. Asks again where a node is just gone."""
    to, where = http.client.HTTPConnection("127.0.0.1", port, timeout=10), {}
    for path in paths:
        status, answer, body = ask(port, path, to=to)
        if status != 200 or body != (path.encode() * SIZE)[:SIZE]:
            holds(f"{path} is answered with {status}", False)
        where[path] = answer.headers["X-Node"]
    return where


def play(program, origin, room, parent=None):
    """Fetches, purges and a node's death. Returns what an entry weighs."""
    behind = parent.port if parent else origin
    nodes = [Node(program, behind, 100_000_000) for _ in range(3)]
    port, paths = balance(nodes, room), [f"/{number}" for number in range(KEYS)]
    fetched.clear()
    where = ask_all(port, paths)
    again = ask_all(port, paths)
    shares = sorted(collections.Counter(where.values()).items())
    holds(f"{KEYS} keys, asked for twice: {sum(fetched.values())} fetches, by nodes {shares}", set(fetched.values()) == {1} and len(fetched) == KEYS and again == where)
    purged = paths[::12]
    found = [[node.purge(path) for node in ([parent] if parent else []) + nodes] for path in purged]
    ask_all(port, purged)
    is_one = all(it.count(200) == (2 if parent else 1) for it in found)
    holds(f"{len(purged)} keys purged at all nodes: {sum(fetched.values()) - KEYS} fetches", is_one and all(fetched[it] == 2 for it in purged))
    entries = [node.counts() for node in nodes]
    weight = sum(it["stored_weight"] for it in entries) / sum(it["stored_bodies"] for it in entries)

    fetched.clear()
    nodes[1].run.kill()
    nodes[1].run.wait()
    time.sleep(1.5)
    moved = ask_all(port, paths)
    lost = {path for path in paths if where[path] == "two"}
    changed = {path for path in paths if moved[path] != where[path]}
    by = sorted(collections.Counter(moved[it] for it in lost).items())
    holds(f"a node dies: its {len(lost)} keys move, to {by}, and {len(changed - lost)} others", changed == lost)
    if parent:
        holds(f"the parent has them: {sum(fetched.values())} fetches from the origin", not fetched)
    else:
        holds(f"and they alone are fetched: {len(fetched)}", set(fetched) == lost and set(fetched.values()) == {1})
    nodes[1].start()
    time.sleep(1.5)
    holds("it comes back, and has its keys again", ask_all(port, paths) == where)
    return weight


def play_trace(program, origin, room, weight, simulator):
    """The hit ratio of a trace, by all nodes and by the simulator."""
    limit = int(weight * CACHED)
    nodes = [Node(program, origin, limit) for _ in range(3)]
    port, drawn = balance(nodes, room), random.Random(1)
    trace = [int(2000 ** drawn.random()) for _ in range(REQUESTS)]
    to, by_node = http.client.HTTPConnection("127.0.0.1", port, timeout=10), collections.defaultdict(list)
    for number in trace:
        by_node[ask(port, f"/{number}", to=to)[1].headers["X-Node"]].append(number)
    hits = sum(node.counts()['answers_total{cache="hit"}'] for node in nodes)

    def simulated(numbers, tier, *flags):
        """Requests, hits and how busy the busiest node was, by the simulator."""
        lines = "".join(f"{number} {weight:.0f}\n" for number in numbers)
        words = [*simulator, "--policy", "lru", "--size", str(limit), "--format", "csv", *flags]
        said = subprocess.run(words, input=lines, capture_output=True, text=True, timeout=600, check=False).stdout
        head, *rows = [it.split(",") for it in said.split("\n") if it]
        row = dict(zip(head, next(it for it in rows if tier in it)))
        return int(row["hits"]), row.get("busiest")

    rendezvous, busiest = simulated(trace, "nodes", "--nodes", "3")
    by_ring = sum(simulated(numbers, "lru")[0] for numbers in by_node.values())
    most = max(map(len, by_node.values())) * 3 / REQUESTS
    holds(f"a trace of {REQUESTS} requests, {CACHED} entries a node: hit ratio {hits / REQUESTS:.4f}, busiest node {most:.2f} times the mean", True)
    holds(f"by cache_sim: {by_ring / REQUESTS:.4f} of what each node got", abs(hits - by_ring) < REQUESTS / 50)
    holds(f"by cache_sim --nodes 3: {rendezvous / REQUESTS:.4f}, busiest node {busiest}", abs(hits - rendezvous) < REQUESTS / 40)


def main():
    if len(sys.argv) < 2:
        sys.exit(__doc__)
    if not shutil.which("haproxy"):
        print("cluster: there is no haproxy")
        sys.exit(2)
    room = tempfile.mkdtemp(prefix="cluster-")
    guard = threading.Timer(900, lambda: os.kill(os.getpid(), signal.SIGINT))
    guard.daemon = True
    guard.start()
    http.server.ThreadingHTTPServer.request_queue_size = 128
    origin = http.server.ThreadingHTTPServer(("127.0.0.1", 0), Origin)
    threading.Thread(target=origin.serve_forever, daemon=True).start()
    program, port = os.path.realpath(sys.argv[1]), origin.server_port
    try:
        weight = play(program, port, room)
        print("with a parent:")
        play(program, port, room, Node(program, port, 100_000_000))
        play_trace(program, port, room, weight, sys.argv[2:] or [f"{TOP}/bench/make/tried.py", "cache_sim"])
    finally:
        for it in running:
            it.kill()
        shutil.rmtree(room, ignore_errors=True)
    print(f"cluster: {failed.count(False)} as it should be, {failed.count(True)} not", flush=True)
    os._exit(1 if any(failed) else 0)


if __name__ == "__main__":
    main()
