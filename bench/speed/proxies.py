#!/usr/bin/env python3
"""Measures the proxy of examples_rust/proxy.rs beside nginx and varnish: processor time a hit, hits a second, memory a stored KB.

  bench/speed/proxies.py PROXY [ROUNDS]     PROXY is the built program (bench/plays/from_c.sh proxy builds it); five rounds, if nothing else is said

An nginx with files is the origin, and each of the three stands in front of it, all on loopback and in a temporary folder. The bodies
are of 1 KB (one key, and 1,000), 100 KB and 10 MB. First each answer is compared with its file, and then wrk loads the three in turns,
with one client and with eight that stay connected, for two seconds each. The processor time is what the kernel counts of a server and
of all its processes in these seconds, by the hits: the least of the rounds, and in brackets the median. Hits a second are the most of
the rounds. The origin's log tells whether all of them were hits.

nginx has a worker for each processor, its cache in the same folder (in memory, where there is /dev/shm) and no access log; tcp_nopush
is off, since with it each 100 KB on loopback wait 40 ms for an acknowledgement. varnish has its storage by malloc. All else is as each
comes. It takes five minutes with five rounds, and at most LIMIT seconds, whatever hangs. It ends with 0 where all was measured, with 1
where an answer was another one or a server was asked in vain, and with 2 where a tool is missing (Debian: apt-get install nginx
varnish wrk).
"""
import atexit
import glob
import http.client
import os
import random
import re
import shutil
import signal
import socket
import statistics
import subprocess
import sys
import tempfile
import threading
import time

LIMIT = 1200
SECONDS = 2
BODIES = {"1 KB": 1024, "1,000 keys of 1 KB": 1024, "100 KB": 100 << 10, "10 MB": 10 << 20}
KEYS, MORE_KEYS = 1000, 100
SMALL = [f"/small/{at}" for at in range(KEYS)]
LARGE = [f"/large/{at}" for at in range(MORE_KEYS)]
PATHS = {"1 KB": ["/1k"], "1,000 keys of 1 KB": SMALL, "100 KB": ["/100k"], "10 MB": ["/10m"]}
TOOLS = {"nginx": "nginx -v", "varnishd": "varnishd -V", "wrk": "wrk -v"}
os.environ["PATH"] += ":/usr/sbin:/usr/local/sbin"

NGINX = """
daemon off;
pid {room}/{name}.pid;
error_log {room}/{name}.log;
worker_processes {workers};
{user}
events {{ worker_connections 1024; }}
http {{
    client_body_temp_path {room}/{name}.tmp/body;
    proxy_temp_path {room}/{name}.tmp/proxy;
    fastcgi_temp_path {room}/{name}.tmp/fastcgi;
    uwsgi_temp_path {room}/{name}.tmp/uwsgi;
    scgi_temp_path {room}/{name}.tmp/scgi;
    sendfile on;
    tcp_nopush off;
    keepalive_requests 1000000000;
    default_type application/octet-stream;
    {rest}
}}
"""
ORIGIN = """
    access_log {room}/asked;
    server {{ listen 127.0.0.1:{port}; root {room}/files; add_header Cache-Control max-age=3600; }}
"""
CACHE = """
    access_log off;
    proxy_cache_path {room}/cache levels=1:2 keys_zone=all:10m max_size=1g inactive=1h use_temp_path=off;
    server {{ listen 127.0.0.1:{port}; location / {{ proxy_pass http://127.0.0.1:{origin}; proxy_cache all; }} }}
"""
# What wrk asks for, by turns, and what it says at its end.
ASK = """
local asked, at = {}, 0
function init(args)
   for place, path in ipairs(args) do asked[place] = wrk.format("GET", path) end
   at = math.random(0, #asked - 1)
end
function request()
   at = at % #asked + 1
   return asked[at]
end
function done(all)
   local it = all.errors
   print(string.format("told %d %d %d %d", all.requests, all.bytes, all.duration, it.connect + it.read + it.write + it.status + it.timeout))
end
"""


def ended(words):
    print(f"WRONG: {words}", flush=True)
    sys.exit(1)


def free_port():
    with socket.socket() as it:
        it.bind(("127.0.0.1", 0))
        return it.getsockname()[1]


class Server:
    """A server in a group of processes of its own, which `timeout` ends, if nothing else does."""
    all = []

    def __init__(self, name, words, room):
        self.name, self.answered = name, 0
        with open(f"{room}/{name}.said", "wb") as said:
            words = ["timeout", "-k", "3", str(LIMIT), *words]
            self.run = subprocess.Popen(words, stdin=subprocess.DEVNULL, stdout=said, stderr=said, cwd=room)
        Server.all.append(self)

    def end(self, how):
        try:
            os.killpg(self.run.pid, how)  # (timeout leads the group)
        except ProcessLookupError:
            pass

    def listens(self, port):
        """Waits until it listens at this port."""
        until = time.time() + 30
        while self.run.poll() is None and time.time() < until:
            try:
                socket.create_connection(("127.0.0.1", port), 5).close()
                self.port = port
                return self
            except OSError:
                time.sleep(0.1)
        return ended(f"{self.name} does not listen")

    def processes(self):
        """The fields of its processes, each after its name."""
        found, below = {}, [self.run.pid]
        for path in glob.glob("/proc/[0-9]*/stat"):
            try:
                with open(path, encoding="latin-1") as it:
                    found[int(path.split("/")[2])] = it.read().rpartition(")")[2].split()
            except OSError:
                pass
        for one in below:  # (it grows meanwhile)
            below += [it for it, fields in found.items() if int(fields[1]) == one]
        return {it: found[it] for it in below if it in found}

    def seconds(self):
        """The processor time that they took, user and system, with that of their threads."""
        ticks = sum(int(fields[11]) + int(fields[12]) for fields in self.processes().values())
        return ticks / os.sysconf("SC_CLK_TCK")

    def memory(self):
        """Its resident memory that is of no file, in bytes."""
        total = 0
        for one in self.processes():
            with open(f"/proc/{one}/status", encoding="latin-1") as it:
                total += sum(int(it) << 10 for it in re.findall(r"^RssAnon:\s+(\d+) kB", it.read(), re.M))
        return total


def end_all():
    for how in (signal.SIGTERM, signal.SIGKILL):
        for one in Server.all:
            one.end(how)
        until = time.time() + 5
        while time.time() < until and any(one.run.poll() is None for one in Server.all):
            time.sleep(0.05)


def hangs(room):
    print(f"WRONG: it is not done after {LIMIT - 60} seconds", flush=True)
    end_all()
    shutil.rmtree(room, ignore_errors=True)
    os._exit(1)


def write_files(room):
    """The bodies; no two of the same length begin the same."""
    for folder in ("files/small", "files/large", "cache", "origin.tmp", "nginx.tmp", "varnish"):
        os.makedirs(f"{room}/{folder}")
    drawn = random.Random(1)
    sizes = {**{it: 1024 for it in SMALL}, **{it: 100 << 10 for it in LARGE}, **{PATHS[it][0]: BODIES[it] for it in BODIES if len(PATHS[it]) == 1}}
    bodies = {path: drawn.randbytes(size) for path, size in sizes.items()}
    for path, body in bodies.items():
        with open(f"{room}/files{path}", "wb") as it:
            it.write(body)
    with open(f"{room}/ask.lua", "w", encoding="utf-8") as it:
        it.write(ASK)
    return bodies


def start_nginx(name, rest, workers, room, **ports):
    user = "user root;" if os.geteuid() == 0 else ""
    with open(f"{room}/{name}.conf", "w", encoding="utf-8") as it:
        it.write(NGINX.format(name=name, room=room, workers=workers, user=user, rest=rest.format(room=room, **ports)))
    return Server(name, ["nginx", "-e", f"{room}/{name}.log", "-p", room, "-c", f"{room}/{name}.conf"], room).listens(ports["port"])


def start_all(proxy, room):
    """The origin, and the three in front of it."""
    origin, to_nginx, to_varnish = free_port(), free_port(), free_port()
    start_nginx("origin", ORIGIN, 1, room, port=origin)
    ours = Server("ours", [os.path.realpath(proxy), "127.0.0.1:0", f"127.0.0.1:{origin}", "--limit", "1000000000"], room)
    until = time.time() + 30
    while not (said := open(f"{room}/ours.said", encoding="utf-8").read()).endswith("\n") and time.time() < until:
        time.sleep(0.1)
    ours.listens(int(said.rpartition(":")[2] or 0))
    nginx = start_nginx("nginx", CACHE, "auto", room, port=to_nginx, origin=origin)
    words = ["varnishd", "-F", "-j", "none", "-n", f"{room}/varnish", "-T", "none", "-s", "malloc,1G"]
    varnish = Server("varnish", [*words, "-a", f"127.0.0.1:{to_varnish}", "-b", f"127.0.0.1:{origin}"], room).listens(to_varnish)
    return [ours, nginx, varnish]


def compare(server, paths, bodies):
    """Asks for each of these, over one connection."""
    to = http.client.HTTPConnection("127.0.0.1", server.port, timeout=20)
    for path in paths:
        to.request("GET", path)
        answer = to.getresponse()
        if answer.status != 200 or answer.read() != bodies[path]:
            ended(f"{server.name} answers {path} with {answer.status}, or with other bytes")
    to.close()


def fill(server, bodies):
    """Fills the caches and returns what a stored KB takes of memory, in 1,000 bodies of 1 KB and in 100 of 100 KB."""
    compare(server, ["/1k", "/100k", "/10m"] * 10, bodies)
    found = []
    for paths in (SMALL, LARGE):
        time.sleep(0.5)
        before = server.memory()
        compare(server, paths, bodies)
        time.sleep(0.5)
        found.append((server.memory() - before) / sum(len(bodies[it]) for it in paths) * 1024)
    compare(server, bodies, bodies)
    return found


def load(server, body, clients, room):
    """Loads it for some seconds: microseconds of its processor time a hit, and hits a second."""
    words = ["wrk", "-t", str(min(clients, 2)), "-c", str(clients), "-d", f"{SECONDS}s", "--timeout", "30s", "-s", f"{room}/ask.lua"]
    before = server.seconds()
    wrk = subprocess.run([*words, f"http://127.0.0.1:{server.port}/", "--", *PATHS[body]], capture_output=True, text=True, timeout=60, check=False)
    time.sleep(0.05)
    spent = server.seconds() - before
    told = re.search(r"^told (\d+) (\d+) (\d+) (\d+)$", wrk.stdout, re.M)
    if not told or int(told[4]) or not int(told[1]):
        ended(f"{server.name} under load: {wrk.stdout} {wrk.stderr}")
    # (of large bodies also those count that wrk did not read to their end)
    hits = int(told[2]) / BODIES[body] if BODIES[body] > 1 << 20 else int(told[1])
    return spent / hits * 1e6, hits / int(told[3]) * 1e6


def measure(servers, rounds, room):
    """A line for each body and number of clients."""
    rows = {(body, clients): {it.name: [] for it in servers} for body in BODIES for clients in (1, 8)}
    for _ in range(rounds):
        for (body, clients), found in rows.items():
            for server in servers:
                found[server.name].append(load(server, body, clients, room))
    print("microseconds of processor time a hit, the least (the median) of the rounds; and the most hits a second")
    print(f"{'':21}clients " + "".join(f"{it.name:>19}" for it in servers) + "  ours by nginx's   hits a second")
    for (body, clients), found in rows.items():
        times = {name: [it[0] for it in all_of] for name, all_of in found.items()}
        least = {name: min(it) for name, it in times.items()}
        cells = "".join(f"{least[it.name]:10.1f} ({statistics.median(times[it.name]):6.1f})" for it in servers)
        most = ", ".join(f"{max(it[1] for it in found[server.name]):,.0f}" for server in servers)
        print(f"{body:21}{clients:7} {cells}  {least['ours'] / least['nginx']:15.2f}   {most}")


def main():
    if len(sys.argv) not in (2, 3):
        sys.exit(__doc__)
    missing = [it for it in TOOLS if not shutil.which(it)] + [it for it in sys.argv[1:2] if not os.path.exists(it)]
    if missing:
        print(f"proxies: there is no {', '.join(missing)}")
        sys.exit(2)
    rounds = int((sys.argv[2:] or ["5"])[0])
    room = tempfile.mkdtemp(prefix="proxies-", dir="/dev/shm" if os.access("/dev/shm", os.W_OK) else None)
    atexit.register(shutil.rmtree, room, ignore_errors=True)
    atexit.register(end_all)  # (first)
    signal.signal(signal.SIGTERM, lambda *_: sys.exit(1))
    guard = threading.Timer(LIMIT - 60, hangs, [room])
    guard.daemon = True
    guard.start()
    bodies = write_files(room)
    servers = start_all(sys.argv[1], room)
    kept = {it.name: fill(it, bodies) for it in servers}
    asked = sum(1 for _ in open(f"{room}/asked", "rb"))
    measure(servers, rounds, room)
    for name in ("ours", "varnish"):
        print(f"{name}: {kept[name][0]:,.0f} bytes of memory a stored KB of {KEYS:,} bodies of 1 KB, {kept[name][1]:,.0f} of {MORE_KEYS} of 100 KB")
    if asked != sum(1 for _ in open(f"{room}/asked", "rb")) or asked != len(servers) * len(bodies):
        ended("the origin was asked for what is stored")
    for words in TOOLS.values():
        said = subprocess.run(words.split(), capture_output=True, text=True, check=False)
        print((said.stderr + said.stdout).split("\n", 1)[0])
    print(f"{os.cpu_count()} processors, load {' '.join(f'{it:.1f}' for it in os.getloadavg())}")


if __name__ == "__main__":
    main()
