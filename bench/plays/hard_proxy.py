#!/usr/bin/env python3
"""Plays what is hard on the proxy of examples_rust/: messages that two readers could understand differently, and hardship.

  bench/plays/hard_proxy.py PROXY [messages]     PROXY is the built program (bench/plays/from_c.sh proxy builds it); `messages` leaves the hardship out

Messages: requests and responses are sent byte by byte as they stand here, and what the RFCs refuse has to be refused, before the origin
is asked. Hardship: a slow first client, a body without an end, an origin that fails, too many clients, slow requests, and SIGTERM. All is
on loopback, with an origin of this script. It takes ten seconds, and two minutes at most; it ends with 1 where something is not as it should be.
"""
import email.utils
import os
import re
import signal
import socket
import subprocess
import sys
import threading
import time

LARGE = bytes(range(256)) * (64 << 10)  # 16 MB
LONG = [b"%09d\n" % number * 100_000 for number in range(40)]  # 40 MB
ended = threading.Event()
asked, now_asked, most_at_once, failures, lock = [], {}, {}, {}, threading.Lock()
failed = []


def holds(what, is_so):
    if not is_so:
        print(f"WRONG: {what}", flush=True)
    failed.append(not is_so)


def after(seconds, does):
    timer = threading.Timer(seconds, does)
    timer.daemon = True
    timer.start()


# ---- the origin ----

GOOD = b"HTTP/1.1 200 OK\r\n%sContent-Length: 4\r\n\r\nbody"
FRESH = b"Cache-Control: max-age=60\r\n"
# What the origin answers, byte by byte. None of the second group is a message.
RAW = {
    "/good": GOOD % FRESH, "/pass": GOOD % b"",
    "/latin": GOOD % b"X-Latin: \xe9\xff\r\nCache-Control: max-age=60\r\n",
    "/dated": GOOD % b"Date: Tue, 01 Dec 2026 05:00:00 GMT\r\n",
    "/hops": GOOD % b"Connection: X-Hop, keep-alive\r\nX-Hop: 1\r\nKeep-Alive: 5\r\nProxy-Connection: 1\r\nX-End: 2\r\n",
    "/hints": b"HTTP/1.1 100 go\r\n\r\nHTTP/1.1 103 hints\r\nLink: </style.css>\r\n\r\n" + GOOD % b"",
    "/chunks": b"HTTP/1.1 200 OK\r\nTransfer-Encoding: chunked\r\n\r\n4;with=more\r\nbody\r\n0\r\nTrailer: 1\r\n\r\n",
    "/old": b"HTTP/1.0 200 OK\r\n\r\nbody",
}
NO_MESSAGES = {
    "two lengths": GOOD % b"Content-Length: 4\r\n", "two lengths that differ": GOOD % b"Content-Length: 5\r\n",
    "a list of lengths": b"HTTP/1.1 200 OK\r\nContent-Length: 4, 4\r\n\r\nbody",
    "a length with a sign": b"HTTP/1.1 200 OK\r\nContent-Length: +4\r\n\r\nbody",
    "a length and chunks": b"HTTP/1.1 200 OK\r\nContent-Length: 4\r\nTransfer-Encoding: chunked\r\n\r\n4\r\nbody\r\n0\r\n\r\n",
    "chunks of HTTP/1.0": b"HTTP/1.0 200 OK\r\nTransfer-Encoding: chunked\r\n\r\n4\r\nbody\r\n0\r\n\r\n",
    "a folded line": GOOD % b"X-Folded: 1\r\n 2\r\n", "a blank before a colon": GOOD % b"X-Blank : 1\r\n",
    "a NUL": GOOD % b"X-Nul: a\0b\r\n", "a bare CR": GOOD % b"X-Bare: a\rb\r\n", "a bare LF": GOOD % b"X-Bare: a\n",
    "no status": b"HTTP/1.1 OK\r\n\r\n", "a status of four digits": b"HTTP/1.1 2000 OK\r\nContent-Length: 0\r\n\r\n",
    "another protocol": b"ICY 200 OK\r\n\r\n", "a switch that nobody asked for": b"HTTP/1.1 101 Switching\r\nUpgrade: x\r\n\r\n",
}
RAW.update({f"/no/{at}": it for at, it in enumerate(NO_MESSAGES.values())})


def answer(stream, path):
    if path in RAW:
        stream.sendall(RAW[path])
    elif path == "/endless":
        stream.sendall(b"HTTP/1.1 200 OK\r\nCache-Control: max-age=60\r\nTransfer-Encoding: chunked\r\n\r\n")
        while not ended.is_set():
            stream.sendall(b"100000\r\n" + LARGE[:1 << 20] + b"\r\n")
    elif path == "/long":
        stream.sendall(b"HTTP/1.1 200 OK\r\nCache-Control: max-age=60\r\nTransfer-Encoding: chunked\r\n\r\n")
        for piece in LONG:
            stream.sendall(b"%x\r\n%b\r\n" % (len(piece), piece))
        stream.sendall(b"0\r\n\r\n")
    elif path == "/large":
        stream.sendall(b"HTTP/1.1 200 OK\r\nCache-Control: max-age=60\r\nContent-Length: %d\r\n\r\n" % len(LARGE) + LARGE)
    elif path == "/slow":
        stream.sendall(b"HTTP/1.1 200 OK\r\nCache-Control: max-age=60\r\nContent-Length: 40\r\n\r\n")
        for _ in range(10):
            stream.sendall(b"slow")
            time.sleep(0.15)
    elif path.startswith("/fails"):
        time.sleep(0.2)
        with lock:
            failures[path] = failures.get(path, 0) + 1
        is_over = path == "/fails/once" and failures[path] > 1
        stream.sendall(GOOD % FRESH if is_over else b"HTTP/1.1 503 no\r\nContent-Length: 0\r\n\r\n")
    elif path == "/dies":
        time.sleep(0.2)


def read_head(of):
    lines = []
    while (line := of.readline()) not in (b"\r\n", b""):
        lines.append(line.rstrip(b"\r\n"))
    return lines


def converse(stream):
    try:
        with stream, stream.makefile("rb") as of:
            head = read_head(of)
            path = head[0].split(b" ")[1].decode("latin-1") if head else ""
            length = [int(it.split(b":")[1]) for it in head if it.lower().startswith(b"content-length:")]
            with lock:
                asked.append((head, of.read(length[0]) if length else b""))
                now_asked[path] = now_asked.get(path, 0) + 1
                most_at_once[path] = max(most_at_once.get(path, 0), now_asked[path])
            try:
                answer(stream, path)
            finally:
                with lock:
                    now_asked[path] -= 1
    except (OSError, IndexError):
        pass


def origin():
    listener = socket.create_server(("127.0.0.1", 0), backlog=512)

    def accept():
        while True:
            threading.Thread(target=converse, args=[listener.accept()[0]], daemon=True).start()
    threading.Thread(target=accept, daemon=True).start()
    return listener.getsockname()[1]


# ---- clients ----

def send(at, raw, seconds=5):
    """All that comes back for these bytes, up to the end of the connection."""
    with socket.create_connection(at, seconds) as stream:
        stream.sendall(raw)
        came = []
        try:
            while (piece := stream.recv(1 << 20)):
                came.append(piece)
        except OSError:
            came.append(b" (and no end)")
        return b"".join(came)


def status(came):
    found = re.match(rb"HTTP/1\.1 (\d{3}) ", came)
    return int(found[1]) if found else came[:80]


def get(path, fields="", version="1.1", host="Host: a\r\n"):
    return f"GET {path} HTTP/{version}\r\n{host}{fields}Connection: close\r\n\r\n".encode("latin-1")


def post(fields, body=b"", version="1.1"):
    return f"POST /pass HTTP/{version}\r\nHost: a\r\n{fields}\r\n".encode("latin-1") + body


# Requests that are none, with the status that says so.
REFUSED = {
    "two Host fields": (400, get("/good", "Host: b\r\n")), "two equal ones": (400, get("/good", "Host: a\r\n")),
    "no Host": (400, get("/good", host="")), "two of HTTP/1.0": (400, get("/good", "Host: b\r\n", "1.0")),
    **{f"the Host {it!r}": (400, get("/good", host=f"Host: {it}\r\n")) for it in ("", "a b", "a/b", "u@a", "a:b", "a:1:2", "[::1", "[x]", "a?b", "a\\b", "\xe9")},
    "a bare CR in a value": (400, get("/good", "X: a\rb\r\n")), "a NUL in a value": (400, get("/good", "X: a\0b\r\n")),
    "a NUL in a name": (400, get("/good", "X\0: a\r\n")), "no name": (400, get("/good", ": a\r\n")), "no colon": (400, get("/good", "X\r\n")),
    "a folded line": (400, get("/good", "X: a\r\n b\r\n")), "a blank before a colon": (400, get("/good", "X : a\r\n")),
    "a blank before the first name": (400, get("/good", host=" Host: a\r\n")), "a bare LF": (400, get("/good", "X: a\n")),
    "a head with bare LFs alone": (400, b"GET /good HTTP/1.1\nHost: a\n\n"), "a tab in the first line": (400, b"GET\t/good HTTP/1.1\r\nHost: a\r\n\r\n"),
    "two blanks": (400, b"GET  /good HTTP/1.1\r\nHost: a\r\n\r\n"), "no version": (400, b"GET /good\r\nHost: a\r\n\r\n"),
    "a version of two digits": (400, get("/good", version="1.10")), "HTTP/2.0": (505, get("/good", version="2.0")),
    "a method that is none": (400, b"G(T /good HTTP/1.1\r\nHost: a\r\n\r\n"), "a fragment": (400, get("/good#a")),
    "a target beyond ASCII": (400, get("/g\xf6od")), "no path": (400, get("good")), "another scheme": (400, get("https://a/good")),
    "a user in the target": (400, get("http://u@a/good")), "CONNECT": (501, b"CONNECT a:1 HTTP/1.1\r\nHost: a\r\n\r\n"),
    **{f"the length {it!r}": (400, post(f"Content-Length: {it}\r\n", b"abc")) for it in ("\v3", "3, 3", "+3", "-3", "0x3", "3 3", "3,", "", "3\0", "99999999999999999999")},
    "two lengths that differ": (400, post("Content-Length: 3\r\nContent-Length: 4\r\n", b"abc")),
    "two equal lengths": (400, post("Content-Length: 3\r\nContent-Length: 3\r\n", b"abc")),
    "a length and chunks": (400, post("Content-Length: 3\r\nTransfer-Encoding: chunked\r\n", b"0\r\n\r\n")),
    "chunks over HTTP/1.0": (400, post("Transfer-Encoding: chunked\r\n", b"0\r\n\r\n", "1.0")),
    **{f"the coding {it!r}": (400, post(f"Transfer-Encoding: {it}\r\n", b"0\r\n\r\n")) for it in ("xchunked", "chunked, chunked", "chunked, identity", "\vchunked", "", "chunked;a=b", "gzip")},
    "two codings": (400, post("Transfer-Encoding: chunked\r\nTransfer-Encoding: identity\r\n", b"0\r\n\r\n")),
    **{f"the chunk line {it!r}": (400, post("Transfer-Encoding: chunked\r\n", it + b"abc\r\n0\r\n\r\n"))
       for it in (b"3\n", b"+3\r\n", b"0x3\r\n", b" 3\r\n", b"3 \r\n", b"-3\r\n", b"\r\n", b"3;a\0\r\n", b"3;a\rb\r\n", b"3;a\n\r\n", b"10000000000000003\r\n", b"3;" + b"a" * 300 + b"\r\n")},
    "a chunk that is longer than it says": (400, post("Transfer-Encoding: chunked\r\n", b"3\r\nabcd\r\n0\r\n\r\n")),
    "a chunk that ends with a bare LF": (400, post("Transfer-Encoding: chunked\r\n", b"3\r\nabc\n0\r\n\r\n")),
    "a trailer with a bare LF": (400, post("Transfer-Encoding: chunked\r\n", b"0\r\nX: a\n\r\n")),
    "a trailer that is none": (400, post("Transfer-Encoding: chunked\r\n", b"0\r\nX : a\r\n\r\n")),
    "a long target": (414, get("/" + "a" * 40_000)), "a long field": (431, get("/good", f"X: {'a' * 40_000}\r\n")),
    "many fields": (431, get("/good", "X: a\r\n" * 200)), "a long body": (413, post("Content-Length: 1000001\r\n", b"a" * 1_000_001)),
    "another expectation": (417, post("Expect: cake\r\nContent-Length: 3\r\n", b"abc")),
}


def play_messages(proxy):
    at = proxy.at
    for what, (code, raw) in REFUSED.items():
        before = len(asked)
        came = send(at, raw)
        holds(f"{what}: {came[:100]} in place of {code}", status(came) == code and came.count(b"HTTP/1.1 ") == 1 and came.endswith(b"\r\n\r\n"))
        holds(f"{what}: the origin was asked", len(asked) == before)
    for number, what in enumerate(NO_MESSAGES):
        came = send(at, get(f"/no/{number}"))
        holds(f"a response with {what}: {came[:100]}", status(came) == 502)

    def sent(raw):
        """What came back, and the fields that the origin saw."""
        before = len(asked)
        came = send(at, raw)
        return came, asked[before] if len(asked) > before else ([b"nothing"], b"")
    came, (head, _) = sent(get("http://b.example:81/pass?x", "X-End: 1\r\nConnection: host, X-Hop\r\nX-Hop: 1\r\nTE: gzip\r\nProxy-Connection: 1\r\nKeep-Alive: 1\r\n"))
    holds(f"the absolute form, with its Host: {head}", head[0] == b"GET /pass?x HTTP/1.1" and head.count(b"host: b.example:81") == 1)
    names = [it.split(b":")[0].lower() for it in head[1:]]
    holds(f"no fields of the connection: {names}", not {b"x-hop", b"te", b"proxy-connection", b"keep-alive"} & set(names) and b"x-end: 1" in head and names.count(b"host") == 1)
    holds(f"Via to the origin: {head}", b"via: 1.1 pcache" in head)
    came, (head, _) = sent(get("http://b.example"))
    holds(f"the absolute form without a path: {head}", head[0] == b"GET / HTTP/1.1" and b"host: b.example" in head)
    came, (head, _) = sent(get("/pass", version="1.0", host=""))
    holds(f"HTTP/1.0 without a Host: {came[:80]}", status(came) == 200 and any(it.startswith(b"host: 127.0.0.1") for it in head))
    came, (head, _) = sent(get("/latin", "X-Latin: \xe9\xff\r\n"))
    holds(f"bytes above 127 as they are: {head} {came}", b"x-latin: \xe9\xff" in head and b"x-latin: \xe9\xff\r\n" in came)
    holds("and from the store", b"x-latin: \xe9\xff\r\n" in send(at, get("/latin")))
    came, _ = sent(get("/pass"))
    dates = [it.decode() for it in re.findall(rb"\r\ndate: (.*?)\r\n", came)]
    is_now = len(dates) == 1 and dates[0] in [email.utils.formatdate(time.time() - ago, usegmt=True) for ago in range(10)]
    holds(f"Date and Via of a response: {came}", is_now and b"\r\nvia: 1.1 pcache\r\n" in came)
    came, _ = sent(get("/dated"))
    holds(f"the Date of the origin: {came}", re.findall(rb"\r\ndate: (.*?)\r\n", came) == [b"Tue, 01 Dec 2026 05:00:00 GMT"])
    came, _ = sent(get("/hops"))
    holds(f"no fields of the origin's connection: {came}", b"x-hop" not in came.lower() and b"keep-alive" not in came.lower() and b"x-end: 2" in came)
    came, _ = sent(get("/hints"))
    holds(f"100 and 103 before the answer: {came}", re.findall(rb"HTTP/1\.1 (\d+)", came) == [b"100", b"103", b"200"] and b"link: </style.css>\r\n" in came)
    came, _ = sent(get("/hints", version="1.0"))
    holds(f"and none to HTTP/1.0: {came}", re.findall(rb"HTTP/1\.1 (\d+)", came) == [b"200"])
    came, _ = sent(get("/chunks", version="1.0"))
    holds(f"no chunks to HTTP/1.0: {came}", b"transfer-encoding" not in came.lower() and came.endswith(b"\r\n\r\nbody"))
    holds("chunks with an extension and a trailer", send(at, get("/chunks")).endswith(b"\r\n\r\n4\r\nbody\r\n0\r\n\r\n"))
    came, (_, body) = sent(post("Transfer-Encoding: Chunked\r\nConnection: close\r\n", b"3;a=b\r\nabc\r\n0\r\nX: a\r\n\r\n"))
    holds(f"a request in chunks: {came[:80]} {body}", status(came) == 200 and body == b"abc")
    came = send(at, b"\r\n" + get("/pass").replace(b"Connection: close\r\n", b"") + get("/pass"))
    holds(f"an empty line, and a request behind another: {came}", came.count(b"HTTP/1.1 200") == 2)


# ---- hardship ----

class Proxy:
    def __init__(self, program, port, *flags):
        words = [program, "127.0.0.1:0", f"127.0.0.1:{port}", *flags]
        self.run = subprocess.Popen(words, stdout=subprocess.PIPE, stderr=subprocess.PIPE, text=True)
        after(100, self.run.kill)
        host, _, number = self.run.stdout.readline().strip().partition(":")
        self.at = host, int(number or 0)

    def memory(self):
        with open(f"/proc/{self.run.pid}/status", encoding="latin-1") as it:
            return int(re.search(r"RssAnon:\s+(\d+) kB", it.read())[1]) << 10

    def end(self):
        self.run.kill()
        self.run.wait()


def at_once(at, path, count):
    found = []
    threads = [threading.Thread(target=lambda: found.append(status(send(at, get(path), 20)))) for _ in range(count)]
    for it in threads:
        it.start()
    for it in threads:
        it.join()
    return found


def play_slow_and_endless(proxy):
    slow = socket.socket()
    slow.setsockopt(socket.SOL_SOCKET, socket.SO_RCVBUF, 4096)
    slow.settimeout(20)
    slow.connect(proxy.at)
    slow.sendall(get("/large"))
    time.sleep(0.3)
    begin = time.monotonic()
    came = send(proxy.at, get("/large"), 20)
    took = time.monotonic() - begin
    holds(f"another client has all while the first reads nothing: {len(came)} bytes, {took:.1f} s", LARGE in came and took < 10)
    came = []
    while (piece := slow.recv(1 << 16)):
        came.append(piece)
    came = b"".join(came)
    holds(f"the slow one has all in the end: {len(came)} bytes", came.endswith(LARGE) and b"X-Cache: miss" in came)
    holds("of one fetch", sum(head[0].startswith(b"GET /large") for head, _ in asked) == 1)

    with socket.create_connection(proxy.at, 5) as stream, stream.makefile("rb") as of:
        stream.sendall(get("/long"))
        time.sleep(1)
        read_head(of)
        came = []
        while (size := int(of.readline() or b"0", 16)):
            came.append(of.read(size))
            of.readline()
        holds(f"a body that is too large to be stored comes whole: {sum(map(len, came))} bytes", b"".join(came) == b"".join(LONG))

    with socket.create_connection(proxy.at, 5) as stream:
        stream.sendall(get("/endless"))
        count = 0
        while count < 400 << 20 and (piece := stream.recv(1 << 20)):
            count += len(piece)
    holds(f"a body without an end goes on: {count >> 20} MB", count >= 400 << 20)
    holds(f"and takes no more memory than its limit: {proxy.memory() >> 20} MB", proxy.memory() < 80 << 20)
    until = time.monotonic() + 5
    while now_asked.get("/endless") and time.monotonic() < until:
        time.sleep(0.1)
    holds("it ends with its client", not now_asked.get("/endless"))


def play_failures(proxy):
    found = at_once(proxy.at, "/fails/once", 40)
    holds(f"forty clients, one failure: {failures} {found}", failures["/fails/once"] <= 3 and found.count(200) >= 39)
    found = at_once(proxy.at, "/fails/always", 40)
    holds(f"forty clients, failures alone: {failures['/fails/always']} fetches", failures["/fails/always"] <= 8 and set(found) == {503})
    holds(f"one of them at a time: {most_at_once['/fails/always']}", most_at_once["/fails/always"] == 1)
    before = len(asked)
    found = at_once(proxy.at, "/dies", 40)
    holds(f"forty clients, no answer: {len(asked) - before} fetches, {found}", len(asked) - before <= 8 and set(found) <= {502, 503})


def play_limits(proxy):
    half = [socket.create_connection(proxy.at, 20) for _ in range(30)]
    for it in half:
        it.sendall(b"GET /good HTTP/1.1\r\nHost: a\r\n")
    time.sleep(0.3)
    came = send(proxy.at, get("/good"))
    holds(f"one client too many: {came}", status(came) == 503 and b"Retry-After: " in came and came.endswith(b"\r\n\r\n"))
    begin, dripped = time.monotonic(), half[0]
    try:
        while time.monotonic() < begin + 10:
            dripped.sendall(b"X: a\r\n")
            time.sleep(0.2)
    except OSError:
        pass
    took = time.monotonic() - begin
    holds(f"a request that comes slowly ends: {took:.1f} s", took < 9)
    came = half[1].recv(1 << 16)
    holds(f"with a 408: {came[:60]}", status(came) == 408)
    for it in half:
        it.close()
    holds("and then others are served", status(send(proxy.at, get("/good"))) == 200)


def play_operator(proxy):
    at = re.search(r"127\.0\.0\.1:(\d+)", proxy.run.stderr.readline())
    at = "127.0.0.1", int(at[1]) if at else 0
    counts = dict(re.findall(r"^(pcache_\S+) (\d+)$", send(at, get("/metrics")).decode(), re.M))
    send(proxy.at, get("/good"))
    send(proxy.at, get("/good"))
    line = proxy.run.stderr.readline().split(" ")
    holds(f"a line of log for each request: {line}", line[1:6] == ["127.0.0.1", "GET", "a", "/good", "200"])
    later = dict(re.findall(r"^(pcache_\S+) (\d+)$", send(at, get("/metrics")).decode(), re.M))
    grown = {name: int(later[name]) - int(counts[name]) for name in later}
    wanted = {'pcache_answers_total{cache="hit"}': 1, 'pcache_answers_total{cache="miss"}': 1, "pcache_sent_bytes_total": 8, "pcache_fetches_total": 1, "pcache_fills_total": 1, "pcache_stored_bodies": 1}
    holds(f"the counts: {grown}", all(grown.get(name) == count for name, count in wanted.items()))
    holds("health", status(send(at, get("/healthz"))) == 200)
    threading.Thread(target=proxy.run.stderr.read, daemon=True).start()


def play_end(proxy):
    idle = socket.create_connection(proxy.at, 5)
    idle.sendall(b"GET /good HTTP/1.1\r\nHost: a\r\n\r\n")
    time.sleep(0.2)
    found = []
    slow = threading.Thread(target=lambda: found.append(send(proxy.at, get("/slow"))))
    slow.start()
    time.sleep(0.4)
    proxy.run.send_signal(signal.SIGTERM)
    time.sleep(0.2)
    try:
        socket.create_connection(proxy.at, 1).close()
        holds("it listens on", False)
    except OSError:
        holds("it listens no longer", True)
    slow.join()
    holds(f"an answer under way is finished: {found}", found[0].endswith(b"slow" * 10))
    try:
        holds(f"it ends well: {proxy.run.wait(8)}", proxy.run.returncode == 0)
    except subprocess.TimeoutExpired:
        holds("it ends", False)
    idle.close()


def play_end_of_endless(proxy):
    with socket.create_connection(proxy.at, 5) as stream:
        stream.sendall(get("/endless"))
        stream.recv(1)
        begin = time.monotonic()
        proxy.run.send_signal(signal.SIGTERM)
        try:
            while stream.recv(1 << 20):
                pass
        except OSError:
            pass
    try:
        proxy.run.wait(10)
    except subprocess.TimeoutExpired:
        pass
    took = time.monotonic() - begin
    holds(f"it ends with its grace: {took:.1f} s, {proxy.run.returncode}", proxy.run.returncode == 0 and 0.5 < took < 8)


def main():
    if len(sys.argv) not in (2, 3):
        sys.exit(__doc__)
    after(110, lambda: os._exit(1))
    port = origin()
    plays = [((), [play_messages])]
    if not sys.argv[2:]:
        few = ("--limit", "320000000", "--connections", "30", "--patience", "3", "--grace", "5", "--operator", "127.0.0.1:0", "--log", "yes")
        plays += [(few, [play_operator, play_slow_and_endless, play_limits, play_end]), (("--connections", "100"), [play_failures]), (("--grace", "1"), [play_end_of_endless])]
    for flags, parts in plays:
        proxy = Proxy(sys.argv[1], port, *flags)
        try:
            for part in parts:
                part(proxy)
        except (OSError, KeyError, IndexError) as error:
            holds(f"{part.__name__}: {error!r}", False)
        finally:
            proxy.end()
    ended.set()
    print(f"hard_proxy: {failed.count(False)} as it should be, {failed.count(True)} not", flush=True)
    os._exit(1 if any(failed) else 0)


if __name__ == "__main__":
    main()
