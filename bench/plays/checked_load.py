#!/usr/bin/env python3
"""Loads the proxy of examples_rust/ over HTTP and checks each answer against what the origin sent, on loopback.

  bench/plays/checked_load.py PROXY [SECONDS [CLIENTS [SEED]]]     120 seconds of 40 clients, if nothing else is said

PROXY is the built program (bench/plays/from_c.sh proxy builds it). The origin is in this script: the versions of its 24 keys grow, and
each answer carries its version in its head (X-Version, ETag) and in its body, whose bytes no other answer has in that order. It answers
slowly, breaks off in the middle, fails with a 503, and says 304 to who has the version that it has. Clients ask plainly, with no-cache,
for ranges, on connections that stay; some leave in the middle. Each second one key is purged, if it may be one that is being fetched.
An answer is wrong if

  torn       its head is of another version than its body
  mixed      its body is not that of one answer of the origin, byte by byte, or is said to be whole and is not
  purged     its body was fetched before a purge of its key, and that purge was answered before the request was sent
  older      a newer version, which the proxy stores, was read whole by a client before the request was sent

What breaks off and says so is not wrong, nor is an error. It prints the answers by what they say in X-Cache, then `N answers, M wrong`
with the wrong ones by kind, and the first of each kind. It ends with 1 if one is wrong, or if there are fewer than ten a second.
"""
import collections
import random
import re
import socket
import subprocess
import sys
import threading
import time

KEYS = 24
LONGEST = 40_000
NOISE = random.Random(7).randbytes(1 << 20)
PATIENCE = 40
ended = threading.Event()


class Fetch:
    """One whole answer of the origin: which key and version, when it was asked for, and where its bytes begin in the noise."""
    def __init__(self, number, key, version, began):
        self.number, self.key, self.version, self.began = number, key, version, began
        self.length = 200 + (number * 7919) % LONGEST if number % 4 else 200 + number % 800
        self.start = (number * 104_729) % (len(NOISE) - LONGEST - 1000)

    def body(self):
        first = b"key %d version %d fetch %d\n" % (self.key, self.version, self.number)
        return first + NOISE[self.start:self.start + self.length]


class Origin:
    """The origin. What a key's answers say of their lifetime is by its number."""
    def __init__(self, seed):
        self.seed, self.lock = seed, threading.Lock()
        self.versions, self.fetches, self.not_modified = [1] * KEYS, [], 0
        self.slow = []  # the keys that were asked for, and have no head yet
        self.listener = socket.create_server(("127.0.0.1", 0), backlog=512)
        self.port = self.listener.getsockname()[1]
        threading.Thread(target=self.accept, daemon=True).start()

    def accept(self):
        while not ended.is_set():
            stream, _ = self.listener.accept()
            threading.Thread(target=self.converse, args=[stream], daemon=True).start()

    def converse(self, stream):
        try:
            with stream, stream.makefile("rb") as asks:
                lines = []
                while (line := asks.readline().strip()):
                    lines.append(line.decode("latin-1"))
                if lines:
                    self.answer(stream, lines, time.monotonic())
        except OSError:
            pass

    def answer(self, stream, lines, began):
        key = int(lines[0].split(" ")[1][1:])
        with self.lock:
            drawn = random.Random(self.seed * 1_000_003 + len(self.fetches) * 31 + self.not_modified)
            if drawn.random() < 0.25:
                self.versions[key] += 1
            version = self.versions[key]
            known = f'if-none-match: "{key}-{version}"' in [it.lower() for it in lines]
            self.not_modified += known
            if not known:
                fetch = Fetch(len(self.fetches), key, version, began)
                self.fetches.append(fetch)
        age = (0, 1, 1, 2, 60, 60)[key % 6]
        more = ("", ", stale-while-revalidate=5", ", stale-if-error=20", "")[key % 4]
        says = f'ETag: "{key}-{version}"\r\nX-Version: {version}\r\nCache-Control: max-age={age}{more}\r\nConnection: close\r\n'
        if drawn.random() < 0.3:
            self.slow.append(key)
            time.sleep(drawn.random() * 0.08)
            self.slow.remove(key)
        if drawn.random() < 0.03:
            stream.sendall(b"HTTP/1.1 503 no\r\nContent-Length: 0\r\nConnection: close\r\n\r\n")
        elif known:
            stream.sendall(f"HTTP/1.1 304 same\r\n{says}\r\n".encode())
        else:
            self.send(stream, fetch, says, drawn)

    @staticmethod
    def send(stream, fetch, says, drawn):
        """Sends a body, by its length or in chunks, at once or slowly, and perhaps not to its end."""
        body, in_chunks = fetch.body(), drawn.random() < 0.5
        framing = "Transfer-Encoding: chunked" if in_chunks else f"Content-Length: {len(body)}"
        stream.sendall(f"HTTP/1.1 200 good\r\n{says}X-Fetch: {fetch.number}\r\n{framing}\r\n\r\n".encode())
        breaks = drawn.random() < 0.15
        body = body[:int(len(body) * drawn.random())] if breaks else body
        pieces, pause = (drawn.randint(2, 12), drawn.random() * 0.05) if drawn.random() < 0.4 or breaks else (1, 0)
        step = len(body) // pieces + 1
        for at in range(0, len(body), step):
            piece = body[at:at + step]
            stream.sendall(b"%x\r\n%b\r\n" % (len(piece), piece) if in_chunks else piece)
            time.sleep(pause)
        if in_chunks and not breaks:
            stream.sendall(b"0\r\n\r\n")


class Broken(Exception):
    pass


def read_answer(of):
    """The status, the fields and the body of an answer. Fails where it breaks off."""
    first = of.readline().split(b" ")
    if len(first) < 2:
        raise Broken
    fields = {}
    while (line := of.readline()) not in (b"\r\n", b""):
        name, _, value = line.decode("latin-1").partition(":")
        fields[name.lower()] = value.strip()
    if line == b"":
        raise Broken
    body, status = b"", int(first[1])
    if fields.get("transfer-encoding") == "chunked":
        while (line := of.readline()).endswith(b"\n") and (size := int(line, 16)):
            body += (piece := of.read(size))
            if len(piece) < size or of.readline() != b"\r\n":
                raise Broken
        if not line or of.readline() != b"\r\n":
            raise Broken
    elif status not in (204, 304):
        length = int(fields.get("content-length", "-1"))
        body = of.read(length)
        if length >= 0 and len(body) < length:
            raise Broken
    return status, fields, body


class Checks:
    """What is known of the past, and what was wrong."""
    def __init__(self, origin):
        self.origin, self.lock = origin, threading.Lock()
        self.purges = [[] for _ in range(KEYS)]  # (sent, answered)
        self.newest = [[(0.0, 0)] for _ in range(KEYS)]  # (read whole, version), both growing
        self.kinds, self.wrong, self.shown = collections.Counter(), collections.Counter(), {}

    def is_wrong(self, kind, said):
        with self.lock:
            self.wrong[kind] += 1
            self.shown.setdefault(kind, said)

    def count(self, kind):
        with self.lock:
            self.kinds[kind] += 1

    def check(self, key, sent, asked, answer):
        status, fields, body = answer
        origin_said = fields.get("x-cache", "nothing said")
        self.count(origin_said if status in (200, 206) else str(status))
        if status not in (200, 206):
            return
        fetch, says = self.fetch_of(status, fields, body), f"key {key}, {asked}: {status}, {fields}, {body[:40]}"
        if fetch is None or fetch.key != key:
            return self.is_wrong("mixed", says)
        if fields.get("x-version") != str(fetch.version) or fields.get("etag") != f'"{key}-{fetch.version}"':
            self.is_wrong("torn", f"body of version {fetch.version}, {says}")
        if any(done < sent and fetch.began < purge for purge, done in self.purges[key]):
            self.is_wrong("purged", f"fetched at {fetch.began:.3f}, asked at {sent:.3f}, purges {self.purges[key][-3:]}, {says}")
        known = max(version for at, version in self.newest[key] if at < sent)
        if fetch.version < known:
            self.is_wrong("older", f"version {fetch.version} after {known}, {says}")
        if status == 200 and origin_said != "pass":
            with self.lock:
                if fetch.version > self.newest[key][-1][1]:
                    self.newest[key].append((time.monotonic(), fetch.version))
        return None

    def fetch_of(self, status, fields, body):
        """The answer of the origin whose bytes these are: all of them, or the range that is said."""
        if status == 200:
            said = re.match(rb"key \d+ version \d+ fetch (\d+)\n", body)
            fetch = self.origin.fetches[int(said[1])] if said and int(said[1]) < len(self.origin.fetches) else None
            return fetch if fetch and fetch.body() == body else None
        first, last, whole = (int(it) for it in re.match(r"bytes (\d+)-(\d+)/(\d+)", fields["content-range"]).groups())
        # (a range begins with the first byte, so it says whose it is)
        said = re.match(rb"key \d+ version \d+ fetch (\d+)\n", body)
        fetch = self.origin.fetches[int(said[1])] if said and int(said[1]) < len(self.origin.fetches) else None
        return fetch if fetch and len(fetch.body()) == whole and fetch.body()[first:last + 1] == body else None


class Client(threading.Thread):
    def __init__(self, at, checks, seed):
        super().__init__(daemon=True)
        self.at, self.checks, self.drawn, self.stream = at, checks, random.Random(seed), None

    def run(self):
        while not ended.is_set():
            try:
                if self.stream is None:
                    self.stream = socket.create_connection(self.at, PATIENCE)
                    self.stream.setsockopt(socket.IPPROTO_TCP, socket.TCP_NODELAY, 1)
                    self.of = self.stream.makefile("rb")
                self.ask()
            except (OSError, Broken) as error:
                if not ended.is_set():
                    self.checks.count("broken off" if isinstance(error, Broken) else f"no answer ({type(error).__name__})")
                self.leave()

    def leave(self):
        if self.stream:
            self.of.close()
            self.stream.close()
        self.stream = None

    def ask(self):
        key, kind = min(self.drawn.randrange(KEYS), self.drawn.randrange(KEYS)), self.drawn.random()
        asked = ""
        if kind < 0.2:
            asked = "Cache-Control: no-cache\r\n"
        elif kind < 0.3:
            asked = f"Range: bytes=0-{self.drawn.randint(60, 3000)}\r\n"
        sent = time.monotonic()
        self.stream.sendall(f"GET /{key} HTTP/1.1\r\nHost: load\r\n{asked}\r\n".encode())
        if kind > 0.98:
            self.of.readline()
            return self.leave()
        answer = read_answer(self.of)
        self.checks.check(key, sent, asked.strip(), answer)
        if answer[1].get("connection") == "close":
            self.leave()
        return None


def purge(at, checks, drawn):
    """Purges a key, if it may be one whose fetch has just begun."""
    key = drawn.choice(checks.origin.slow or range(KEYS))
    try:
        with socket.create_connection(at, PATIENCE) as stream, stream.makefile("rb") as of:
            sent = time.monotonic()
            stream.sendall(f"PURGE /{key} HTTP/1.1\r\nHost: load\r\nConnection: close\r\n\r\n".encode())
            status, _, _ = read_answer(of)
            checks.count(f"purge {status}")
            if status in (200, 404):
                checks.purges[key].append((sent, time.monotonic()))
    except (OSError, Broken):
        checks.count("purge without an answer")


def main():
    if not 2 <= len(sys.argv) <= 5:
        sys.exit(__doc__)
    seconds, clients, seed = (int(it) for it in (sys.argv[2:] + ["120", "40", "1"][len(sys.argv) - 2:]))
    origin = Origin(seed)
    proxy = subprocess.Popen([sys.argv[1], "127.0.0.1:0", f"127.0.0.1:{origin.port}"], stdout=subprocess.PIPE, text=True)
    try:
        host, port = proxy.stdout.readline().strip().split(":")
        at, checks, drawn = (host, int(port)), Checks(origin), random.Random(seed)
        for number in range(clients):
            Client(at, checks, seed * 1000 + number).start()
        begin = time.monotonic()
        while (left := begin + seconds - time.monotonic()) > 0 and proxy.poll() is None:
            time.sleep(min(1, left))
            purge(at, checks, drawn)
        stands = proxy.poll() is None
        ended.set()
    finally:
        proxy.kill()
        proxy.wait()
    answers = sum(count for kind, count in checks.kinds.items() if not kind.startswith("purge"))
    print(", ".join(f"{kind} {count}" for kind, count in sorted(checks.kinds.items())))
    print(f"{len(origin.fetches)} fetches, {origin.not_modified} validations with a 304, {sum(origin.versions)} versions")
    print(f"{answers} answers, {sum(checks.wrong.values())} wrong", end="")
    print("".join(f", {kind} {count}" for kind, count in sorted(checks.wrong.items())))
    for kind, said in sorted(checks.shown.items()):
        print(f"  first {kind}: {said}")
    if not stands:
        print("WRONG: the proxy ended")
    sys.stdout.flush()
    sys.exit(1 if checks.wrong or not stands or answers < 10 * seconds else 0)


if __name__ == "__main__":
    main()
