#!/usr/bin/env python3
"""Plays the proxy of examples_rust/proxy.rs by curl, against an origin that it starts, all on loopback.

  bench/plays/proxy.py PROXY [load]     PROXY is the built program (bench/plays/from_c.sh proxy builds it); `load` asks for five seconds each by one and by eight clients of ab too

It takes less than a minute, whatever hangs (with `load` a minute and a half). It ends with 1 where an answer is another one, and with 2 where there is no curl.
"""
import http.server
import os
import re
import shutil
import socket
import subprocess
import sys
import threading
import time

BIG = bytes(i * 7 % 251 for i in range(1_000_000))
counts, lock, failing = {}, threading.Lock(), threading.Event()


class Origin(http.server.BaseHTTPRequestHandler):
    protocol_version = "HTTP/1.1"

    def log_message(self, *_):
        pass

    def answer(self, body, status=200, **fields):
        self.send_response(status)
        for name, value in fields.items():
            self.send_header(name.replace("_", "-"), value)
        if status != 304:
            self.send_header("Content-Length", str(len(body)))
        self.end_headers()
        if self.command != "HEAD":
            self.wfile.write(body)

    def in_chunks(self, pieces, pause, is_whole=True):
        self.send_response(200)
        self.send_header("Cache-Control", "max-age=60")
        self.send_header("Transfer-Encoding", "chunked")
        self.end_headers()
        for piece in pieces:
            self.wfile.write(f"{len(piece):x}\r\n".encode() + piece + b"\r\n")
            self.wfile.flush()
            time.sleep(pause)
        if is_whole:
            self.wfile.write(b"0\r\n\r\n")
        self.close_connection = True

    def do_POST(self):
        self.rfile.read(int(self.headers.get("Content-Length", 0)))
        self.answer(b"posted")

    def do_GET(self):
        with lock:
            count = counts[self.path] = counts.get(self.path, 0) + 1
        said = f"{count}".encode()
        name = self.path.split("?")[0]
        if name == "/fresh":
            self.answer(said, Cache_Control="max-age=60", ETag='"1"')
        elif name == "/slow":
            self.in_chunks([b"%d," % i for i in range(10)], 0.05)
        elif name == "/cut":
            self.in_chunks([b"half"], 0.2, is_whole=False)
        elif name == "/swr":
            self.answer(said, Cache_Control="max-age=1, stale-while-revalidate=60" if count == 1 else "max-age=60")
        elif name == "/etag" and self.headers.get("If-None-Match") == '"1"':
            self.answer(b"", 304, Cache_Control="max-age=60", ETag='"1"')
        elif name == "/etag":
            self.answer(said, Cache_Control="max-age=1", ETag='"1"')
        elif name == "/error" and failing.is_set():
            self.answer(b"no", 500)
        elif name == "/error":
            self.answer(said, Cache_Control="max-age=1, stale-if-error=60")
        elif name == "/vary":
            self.answer(f"{self.headers.get('Accept-Language')} {count}".encode(), Cache_Control="max-age=60", Vary="Accept-Language")
        elif name == "/languages":
            tag = f'"{self.headers.get("Accept-Language")}"'
            is_good = self.headers.get("If-None-Match") == tag
            body, status = (b"", 304) if is_good else (said, 200)
            self.answer(body, status, Cache_Control="max-age=0", ETag=tag, Vary="Accept-Language")
        elif name == "/private":
            self.answer(said, Cache_Control="private, max-age=60")
        elif name == "/big":
            self.answer(BIG, Cache_Control="max-age=60")
        elif name == "/small":
            self.answer(BIG[:1024], Cache_Control="max-age=60")
        else:
            self.answer(b"nothing", 404)

    do_HEAD = do_GET


class Play:
    def __init__(self, at):
        self.at, self.failed, self.asked = at, 0, 0

    def start(self, path, *flags):
        words = ["curl", "-s", "-i", "-m", "10", "--noproxy", "*", *flags, f"http://{self.at}{path}"]
        return subprocess.Popen(words, stdout=subprocess.PIPE)

    @staticmethod
    def ended(curl):
        out, _ = curl.communicate(timeout=15)
        head, _, body = out.partition(b"\r\n\r\n")
        fields = {name.lower(): value for name, value in re.findall(r"^([\w-]+): (.*?)\r?$", head.decode("latin-1"), re.M)}
        status = int(head.split(b" ")[1]) if b" " in head else 0
        return curl.returncode, status, fields, body

    def ask(self, path, *flags):
        return self.ended(self.start(path, *flags))

    def wants(self, what, path, *flags, status=200, cache=None, body=None, curl=0, **fields):
        """Asks once, and compares what came."""
        self.asked += 1
        code, was, said, text = self.ask(path, *flags)
        wrong = [f"{name} {said.get(name.replace('_', '-'))}" for name, value in fields.items() if said.get(name.replace("_", "-")) != value]
        if was != status or code != curl or wrong or cache not in (None, said.get("x-cache")) or body not in (None, text):
            self.failed += 1
            print(f"WRONG: {what}: {was}, {said.get('x-cache')}, {text[:60]}, curl {code}, {', '.join(wrong)}")

    def holds(self, what, is_so):
        self.asked += 1
        if not is_so:
            self.failed += 1
            print(f"WRONG: {what}")


def play_all(play):
    wants = play.wants
    wants("a first request fetches", "/fresh", cache="miss", body=b"1", content_length="1")
    wants("a second one does not", "/fresh", cache="hit", body=b"1", etag='"1"')
    wants("HEAD", "/fresh", "-I", cache="hit", body=b"", content_length="1")
    wants("a client that has it", "/fresh", "-H", 'If-None-Match: "1"', status=304, cache="hit", body=b"")
    wants("no-cache asks the origin", "/fresh", "-H", "Cache-Control: no-cache", body=b"2")
    wants("no-store passes", "/fresh", "-H", "Cache-Control: no-store", cache="pass", body=b"3")
    wants("and is not stored", "/fresh", cache="hit", body=b"2")
    wants("only-if-cached", "/else", "-H", "Cache-Control: only-if-cached", status=504)
    wants("PURGE", "/fresh", "-X", "PURGE")
    wants("PURGE of nothing", "/fresh", "-X", "PURGE", status=404)
    wants("after a purge", "/fresh", cache="miss", body=b"4")
    wants("POST goes to the origin", "/fresh", "-d", "x=1", cache="pass", body=b"posted")
    wants("and purges", "/fresh", cache="miss", body=b"5")
    wants("private", "/private", cache="pass", body=b"1")
    wants("private again", "/private", cache="pass", body=b"2")
    wants("an answer of the origin's", "/nothing", status=404, cache="pass", body=b"nothing")
    wants("a request that is none", "/fresh", "-H", "Content-Length: 1", "-H", "Transfer-Encoding: chunked", "-X", "POST", status=400)

    wants("a large body", "/big", cache="miss", body=BIG)
    wants("a large body again", "/big", cache="hit", body=BIG, content_length="1000000")
    wants("a range", "/big", "-r", "10-19", status=206, cache="hit", body=BIG[10:20], content_range="bytes 10-19/1000000")
    wants("a last range", "/big", "-r", "-5", status=206, body=BIG[-5:])
    wants("an open range", "/big", "-r", "999990-", status=206, body=BIG[999990:])
    wants("no such range", "/big", "-r", "2000000-", status=416, content_range="bytes */1000000")
    wants("HEAD of a large body", "/big", "-I", cache="hit", body=b"", content_length="1000000")

    english, german = ("-H", "Accept-Language: en"), ("-H", "Accept-Language: de")
    wants("a variant", "/vary", *english, cache="miss", body=b"en 1")
    wants("another one", "/vary", *german, cache="miss", body=b"de 2")
    wants("the first again", "/vary", *english, cache="hit", body=b"en 1")
    wants("the other again", "/vary", *german, cache="hit", body=b"de 2")
    wants("PURGE of all variants", "/vary", "-X", "PURGE")
    wants("a variant after it", "/vary", *english, cache="miss", body=b"en 3")
    wants("the other after it", "/vary", *german, cache="miss", body=b"de 4")

    wants("a variant that is stale at once", "/languages", *english, cache="miss", body=b"1")
    wants("another such", "/languages", *german, cache="miss", body=b"2")
    for _ in range(2):
        wants("the one is still good", "/languages", *english, cache="revalidated", body=b"1")
        wants("the other too", "/languages", *german, cache="revalidated", body=b"2")

    slow = b"".join(b"%d," % i for i in range(10))
    said = [play.ended(it) for it in [play.start("/slow") for _ in range(20)]]
    play.holds("twenty clients get one fetch's body", counts["/slow"] == 1 and all(it[3] == slow and it[0] == 0 for it in said))
    kinds = sorted(it[2].get("x-cache") for it in said)
    play.holds(f"one of them fetches, and the others read along: {kinds}", kinds == ["hit"] * 19 + ["miss"])
    along = [play.ended(it) for it in [play.start("/cut") for _ in range(5)]]
    play.holds("a body that is cut off is told to all", all(it[0] != 0 for it in along))

    wants("stale-while-revalidate, first", "/swr", cache="miss", body=b"1")
    wants("an ETag, first", "/etag", cache="miss", body=b"1")
    wants("stale-if-error, first", "/error", cache="miss", body=b"1")
    time.sleep(2.1)
    wants("stale while it is renewed", "/swr", cache="stale", body=b"1")
    wants("renewed by a condition", "/etag", cache="revalidated", body=b"1")
    wants("fresh from then on", "/etag", cache="hit", body=b"1")
    failing.set()
    wants("stale after an error", "/error", cache="stale after an error", body=b"1")
    failing.clear()
    renewed = time.time() + 10
    while play.ask("/swr")[2].get("x-cache") != "hit" and time.time() < renewed:
        time.sleep(0.1)
    wants("the renewed body", "/swr", cache="hit", body=b"2")
    play.holds("one fetch renewed it", counts["/swr"] == 2)


def load(at):
    if not shutil.which("ab"):
        print("load: there is no ab (Debian's apache2-utils)")
        return
    subprocess.run(["curl", "-s", "-m", "10", "-o", "/dev/null", f"http://{at}/small"], check=False)
    for clients in ("1", "8"):
        out = subprocess.run(["ab", "-q", "-t", "5", "-n", "200000", "-c", clients, f"http://{at}/small"], capture_output=True, text=True, timeout=15, check=False)
        found = dict(re.findall(r"^(Failed requests|Non-2xx responses|Requests per second):\s+([\d.]+)", out.stdout, re.M))
        print(f"load: {clients} clients, a connection for each request of 1 KiB: {found}")


def main():
    if len(sys.argv) not in (2, 3):
        sys.exit(__doc__)
    if not shutil.which("curl"):
        print("proxy: there is no curl")
        sys.exit(2)
    http.server.ThreadingHTTPServer.request_queue_size = 128
    origin = http.server.ThreadingHTTPServer(("127.0.0.1", 0), Origin)
    threading.Thread(target=origin.serve_forever, daemon=True).start()
    proxy = subprocess.Popen([sys.argv[1], "127.0.0.1:0", f"127.0.0.1:{origin.server_port}"], stdout=subprocess.PIPE, text=True)
    most = 90 if sys.argv[2:] else 55
    threading.Timer(most, proxy.kill).start()  # what hangs then ends
    threading.Timer(most + 3, lambda: os._exit(1)).start()
    try:
        at = proxy.stdout.readline().strip()
        host, port = at.split(":")
        socket.create_connection((host, int(port)), 5).close()
        play = Play(at)
        play_all(play)
        if sys.argv[2:] == ["load"]:
            load(at)
        play.holds("the proxy stands", proxy.poll() is None)
    finally:
        proxy.kill()
        proxy.wait()
    print(f"proxy: {play.asked - play.failed} answers as they should be, {play.failed} others")
    sys.stdout.flush()
    os._exit(1 if play.failed else 0)


if __name__ == "__main__":
    main()
