#!/usr/bin/env python3
"""Plays over HTTP that each client gets one response: a head on its own body, the newest one, and none from before a purge.

  bench/plays/one_response.py PROXY [RULES ..]

PROXY is the built program of examples_rust/proxy.rs. RULES is a command that runs `rfc9111_proxy`, which reads requests from its standard
input, as `bench/make/tried.py rfc9111_proxy`. `bench/plays/from_c.sh one_response` builds both, and calls this.

The origin is in this script, and sends a head and each half of its body when a scenario says so: nothing goes by the clock. A version of
a page has its name in its head (ETag, X-Version, Content-Type) and in each line of its body. By their numbers, scenarios have

  1  a validation beside a fill: no head of one version on the body of another
  2  a purge while the origin is asked: what was asked for before a purge is not served to who comes after it
  3  the same with variants: none that was stored before a purge of its URL is served after it. The last of these is a race of a purge
     and of a renewal in the background, which is run many times, with the purge each time some hundredths of a millisecond later
  4  a reload beside a slow fill: the newer version stays
  5  pages by Cookie: none is served to somebody else

It prints a line for each scenario, `passed` or `FAILED`, with what its clients got one after the other (the status, X-Cache, and the
versions of head and body), and then `N passed, M failed`. It ends with 1 if one failed, and with 77 if there is no such PROXY. It takes
a second or two, and is ended after two minutes, whatever hangs.
"""
import collections
import os
import re
import socket
import subprocess
import sys
import threading
import time

LIMIT = 10  # seconds that anything may take before its scenario fails
WHOLE = 120  # seconds that all may take together
RACES = 120
LINES = 6  # of a body
FRESH, STALE, RENEWED_BEHIND = "max-age=60", "max-age=0", "max-age=0, stale-while-revalidate=60"
LANGUAGE = "Accept-Language"
moved = threading.Condition()  # tells of all that is waited for


class Wrong(Exception):
    """What a scenario saw, and should not."""


def until(what, is_so):
    with moved:
        if not moved.wait_for(is_so, LIMIT):
            raise Wrong(f"waited in vain until {what}")


def wants(what, is_so):
    if not is_so:
        raise Wrong(what)


# ---- the origin ----

class Ask:
    """A request at the origin, which is answered by the calls of a scenario."""
    def __init__(self, stream, lines):
        self.stream, self.half = stream, b""
        self.method, self.path, _ = lines[0].split(" ")
        fields = {name.lower(): value.strip() for name, _, value in (it.partition(":") for it in lines[1:])}
        self.condition = fields.get("if-none-match")

    def send(self, data, is_last=False):
        try:
            self.stream.sendall(data)
            if is_last:
                self.stream.shutdown(socket.SHUT_RDWR)
                self.stream.close()
        except OSError:
            pass  # the proxy is gone, as its client will tell

    def head(self, status, version, lifetime, vary, more):
        fields = [f'ETag: "{version}"', f"X-Version: {version}", f"Content-Type: text/x-{version}", f"Cache-Control: {lifetime}"]
        fields += ([f"Vary: {vary}"] if vary else []) + more + ["Connection: close"]
        return "\r\n".join([f"HTTP/1.1 {status} it", *fields, "", ""]).encode()

    def begins(self, version, lifetime, vary=None):
        """Sends a head, and the first half of its body. That is in chunks, so its client has the last one once the proxy stored it."""
        half = b"version %s of %s\n" % (version.encode(), self.path.encode()) * (LINES // 2)
        self.half = b"%x\r\n%b\r\n" % (len(half), half)
        self.send(self.head(200, version, lifetime, vary, ["Transfer-Encoding: chunked"]) + self.half)

    def ends(self):
        self.send(self.half + b"0\r\n\r\n", is_last=True)

    def breaks(self):
        self.send(b"", is_last=True)

    def answers(self, version, lifetime, vary=None):
        self.begins(version, lifetime, vary)
        self.ends()

    def answers_head(self, version, lifetime):
        self.send(self.head(200, version, lifetime, None, ["Content-Length: 99"]), is_last=True)

    def confirms(self, version, lifetime, vary=None):
        """Says that the version is good which the proxy has."""
        self.send(self.head(304, version, lifetime, vary, []), is_last=True)


class Origin:
    def __init__(self):
        self.asks = collections.defaultdict(list)  # by their paths, those that no scenario took
        self.listener = socket.create_server(("127.0.0.1", 0), backlog=128)
        self.port = self.listener.getsockname()[1]
        threading.Thread(target=self.accept, daemon=True).start()

    def accept(self):
        while True:
            stream, _ = self.listener.accept()
            stream.setsockopt(socket.IPPROTO_TCP, socket.TCP_NODELAY, 1)
            threading.Thread(target=self.read, args=[stream], daemon=True).start()

    def read(self, stream):
        lines, of = [], stream.makefile("rb")
        while (line := of.readline().strip()):
            lines.append(line.decode("latin-1"))
        if lines:
            with moved:
                ask = Ask(stream, lines)
                self.asks[ask.path].append(ask)
                moved.notify_all()


# ---- the clients ----

class Client(threading.Thread):
    """A request to the proxy, and what came of it so far."""
    def __init__(self, at, method, path, fields):
        super().__init__(daemon=True)
        self.method = method
        self.status, self.fields, self.body, self.end = 0, {}, b"", None
        self.stream = socket.create_connection(at, LIMIT * 2)
        self.stream.setsockopt(socket.IPPROTO_TCP, socket.TCP_NODELAY, 1)
        lines = [f"{method} {path} HTTP/1.1", "Host: play", "Connection: close", *(f"{name.replace('_', '-')}: {value}" for name, value in fields.items())]
        self.asks = "\r\n".join([*lines, "", ""]).encode()

    def send(self):
        self.stream.sendall(self.asks)

    def run(self):
        end = "no answer"
        try:
            with self.stream, self.stream.makefile("rb") as of:
                self.read_head(of)
                end = "cut off"
                end = "whole" if self.read_body(of) else end
        except (OSError, ValueError, IndexError, KeyError):
            pass
        with moved:
            self.end = end
            moved.notify_all()

    def read_head(self, of):
        status = int(of.readline().split(b" ")[1])
        while (line := of.readline().strip()):
            name, _, value = line.decode("latin-1").partition(":")
            self.fields[name.lower()] = value.strip()
        with moved:
            self.status = status
            moved.notify_all()

    def read_body(self, of):
        """Whether the body comes to its end."""
        if self.method == "HEAD" or self.status in (204, 304):
            return True
        if self.fields.get("transfer-encoding") == "chunked":
            while (size := int(of.readline(), 16)):
                if not self.take(of.read(size), size) or of.readline() != b"\r\n":
                    return False
            return of.readline() == b"\r\n"
        left = int(self.fields["content-length"])
        while left and (piece := of.read1(left)):
            left -= len(piece)
            self.take(piece, len(piece))
        return left == 0

    def take(self, piece, size):
        with moved:
            self.body += piece
            moved.notify_all()
        return len(piece) == size

    @property
    def head_version(self):
        """The version that the fields of the head are of; several if they are of several."""
        fields = self.fields
        said = {fields.get("x-version", ""), fields.get("etag", "").strip('"'), fields.get("content-type", "").partition("/x-")[2]}
        return "+".join(sorted(said))

    @property
    def body_version(self):
        return "+".join(sorted(set(re.findall(r"^version (\S+) of ", self.body.decode("latin-1"), re.M))))

    def is_torn(self):
        return self.status == 200 and self.method == "GET" and self.body != b"" and self.body_version != self.head_version

    def __str__(self):
        if self.status == 200 and self.method == "GET":
            said = f"{self.status} {self.fields.get('x-cache')} {self.head_version}/{self.body_version}"
        else:
            said = f"{self.method} {self.status}"
        return said if self.end == "whole" else f"{said} {self.end or 'on its way'}"


class Play:
    """A scenario's clients, with the proxy between them and the origin."""
    def __init__(self, at, origin, path):
        self.at, self.origin, self.path, self.clients = at, origin, path, []

    def connects(self, method, **fields):
        """A client that sends nothing yet."""
        self.clients.append(client := Client(self.at, method, self.path, fields))
        return client

    def sends(self, method="GET", **fields):
        client = self.connects(method, **fields)
        client.send()
        client.start()
        return client

    @property
    def asks(self):
        """The requests at the origin that were not taken."""
        return self.origin.asks[self.path]

    def asked(self, condition=None, method="GET"):
        """The next request at the origin, with this If-None-Match."""
        until("the origin is asked", lambda: self.asks)
        ask = self.asks.pop(0)
        wants(f"the origin got {ask.method} with If-None-Match: {ask.condition}, in place of {condition}", (ask.method, ask.condition) == (method, condition))
        return ask

    def ends(self, client, version, end="whole"):
        """Waits for the end of an answer, which has to be of this version."""
        until(f"a client gets {version}", lambda: client.end)
        lines = LINES if end == "whole" else LINES // 2
        is_so = (client.status, client.head_version, client.body_version, client.end, client.body.count(b"\n")) == (200, version, version, end, lines)
        wants(f"({client}) in place of {version}", is_so)

    def begins(self, version, lifetime, condition=None, vary=None, **fields):
        """A client, and the request at the origin that sent the first half of its answer."""
        client = self.sends(**fields)
        ask = self.asked(condition)
        ask.begins(version, lifetime, vary)
        until(f"a client gets the first half of {version}", lambda: client.body or client.end)
        return client, ask

    def is_asked(self, client):
        """Whether the origin is asked before a client has its answer."""
        until("a client gets an answer, or the origin is asked", lambda: client.end or self.asks)
        return bool(self.asks)

    def fetches(self, version, lifetime, condition=None, vary=None, **fields):
        """A client whose answer has to come from the origin."""
        client = self.sends(**fields)
        is_asked = self.is_asked(client)
        wants(f"({client}) from the store, in place of {version} from the origin", is_asked)
        self.asked(condition).answers(version, lifetime, vary)
        self.ends(client, version)

    def gets(self, client, version):
        """Waits for the end of an answer. Whoever asks the origin until then gets this version."""
        while self.is_asked(client):
            self.asks.pop(0).answers(version, FRESH, LANGUAGE)

    def finds(self, version, **fields):
        """A client whose answer has to come from the store."""
        client = self.sends(**fields)
        wants(f"the origin is asked, and {version} is not found in the store", not self.is_asked(client))
        self.ends(client, version)

    def fills(self, version, vary=None, **fields):
        """Clients whose answers come from the origin, until one is found in the store: who waited for a fetch that is not stored passes."""
        self.fetches(version, FRESH, None, vary, **fields)
        for _ in range(5):
            client = self.sends(**fields)
            if self.is_asked(client):
                self.asked().answers(version, FRESH, vary)
            self.ends(client, version)
            if client.fields.get("x-cache") == "hit":
                return
        raise Wrong(f"{version} is not stored")

    def purges(self):
        client = self.sends("PURGE")
        until("the purge is answered", lambda: client.end)
        wants(f"the purge got {client.status}", client.status in (200, 404))

    def settles(self, client, version):
        """Waits until the proxy did what a 304 has it do: its client has a head by then, or the origin is asked anew."""
        until("a 304 comes to something", lambda: client.status or client.end or self.asks)
        if self.asks:
            self.asked().answers(version, FRESH)
            self.ends(client, version)


# ---- 1: a head on its own body ----

def breaks_off(play):
    """1 a version is confirmed while it comes, and breaks off"""
    play.fetches("1", STALE)
    first, filling = play.begins("2", STALE, '"1"')
    second = play.sends()
    play.asked('"2"').confirms("2", FRESH)
    play.settles(second, "2")
    filling.breaks()
    play.ends(first, "2", "cut off")
    play.finds("1", Cache_Control="max-stale")
    play.fetches("2", FRESH, '"1"')
    play.finds("2")


def stands(play):
    """1 a version that was found while it came stands when it is confirmed"""
    play.fetches("1", STALE)
    first, filling = play.begins("2", STALE, '"1"')
    second = play.sends()
    check = play.asked('"2"')
    filling.ends()
    play.ends(first, "2")
    check.confirms("2", FRESH)
    play.settles(second, "2")
    play.ends(second, "2")
    play.finds("2")


def changes(play):
    """1 the origin changes between two validations: the one that it confirms broke off, and the one before is stored"""
    play.fetches("1", STALE)
    first, slow = play.begins("2", STALE, '"1"')
    second, broken = play.begins("3", STALE, '"2"')
    third = play.sends()
    check = play.asked('"3"')
    broken.breaks()
    play.ends(second, "3", "cut off")
    slow.ends()
    play.ends(first, "2")
    check.confirms("3", FRESH)
    play.settles(third, "3")
    play.finds("2", Cache_Control="max-stale")
    play.fetches("2", FRESH, '"2"')


def goes_back(play):
    """1 the origin confirms a version that broke off, and then the one before"""
    play.fetches("1", STALE)
    first, filling = play.begins("2", STALE, '"1"')
    second = play.sends()
    check = play.asked('"2"')
    filling.breaks()
    play.ends(first, "2", "cut off")
    check.confirms("2", FRESH)
    play.settles(second, "2")
    third = play.sends()
    play.asked('"1"').confirms("1", FRESH)
    play.ends(third, "1")
    play.finds("1")


def heads(play):
    """1 HEADs that get another version than the stored one: alone, while that version comes, and with its condition"""
    play.fetches("1", STALE)
    for is_coming in (False, True):
        first, filling = play.begins("2", STALE, '"1"') if is_coming else (None, None)
        head = play.sends("HEAD")
        play.asked(method="HEAD").answers_head("2", FRESH)
        until("the HEAD is answered", lambda: head.end)
        wants(f"the HEAD got {head.head_version}", head.head_version == "2")
        if is_coming:
            filling.breaks()
            play.ends(first, "2", "cut off")
        play.finds("1", Cache_Control="max-stale")
    head = play.sends("HEAD", If_None_Match='"2"')
    play.asked('"2"', "HEAD").confirms("2", FRESH)
    until("the HEAD with a condition is answered", lambda: head.end)
    play.finds("1", Cache_Control="max-stale")
    play.fetches("2", FRESH, '"1"')


# ---- 2: none from before a purge ----

def purge_of_a_miss(play):
    """2 a purge while a miss is at the origin"""
    client = play.sends()
    ask = play.asked()
    play.purges()
    ask.answers("old", FRESH)
    play.ends(client, "old")
    play.fills("new")


def purge_of_a_reload(play):
    """2 a purge while a reload is at the origin"""
    play.fetches("1", FRESH)
    client = play.sends(Cache_Control="no-cache")
    ask = play.asked('"1"')
    play.purges()
    ask.answers("old", FRESH)
    play.ends(client, "old")
    play.fills("new")


def purge_of_a_validation(play):
    """2 a purge while a validation is at the origin, which sends another version"""
    play.fetches("1", STALE)
    client = play.sends()
    ask = play.asked('"1"')
    play.purges()
    ask.answers("old", FRESH)
    play.ends(client, "old")
    play.fills("new")


def purge_of_a_304(play):
    """2 a purge while a validation is at the origin, which confirms"""
    play.fetches("1", STALE)
    client = play.sends()
    ask = play.asked('"1"')
    play.purges()
    ask.confirms("1", FRESH)
    play.settles(client, "1")
    play.ends(client, "1")
    play.fills("new")


def purge_of_a_renewal(play):
    """2 a purge while a renewal in the background is at the origin"""
    play.fetches("1", RENEWED_BEHIND)
    play.ends(play.sends(), "1")
    ask = play.asked('"1"')
    play.purges()
    ask.answers("old", FRESH)
    play.fills("new")


def purge_of_a_fill(play):
    """2 a purge between a head and the end of its body"""
    client, ask = play.begins("old", FRESH)
    play.purges()
    play.fills("new")
    ask.ends()
    play.ends(client, "old")
    play.finds("new")


def purge_before_waits(play):
    """2 those who come after a purge wait for who came before it"""
    first = play.sends()
    ask = play.asked()
    play.purges()
    later = [play.sends() for _ in range(5)]
    time.sleep(0.1)  # so that most of them wait by then; whether they do is not told, and changes nothing of what they are to get
    ask.answers("old", FRESH)
    play.ends(first, "old")
    for client in later:
        while play.is_asked(client):
            play.asks.pop(0).answers("new", FRESH)
        play.ends(client, "new")


# ---- 3: variants ----

ENGLISH, GERMAN, FRENCH = {"Accept_Language": "en"}, {"Accept_Language": "de"}, {"Accept_Language": "fr"}


def stores_both(play, english, german=FRESH):
    """The English page stands under the URL itself, the German one beside it."""
    play.fetches("en-1", english, vary=LANGUAGE, **ENGLISH)
    play.fetches("de-1", german, vary=LANGUAGE, **GERMAN)


def stores_anew(play, *languages):
    for language in languages:
        play.fills(f"{language}-2", LANGUAGE, Accept_Language=language)
    play.finds("de-2", **GERMAN)
    play.finds("en-2", **ENGLISH)


def stores_anew_german(play):
    play.fills("de-2", LANGUAGE, **GERMAN)
    play.finds("en-2", **ENGLISH)


def variants_of_a_validation(play):
    """3 a purge while the URL's own variant is validated, and the origin sends another version"""
    stores_both(play, STALE)
    client = play.sends(**ENGLISH)
    ask = play.asked('"en-1"')
    play.purges()
    ask.answers("en-old", FRESH, LANGUAGE)
    play.ends(client, "en-old")
    stores_anew(play, "en", "de")


def variants_of_a_304(play):
    """3 a purge while the URL's own variant is validated, and the origin confirms"""
    stores_both(play, STALE)
    client = play.sends(**ENGLISH)
    ask = play.asked('"en-1"')
    play.purges()
    ask.confirms("en-1", FRESH, LANGUAGE)
    play.settles(client, "en-1")
    play.ends(client, "en-1")
    stores_anew(play, "de", "en")


def variants_of_a_renewal(play):
    """3 a purge while the URL's own variant is renewed in the background"""
    stores_both(play, RENEWED_BEHIND)
    play.ends(play.sends(**ENGLISH), "en-1")
    ask = play.asked('"en-1"')
    play.purges()
    ask.answers("en-old", FRESH, LANGUAGE)
    stores_anew(play, "en", "de")


def variants_of_another(play):
    """3 a purge while another variant is validated; the URL is filled, and then the origin confirms"""
    stores_both(play, FRESH, STALE)
    client = play.sends(**GERMAN)
    ask = play.asked('"de-1"')
    play.purges()
    play.fills("en-2", LANGUAGE, **ENGLISH)
    ask.confirms("de-1", FRESH, LANGUAGE)
    play.settles(client, "de-1")
    play.ends(client, "de-1")
    stores_anew_german(play)


def variants_of_another_fetch(play):
    """3 a purge while another variant is validated; the URL is filled, and then the origin sends another version"""
    stores_both(play, FRESH, STALE)
    client = play.sends(**GERMAN)
    ask = play.asked('"de-1"')
    play.purges()
    play.fills("en-2", LANGUAGE, **ENGLISH)
    ask.answers("de-old", FRESH, LANGUAGE)
    play.ends(client, "de-old")
    stores_anew_german(play)


def variants_of_a_miss(play):
    """3 a purge while a third variant is a miss at the origin"""
    stores_both(play, FRESH)
    client = play.sends(**FRENCH)
    ask = play.asked()
    play.purges()
    ask.answers("fr-old", FRESH, LANGUAGE)
    play.ends(client, "fr-old")
    play.fills("fr-2", LANGUAGE, **FRENCH)
    stores_anew(play, "en", "de")


def race(play):
    """3 a purge beside a request for the URL's own variant, which is stale and renewed in the background, many times"""
    path, served = play.path, 0
    for number in range(RACES):
        play.path, play.clients = f"{path}/{number}", []
        stores_both(play, RENEWED_BEHIND)
        english, purge = play.connects("GET", **ENGLISH), play.connects("PURGE")
        english.send()
        begin = time.perf_counter()
        while time.perf_counter() < begin + number % 40 * 1e-5:
            pass  # (a wait sleeps for longer)
        purge.send()
        for client in (english, purge):
            client.start()
            play.gets(client, "en-2")
        # (the renewal has the permit until its response is stored or refused, so who asks then waits for that)
        for _ in range(5):
            if english.fields.get("x-cache") != "hit":
                play.gets(english := play.sends(**ENGLISH), "en-2")
        german = play.sends(**GERMAN)
        play.gets(german, "de-2")
        served += german.body_version == "de-1"
    wants(f"in {served} of {RACES} races the German page from before the purge was served", not served)


# ---- 4: a reload ----

def reload(play):
    """4 a reload beside a slow fill"""
    first, slow = play.begins("1", FRESH)
    along = play.sends()
    until("a second client reads along", lambda: along.body or along.end)
    play.fetches("2", FRESH, '"1"', Cache_Control="no-cache")
    play.finds("2")
    slow.ends()
    play.ends(first, "1")
    play.ends(along, "1")
    play.finds("2")
    play.finds("2", Cache_Control="only-if-cached")


def reload_comes(play):
    """4 a reload that comes slowly too, and is read along"""
    first, slow = play.begins("1", FRESH)
    second, newer = play.begins("2", FRESH, '"1"', Cache_Control="no-cache")
    along = play.sends()
    until("a third client reads along", lambda: along.body or along.end)
    slow.ends()
    play.ends(first, "1")
    newer.ends()
    play.ends(second, "2")
    play.ends(along, "2")
    play.finds("2")


def reload_breaks(play):
    """4 a reload that breaks off: the slow fill is stored"""
    first, slow = play.begins("1", FRESH)
    second, newer = play.begins("2", FRESH, '"1"', Cache_Control="no-cache")
    newer.breaks()
    play.ends(second, "2", "cut off")
    slow.ends()
    play.ends(first, "1")
    play.finds("1")


# ---- 5: pages by Cookie ----

ALICE, BOB = {"Cookie": "alice"}, {"Cookie": "bob"}


def cookies(play):
    """5 alice's page is not served to bob"""
    play.fetches("alice", FRESH, vary="Cookie", **ALICE)
    play.finds("alice", **ALICE)
    only = play.sends(Cache_Control="only-if-cached", **BOB)
    until("bob is answered", lambda: only.end)
    wants(f"bob got {only} of what is stored", only.status == 504)
    play.fetches("bob", FRESH, vary="Cookie", **BOB)
    play.finds("bob", **BOB)
    play.finds("alice", **ALICE)
    play.fetches("nobody", FRESH, vary="Cookie")


def cookies_along(play):
    """5 nor while it comes, nor after an error"""
    first, ask = play.begins("alice", STALE + ", stale-if-error=60", vary="Cookie", **ALICE)
    play.fetches("bob", FRESH, vary="Cookie", **BOB)
    ask.ends()
    play.ends(first, "alice")
    nobody = play.sends()
    play.asked().breaks()
    until("nobody is answered", lambda: nobody.end)
    wants(f"nobody got {nobody}", nobody.status in (502, 504))
    alice = play.sends(**ALICE)
    play.asked('"alice"').breaks()
    play.ends(alice, "alice")


# What `rfc9111_proxy` is asked, and whether it may say that it answers from the cache (RFC 9111, 4.1).
COOKIES = [
    ("1000 GET /me | Cookie: alice => 200 | Cache-Control: max-age=60, stale-if-error=60 | Vary: Cookie", False),
    ("1001 GET /me | Cookie: alice", True),
    ("1001 GET /me | Cookie: bob", False),
    ("1001 GET /me", False),
    ("1001 GET /me | Cookie: alice | Cookie: bob", False),
    ("1061 GET /me | Cookie: bob", False),
    ("1061 GET /me | Cookie: bob => 503", False),
    ("1061 GET /me | Cookie: alice", True),
    ("1062 GET /me | Cookie: bob => 200 | Cache-Control: max-age=60 | Vary: Cookie", False),
    ("1063 GET /me | Cookie: alice", False),
    ("1063 GET /me | Cookie: bob", True),
]


def by_rules(command):
    """5 the same at rfc9111_proxy"""
    lines = [it for it, _ in COOKIES]
    run = subprocess.run(command, input="\n".join(lines) + "\n", capture_output=True, text=True, timeout=WHOLE, check=False)
    said = dict(re.findall(r"^(\d.*)\n  (.*)$", run.stdout, re.M))
    wants(f"it ended with {run.returncode}: {run.stderr[-200:]}", run.returncode == 0 and set(said) == set(lines))
    for line, is_served in COOKIES:
        wants(f"{line}: {said[line]}", said[line].startswith(("FromCache", "InPlaceOfAnError")) == is_served)
    return ", ".join(said.values())


SCENARIOS = [breaks_off, stands, changes, goes_back, heads]
SCENARIOS += [purge_of_a_miss, purge_of_a_reload, purge_of_a_validation, purge_of_a_304, purge_of_a_renewal, purge_of_a_fill, purge_before_waits]
SCENARIOS += [variants_of_a_validation, variants_of_a_304, variants_of_a_renewal, variants_of_another, variants_of_another_fetch, variants_of_a_miss, race]
SCENARIOS += [reload, reload_comes, reload_breaks, cookies, cookies_along]


def played(scenario, at, origin):
    """Plays a scenario at a path of its own: whether it passed, and what was seen."""
    play, why = Play(at, origin, f"/{scenario.__name__}"), ""
    try:
        scenario(play)
        torn = [str(it) for it in play.clients if it.is_torn()]
        wants(f"head and body of two versions: {torn}", not torn)
    except (Wrong, OSError) as wrong:
        why = f"{wrong}; after "
    return not why, why + ", ".join(map(str, play.clients))


def tell(name, is_good, seen):
    print(f"{'passed' if is_good else 'FAILED'} {name}: {seen}", flush=True)
    return is_good


def main():
    if len(sys.argv) < 2:
        sys.exit(__doc__)
    program, rules = sys.argv[1], sys.argv[2:]
    if not os.access(program, os.X_OK):
        print(f"one_response: there is no {program} (bench/plays/from_c.sh one_response builds it, with gcc, rustc and cargo)")
        sys.exit(77)
    origin, good = Origin(), []
    proxy = subprocess.Popen([program, "127.0.0.1:0", f"127.0.0.1:{origin.port}"], stdout=subprocess.PIPE, text=True)
    end = threading.Timer(WHOLE, lambda: (proxy.kill(), print("one_response: ended, as it hangs", flush=True), os._exit(1)))
    end.daemon = True
    end.start()
    try:
        host, port = proxy.stdout.readline().strip().split(":")
        for scenario in SCENARIOS:
            good.append(tell(scenario.__doc__, *played(scenario, (host, int(port)), origin)))
        good.append(tell("the proxy stands", proxy.poll() is None, "it does" if proxy.poll() is None else proxy.returncode))
    finally:
        end.cancel()
        proxy.kill()
        proxy.wait()
    if rules:
        try:
            good.append(tell(by_rules.__doc__, True, by_rules(rules)))
        except (Wrong, OSError, subprocess.TimeoutExpired) as wrong:
            good.append(tell(by_rules.__doc__, False, wrong))
    print(f"{good.count(True)} passed, {good.count(False)} failed", flush=True)
    os._exit(0 if all(good) else 1)


if __name__ == "__main__":
    main()
