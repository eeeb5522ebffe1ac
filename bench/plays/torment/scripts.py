"""The scripts that are tormented: rows with their wanted replies, puts in pieces, and random calls."""
import os
import random

from plain import word_of

HERE = os.path.dirname(os.path.realpath(__file__))
NONE = "0" * 32
ONE = "0" * 31 + "1"


class Script:
    """The lines of a script, the limits of its manager, and the replies that are wanted if nothing is refused, if known."""

    def __init__(self, name, limits, lines, replies=None, is_plain=False):
        self.name, self.limits, self.lines, self.replies = name, limits, lines, replies
        self.is_plain = is_plain  # it runs once, with no refusal


def rows():
    """The rows of the file beside this one."""
    made = []
    with open(os.path.join(HERE, "rows.txt"), encoding="utf-8") as it:
        for line in it.read().split("\n"):
            if line.startswith("== "):
                made.append(Script(line[3:], None, [], []))
            elif line.startswith("limits "):
                made[-1].limits = line.split(" ")[1:]
            elif " -> " in line:
                call, reply = line.split(" -> ")
                made[-1].lines.append(call)
                made[-1].replies.append(reply)
    return made


# rows in which what one request lets go is told of another
BETWEEN = ["a purge while a write is in flight", "a reader follows a purged write", "age timeout, and a late release leaves the new permit",
           "told by a publication", "released before told", "aged before told"]


def insertions():
    """The end, the disabling and a release of each request between every two lines of some rows."""
    made = []
    for row in rows():
        numbers = sorted({line.split(" ")[1] for line in row.lines if line.split(" ")[0] not in ("at", "stat")})
        for place in range(len(row.lines) + 1) if row.name in BETWEEN else []:
            for number in numbers:
                for call in (f"end {number}", f"disable {number} InternalError", f"release {number} InternalError"):
                    lines = row.lines[:place] + [call] + row.lines[place:]
                    made.append(Script(f"{row.name}, with {call} before line {place + 1}", row.limits, lines, [None] * len(lines), True))
    return made


OK = b"HTTP/1.1 200 OK\r\nContent-Length: 4\r\n\r\n"
PUTS = [
    # name, what begins the put, its bytes, and what is wanted at its end
    ("stored", "put 9 a 1", OK + b"rust", "stored 4 evicted 0"),
    ("not cacheable", "put 9 a 1", b"HTTP/1.1 200 OK\r\nContent-Length: 4\r\nCache-Control: no-store\r\n\r\nru", "no cache OriginNotCache"),
    ("ends early", "put 9 a 1", OK + b"ru", "refused E5"),
    ("status 204", "put 9 a 1", b"HTTP/1.1 204 OK\r\nContent-Length: 4\r\n\r\n", "stored 0 evicted 0"),
    ("too large by its head", "put 9 a 1 3", OK + b"rust", "no cache ResponseTooLarge"),
    ("too large by its body", "put 9 a 1 3", b"HTTP/1.1 200 OK\r\n\r\nrust", "refused E4"),
    ("bytes past the length", "put 9 a 1", OK + b"rustXX", "stored 4 evicted 0"),
    ("to the end", "put 9 a 1", b"HTTP/1.1 200 OK\r\n\r\nrust", "stored 4 evicted 0"),
    ("an invalid head", "put 9 a 1", b"HTTP/1.1 2x\r\n\r\n", "refused E3"),
]


def puts():
    """Each put cut in two at each place, and byte by byte."""
    made = []
    for name, begin, data, end in PUTS:
        cuts = [[place] for place in range(len(data) + 1)] + [list(range(1, len(data)))]
        for cut in cuts:
            ends = cut + [len(data)]
            pieces = [data[start:stop] for start, stop in zip([0] + ends, ends)]
            lines = [begin] + [f"feed 9 {word_of(piece)}" for piece in pieces] + ["close 9"]
            where = f"cut at {cut[0]}" if len(cut) == 1 else "byte by byte"
            made.append(Script(f"a put, {name}, {where}", ["9"], lines, ["ok"] + [None] * len(pieces) + [end]))
    return made


# What a request may do next, by what it did last and what is likely to have come of it; a word that stands twice is likelier.
NEXT = {
    "": ["open"],
    "open": ["key"] * 9 + ["phase", "disable"],
    "disable": ["enable", "enable", "end", "phase"],
    "key": ["look"] * 12 + ["purge", "expire", "bypass", "key", "lock"],
    "hit": ["found", "found", "found", "found", "vary", "look", "miss"],
    "none": ["miss"] * 8 + ["publish", "release", "give", "disable"],
    "waits": ["wait", "wait", "wait", "look", "look", "end", "release"],
    "fresh": ["read", "read", "read", "seek", "done", "end", "lock"],
    "stale": ["meta", "meta", "read", "updating", "uncacheable", "revalidate", "revalidate", "wait", "look", "miss", "publish", "disable"],
    "served": ["read", "seek", "done", "end", "end"],
    "miss": ["meta"] * 8 + ["publish", "finish"],
    "meta": ["begin", "begin", "begin", "begin", "variance"],
    "begin": ["write", "write", "write", "finish", "read", "read"],
    "finish": ["end", "end", "read", "done"],
}
AFTER = {
    "enable": "open", "lock": None, "phase": None, "purge": None, "expire": None, "bypass": "none", "vary": "key", "wait": None,
    "publish": None, "release": None, "give": None, "read": None, "seek": None, "done": "served", "updating": "served",
    "uncacheable": "served", "revalidate": "served", "variance": None, "write": None, "end": "",
}
ODD = [name for name in {**NEXT, **AFTER} if name not in ("", "hit", "none", "waits", "fresh", "stale", "served")] + ["found", "look"]
STATUSES = ["fresh", "fresh", "fresh", "expired", "expired", "force_miss", "force_fresh", "force_expired", "failed_hit_filter"]
REASONS = ["InternalError", "OriginNotCache", "Deferred", "UpstreamError", "CacheLockTimeout", "NeverEnabled"]
PIECES = [OK + b"rust", OK, b"HTTP/1.1 200 OK\r\nContent-", b"Length: 2\r\n\r\n", b"ru", b"st", b"HTTP/1.1 200 OK\r\n\r\n", b"x", b"",
          b"HTTP/1.1 200 OK\r\nCache-Control: no-store\r\n\r\n", b"HTTP/1.1 2x\r\n\r\n", b"HTTP/1.1 204 OK\r\n\r\n"]


class Guess:
    """What is likely to have come of the calls so far, by which the next one is picked."""

    def __init__(self):
        self.state, self.key, self.there, self.asked = {}, {}, set(), {}

    def after(self, name, number, words):
        key = self.key.get(number)
        if name == "key":
            self.key[number] = words[0]
        state = AFTER.get(name, name)
        if name == "look":
            state = "hit" if key in self.there else "waits" if self.asked.get(key, number) != number else "none"
            if state == "none":
                self.asked[key] = number
        if name == "found":
            state = {"f": "fresh", "e": "stale"}[words[0][0]] if words[0] in ("fresh", "expired") else "stale"
            state = "fresh" if words[0] == "force_fresh" else "none" if words[0] in ("force_miss", "failed_hit_filter") else state
        if name in ("begin", "finish"):
            self.there.add(key)
        if name == "purge":
            self.there.discard(key)
        if name in ("begin", "release", "end", "disable") and self.asked.get(key) == number:
            del self.asked[key]
        if state is not None:
            self.state[number] = state


def random_script(seed, count=250):
    """Calls of a few requests and puts on a few keys, most of them where a call before them leads."""
    chance = random.Random(seed)
    limits = [str(chance.randint(2, 9))] + ([str(chance.randint(1, 3))] if chance.random() < 0.4 else [])
    guess, puts_so_far, lines, second = Guess(), {}, [], 0
    while len(lines) < count:
        if chance.random() < 0.04:
            second = max(0, second + chance.choice([1, 1, 2, 5, 11, -3]))
            lines.append(f"at {second}")
            continue
        if chance.random() < 0.02:
            lines.append("stat")
            continue
        if chance.random() < (0.01 if lines else 0.5):
            lines.append(chance.choice(["load d", "load d", "save d"]))
            continue
        number = chance.choice([1, 1, 1, 2, 2, 2, 3, 3, 3, 4, 9])
        if number == 9:
            lines.append(put_line(chance, puts_so_far))
            continue
        is_led = chance.random() < 0.95
        name = chance.choice(NEXT[guess.state.get(number, "")] if is_led else ODD)
        line = request_line(chance, name, number)
        if is_led:
            guess.after(name, number, line.split(" ")[2:])
        lines.append(line)
    return Script(f"random calls {seed}", limits, lines)


def request_line(chance, name, number):
    data = chance.choice(["x", "yy", "zzz", "vvvvv", "\\e"])
    key = f"{chance.choice('aaaabc')} {chance.choice('112')}"
    rest = {
        "open": chance.choice(["", "", " w=2"]),
        "enable": chance.choice(["", " w=2"]),
        "disable": " " + chance.choice(REASONS),
        "key": f" {key}" + chance.choice(["", "", "", "", "", "", "", f" v={NONE}", f" v={ONE}"]) + chance.choice(["", "", " u=7,8"]),
        "vary": f" {chance.choice([NONE, ONE])}",
        "found": f" {chance.choice(STATUSES)}",
        "meta": f" {chance.randint(0, 60)}" + chance.choice(["", " 5 6"]),
        "write": f" {data}" + chance.choice(["", "", " eof"]),
        "seek": f" {chance.randint(0, 2)}" + chance.choice(["", " 1", " 3"]),
        "lock": chance.choice([" on", " off"]),
        "publish": chance.choice([" 7", " 9 8", " 6"]),
        "release": " " + chance.choice(REASONS),
        "give": f" {chance.randint(1, 4)}",
        "uncacheable": " " + chance.choice(REASONS),
        "variance": chance.choice([" none", f" {NONE}", f" {ONE}"]),
        "revalidate": f" {chance.randint(0, 90)}",
    }
    return f"{name} {number}{rest.get(name, '')}"


def put_line(chance, last):
    number = chance.choice([8, 9])
    if last.get(number) is None or chance.random() < 0.03:
        last[number] = "put"
        return f"put {number} {chance.choice('abc')} {chance.choice('12')}" + chance.choice(["", "", " 3"])
    if last[number] == "fed" and chance.random() < 0.4:
        last[number] = None
        return f"{chance.choice(['close', 'close', 'close', 'drop'])} {number}"
    piece = chance.choice(PIECES[:3] + PIECES[6:7]) if last[number] == "put" and chance.random() < 0.8 else chance.choice(PIECES)
    last[number] = "fed"
    return f"feed {number} {word_of(piece)}"
