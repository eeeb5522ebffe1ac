"""A plain reading of what calls of a world answer and do, told apart from the crates.

A `World` is asked line by line whether what a program told of a call is one of the things that may be told of it by what was
told before. It keeps what was done: the writes with their bytes, what stands under each key, what the manager tracks, which
permits were given, and where each request and put stands. A call may be refused for memory only where the call asks for some.
"""
import hashlib
import re

SECOND = 1_000_000_000
AGE = 10 * SECOND
HOLDERS = {"OriginNotCache", "ResponseTooLarge", "PredictedResponseTooLarge", "StorageError", "InternalError", "Deferred",
           "DeclinedToUpstream", "UpstreamError"}
TRANSIENT = {"StorageError", "InternalError", "Deferred", "DeclinedToUpstream", "UpstreamError"}
E1 = "refused E1"
FIELD_NAME = re.compile(rb"[A-Za-z0-9!#$%&'*+.^_`|~-]+")


class Wrong(Exception):
    """What a program told is none of what may be told."""


def require(holds, why):
    if not holds:
        raise Wrong(why)


def bytes_of(word):
    """The bytes that a word of a script spells."""
    if word == "\\e":
        return b""
    out, place = bytearray(), 0
    raw = word.encode("latin-1")
    while place < len(raw):
        if raw[place] != 0x5C:
            out.append(raw[place])
            place += 1
            continue
        kind = raw[place + 1 : place + 2]
        if kind == b"x":
            out.append(int(raw[place + 2 : place + 4], 16))
            place += 4
        else:
            out += {b"s": b" ", b"r": b"\r", b"n": b"\n", b"\\": b"\\"}[kind]
            place += 2
    return bytes(out)


def word_of(data):
    """The word that is told of bytes."""
    if not data:
        return "\\e"
    short = {0x20: "\\s", 0x0D: "\\r", 0x0A: "\\n", 0x5C: "\\\\"}
    return "".join(short.get(b) or (chr(b) if 0x21 <= b <= 0x7E else f"\\x{b:02x}") for b in data)


def digest(data):
    return hashlib.blake2b(data, digest_size=16).digest()


class Key:
    def __init__(self, primary, tag, variance=None, unusable=None):
        self.primary, self.tag, self.variance, self.unusable = primary, tag, variance, unusable

    def with_variance(self, variance):
        return Key(self.primary, self.tag, variance, self.unusable)

    @property
    def slot(self):
        """The combined hash as it is told: a number in hexadecimal digits."""
        own = digest(self.primary)
        both = own if self.variance is None else digest(own + self.variance)
        return f"{int.from_bytes(both, 'big'):x}"

    def entry(self, number):
        """The entry of a write under this key as it is told, or of the key alone if there is no number."""
        end = "" if number is None else f"/{number}"
        return f"{self.slot}/{word_of(self.tag)}{end}"


class Meta:
    def __init__(self, fresh, created, windows=(0, 0), variance=None, provenance=None):
        self.fresh, self.created, self.windows, self.variance = fresh, created, windows, variance
        self.provenance = created if provenance is None else provenance

    def changed(self, **fields):
        made = Meta(self.fresh, self.created, self.windows, self.variance, self.provenance)
        for name, value in fields.items():
            setattr(made, name, value)
        return made

    def told(self):
        variance = "none" if self.variance is None else f"{int.from_bytes(self.variance, 'big'):x}"
        return f"{self.fresh},{self.created},{self.provenance},{self.windows[0]},{self.windows[1]},{variance}"


class Write:
    def __init__(self, slot, meta):
        self.slot, self.meta, self.body, self.told, self.flies, self.removed = slot, meta, b"", False, True, False


class Lock:
    def __init__(self, slot, holder, at):
        self.slot, self.holder, self.at, self.status, self.waits, self.published = slot, holder, at, "waiting", True, []


class Request:
    def __init__(self, timeout):
        self.pair = self.reader = self.held = None
        self.waited = 0
        self.enable(timeout)

    def enable(self, timeout):
        """All but what it measured is as of a new request; it uses the manager and the lock."""
        self.phase, self.manager, self.lock = "uninitialized", True, True
        self.key = self.meta = self.write = self.since = self.valid_after = self.stale_variance = None
        self.timeout = timeout
        # of a read lock: the fills that it watches for, and the publications that it was shown
        self.watch = None


class Put:
    def __init__(self, key, limit):
        self.key, self.limit, self.stage, self.bytes, self.write, self.counted = key, limit, "head", b"", None, 0
        self.size = self.given = None


def line_ends(data):
    """The places behind each line of data, with the line without its end."""
    start = 0
    while True:
        end = data.find(b"\n", start)
        if end < 0:
            return
        line = data[start:end]
        yield end + 1, line[:-1] if line.endswith(b"\r") else line
        start = end + 1


def head_of(data):
    """None while the head has not ended; else what is behind it, its status and its fields, or `bad` in their place."""
    lines = []
    for end, line in line_ends(data):
        if line:
            lines.append(line)
        elif lines:
            words = lines[0].split(b" ", 2)
            if any(b"\r" in it for it in lines):
                return data[end:], "bad", None
            if words[0] != b"HTTP/1.1" or len(words) < 2 or len(words[1]) != 3 or not words[1].isdigit():
                return data[end:], "bad", None
            fields = {}
            for field in lines[1:]:
                name, colon, value = field.partition(b":")
                if not colon or not FIELD_NAME.fullmatch(name):
                    return data[end:], "bad", None
                fields.setdefault(name.lower(), value.strip())
            return data[end:], int(words[1]), fields
    return None


class World:
    def __init__(self, limit, watermark=None, shards=None):
        self.limit, self.watermark, self.shards = limit, watermark, shards
        self.now, self.entries = 0, 0
        self.writes, self.locks, self.open = [], [], {}
        self.standing, self.metas = {}, {}  # by slot: the last finished write, and the meta of its body
        self.tracked, self.evicted = {}, [0, 0]  # entries with their weights, those used last at the end
        self.refusals = 0
        self.only_loads = True

    # ---- what the events before say

    def complete(self, slot):
        number = self.standing.get(slot)
        return None if number is None or self.writes[number].removed else self.writes[number]

    def serving(self, slot):
        for number, write in enumerate(self.writes):
            if write.slot == slot and write.flies and not write.removed:
                return number
        return None

    def find(self, slot):
        """What a look-up finds: how it is told, and the pair."""
        number = self.serving(slot)
        if number is not None:
            meta = self.writes[number].meta
            return f"part {meta.told()} {number}", (meta, ["part", number, 0])
        write = self.complete(slot)
        if write is None:
            return "nothing", None
        meta = self.metas[slot]
        return f"complete {meta.told()} {word_of(write.body)}", (meta, ["whole", write.body, 0, len(write.body), False, self.standing[slot]])

    def reads(self, reader):
        if reader[0] == "whole":
            return "end" if reader[4] else "data " + word_of(reader[1][reader[2] : reader[3]])
        write = self.writes[reader[1]]
        if reader[2] < len(write.body):
            return "data " + word_of(write.body[reader[2] :])
        return "pending" if write.flies and not write.told else "end"

    def stored(self):
        bodies = [self.writes[n] for n in self.standing.values() if not self.writes[n].removed]
        return sum(len(write.body) for write in bodies), len(bodies)

    def fits(self, tracked):
        return sum(tracked.values()) <= self.limit and (self.watermark is None or len(tracked) <= self.watermark)

    def numbers(self):
        stored, slots = self.stored()
        weight = sum(self.tracked.values())
        return (f"stored {stored} slots {slots} weight {weight} items {len(self.tracked)} "
                f"evicted {self.evicted[0]} size {self.evicted[1]}")

    # ---- what events do

    def remove(self, slot):
        for write in self.writes:
            if write.slot == slot:
                write.removed = True

    def admit(self, entry, weight, out):
        tracked = dict(self.tracked)
        tracked.pop(entry, None)
        tracked[entry] = weight
        require(len(set(out)) == len(out) and all(one in tracked for one in out), "an eviction of what is not tracked")
        rest = {one: size for one, size in tracked.items() if one not in out}
        require(self.fits(rest), "an eviction that leaves more than the limits")
        if out:
            rest_and_last = {**rest, out[-1]: tracked[out[-1]]}
            require(not self.fits(rest_and_last), "an eviction within the limits")
        self.follows_lists(tracked, out)
        self.evicted[0] += len(out)
        self.evicted[1] += sum(tracked[one] for one in out)
        self.tracked = rest
        for one in out:
            self.writes[int(one.rsplit("/", 1)[1])].removed = True  # each entry that a script's world tracks has a number

    def follows_lists(self, tracked, out):
        """Each evicted entry is the one used least recently, of all or of its shard's."""
        left = list(tracked)
        for one in out:
            shard = self.shard_of(one)
            require(one == next(it for it in left if self.shard_of(it) == shard), "an eviction out of turn")
            left.remove(one)

    def shard_of(self, entry):
        return 0 if self.shards is None else int(entry.split("/")[0], 16) % self.shards

    def access(self, entry, weight):
        weight = self.tracked.pop(entry, weight)
        self.tracked[entry] = weight

    def release(self, number, status):
        lock = self.locks[number]
        lock.status = "age_timeout" if lock.status == "age_timeout" else status
        lock.holder, lock.waits = None, False

    def let_go(self, number):
        lock = self.locks[number]
        lock.status = "dangling" if lock.status == "waiting" else lock.status
        lock.holder, lock.waits = None, False

    # ---- lines

    def line(self, words, told):
        """Takes in what was told of a line: its reply, and of a call that was noted its events."""
        reply = told.reply
        if reply == "not read":
            self.refusals += 1
            return
        if words[0] == "at":
            require(reply == "ok", "a moment")
            self.now = int(words[1]) * SECOND
            return
        if words[0] == "stat":
            require(reply == self.numbers(), f"numbers, {self.numbers()} are wanted")
            return
        if reply == "no step":
            self.refusals += 1
            require(told.noted is None and not told.events, "a refused step that was noted")
        else:
            require(told.noted == reply, f"another reply in the history: {told.noted}")
            self.call(words, reply, told.events)
            self.entries += 1
        require(told.numbers == self.numbers(), f"numbers {told.numbers}, {self.numbers()} are wanted")
        require(told.entries == self.entries, f"{told.entries} entries, {self.entries} are wanted")
        stored, slots = self.stored()
        require(stored <= self.limit and (self.watermark is None or slots <= self.watermark), "more is stored than the limits")

    def call_on_files(self, name, reply, events):
        """There are no files, so the device fails; a load may come only after loads."""
        may = name == "save" or self.only_loads
        require(reply == ("refused E8" if may else "wrong call") and not events, f"a {name}, which may come: {may}")
        self.only_loads = self.only_loads and name == "load"

    def call(self, words, reply, events):
        if words[0] in ("save", "load"):
            self.call_on_files(words[0], reply, events)
            return
        self.only_loads = False
        name, number = words[0], int(words[1])
        one = self.open.get(number)
        is_put = isinstance(one, Put)
        if name in ("open", "put"):
            may = one is None
        elif name in ("feed", "drop", "close"):
            may = is_put
        else:
            may = one is not None and not is_put and self.may(name, words, one)
        if not may:
            require(reply == "wrong call" and not events, "a call whose condition fails")
            return
        require(reply != "wrong call", "a call whose condition holds")
        if reply == E1 and not (is_put and one.stage == E1):
            self.refusals += 1
        getattr(self, "do_" + name)(words[2:], reply, events, number, one)

    def may(self, name, words, one):
        phase, held = one.phase, one.held
        filling = phase in ("miss", "expired")
        has_permit = held is not None and held[0] == "write"
        holders = len(words) > 2 and (not has_permit or words[2] in HOLDERS)
        if name == "give":
            other = self.open.get(int(words[2]))
            return has_permit and isinstance(other, Request) and other.phase != "disabled"
        return {
            "enable": phase == "disabled",
            "disable": holders and words[-1] != "NeverEnabled",
            "key": phase in ("uninitialized", "key"),
            "look": phase in ("key", "stale"),
            "vary": phase in ("key", "stale") and one.pair is not None,
            "found": phase in ("key", "stale") and one.pair is not None,
            "bypass": phase == "key",
            "miss": phase in ("key", "bypass", "stale"),
            "meta": phase == "miss" or phase == "stale" and one.meta is not None,
            "begin": filling and one.meta is not None and one.write is None,
            "write": filling and one.write is not None and not self.writes[one.write].told,
            "finish": filling,
            "read": one.reader is not None,
            "seek": one.reader is not None,
            "done": phase in ("hit", "miss", "stale", "stale-updating", "expired", "revalidated", "revalidated-nocache"),
            "purge": phase == "key",
            "expire": phase == "key",
            "lock": phase in ("key", "stale", "hit") and held is None,
            "wait": held is not None and held[0] == "read",
            "publish": True,
            "release": holders,
            "updating": phase == "stale",
            "uncacheable": phase == "stale" and one.meta is not None and holders,
            "variance": filling and one.meta is not None and one.write is None,
            "revalidate": phase == "stale" and one.meta is not None,
            "phase": True,
            "end": True,
        }[name]

    # ---- words of the calls

    def is_idle(self, reply, events, *replies):
        require(reply in replies and not events, f"none of {replies}")

    def released(self, one, status):
        """The event that what is held makes when it is released, and what it does."""
        held, one.held = one.held, None
        if held is None or held[0] == "read":
            return []
        self.release(held[1], status)
        return [f"release {held[1]}"]

    def gone(self, held):
        if held is None or held[0] == "read":
            return []
        self.let_go(held[1])
        return [f"let_go {held[1]}"]

    def dropped(self, number):
        if number is None:
            return []
        self.writes[number].flies = False
        return [f"dropped {number}"]

    def ask(self, one, number):
        """The lock of the key: how it is told, its events, and what the request holds then."""
        slot, old = one.key.slot, one.held
        waiting = [n for n, lock in enumerate(self.locks) if lock.waits and lock.slot == slot]
        if waiting:
            one.held, kind, asked = ("read", waiting[0]), "read", f"ask {slot} {waiting[0]} false"
        else:
            self.locks.append(Lock(slot, number, self.now))
            at = len(self.locks) - 1
            one.held, kind, asked = ("write", at), "write", f"ask {slot} {at} true"
        one.watch = None
        return kind, [asked] + self.gone(old)

    # ---- calls of requests

    def do_open(self, words, reply, events, number, one):
        self.is_idle(reply, events, "ok", E1)
        if reply == "ok":
            self.open[number] = Request(timeout_in(words))

    def do_enable(self, words, reply, events, number, one):
        self.is_idle(reply, events, "ok")
        one.enable(timeout_in(words))

    def do_disable(self, words, reply, events, number, one):
        status = "transient_error" if words[0] in TRANSIENT else "give_up"
        wanted = self.released(one, status) + self.dropped(one.write)
        require(reply == "ok" and events == wanted, f"{wanted} is wanted")
        one.phase, one.manager, one.lock = "disabled", False, False
        one.meta = one.reader = one.write = one.pair = None

    def do_key(self, words, reply, events, number, one):
        self.is_idle(reply, events, "ok", E1)
        if reply == "ok":
            one.phase, one.key = "key", key_in(words)

    def do_look(self, words, reply, events, number, one):
        if reply == E1 and not events:
            require(self.find(one.key.slot)[1] is not None, "memory for a look-up that finds nothing")
            return
        told, pair = self.find(one.key.slot)
        require(events[:1] == [f"look {one.key.slot} {told}"], f"a look-up finds {told}")
        hidden = pair is not None and one.valid_after is not None and pair[0].created < one.valid_after
        one.pair = None if hidden else pair
        if one.pair is not None:
            found = f"hit {len(pair[1][1])}" if pair[1][0] == "whole" else "part"
            require(reply == found and len(events) == 1, f"{found} is wanted")
        elif not one.lock:
            require(reply == "none" and len(events) == 1, "none is wanted")
        elif reply == E1:
            require(len(events) == 1, "a refused lock")
        else:
            kind, wanted = self.ask(one, number)
            require(reply == f"none {kind}" and events[1:] == wanted, f"none {kind} is wanted, and {wanted}")

    def do_vary(self, words, reply, events, number, one):
        variance, meta = bytes.fromhex(words[0]), one.pair[0]
        same = meta.variance == variance
        self.is_idle(reply, events, "same" if same else "other")
        one.valid_after = meta.provenance
        one.key = one.key.with_variance(None if same and one.key.variance is None else variance)

    def do_found(self, words, reply, events, number, one):
        status, (meta, reader) = words[0], one.pair
        missed, fresh = status in ("force_miss", "failed_hit_filter"), status in ("fresh", "force_fresh")
        if reply == E1 and not events:
            one.pair = None
            return
        accesses = []
        if one.manager and reader[0] == "whole" and not missed:
            entry = one.key.entry(reader[5])
            accesses = [f"access {entry} {len(reader[1])}"]
            self.access(entry, len(reader[1]))
        require(events[: len(accesses)] == accesses, f"{accesses} is wanted")
        one.pair = None
        if reply == E1:
            require(one.lock and not fresh and len(events) == len(accesses), "memory for what asks for none")
            return
        phase = one.phase if missed else "hit" if fresh else "stale"
        wanted = phase
        if one.lock and not fresh:
            kind, asked = self.ask(one, number)
            wanted = f"{phase} {kind}"
            require(events[len(accesses) :] == asked, f"{asked} is wanted")
        require(reply == wanted, f"{wanted} is wanted")
        one.phase, one.meta, one.reader = phase, None if missed else meta, None if missed else list(reader)

    def do_bypass(self, words, reply, events, number, one):
        self.is_idle(reply, events, "ok")
        one.phase = "bypass"

    def do_miss(self, words, reply, events, number, one):
        self.is_idle(reply, events, "ok")
        one.phase, one.meta, one.stale_variance, one.pair = "miss", None, None, None

    def do_meta(self, words, reply, events, number, one):
        self.is_idle(reply, events, "ok", E1)
        if reply == E1:
            return
        windows = (int(words[1]), int(words[2])) if len(words) > 1 else (0, 0)
        meta = Meta(int(words[0]) * SECOND, self.now, windows)
        one.stale_variance = None
        if one.phase == "stale":
            meta, one.stale_variance = meta.changed(provenance=one.meta.provenance), one.meta.variance
            one.phase = "expired"
        one.meta = meta

    def do_begin(self, words, reply, events, number, one):
        if reply == E1 and not events:
            return
        at, slot = len(self.writes), one.key.slot
        wanted = [f"begin {at} {slot} {one.meta.told()}"] + self.released(one, "done")
        require(events == wanted and reply in ("ok", E1), f"{wanted} is wanted")
        self.writes.append(Write(slot, one.meta))
        one.write = at
        if reply == "ok":
            one.reader = ["part", at, 0]

    def do_write(self, words, reply, events, number, one):
        if reply == E1:
            require(not events, "a refused write")
            return
        data, last = bytes_of(words[0]), words[1:] == ["eof"]
        wanted = f"wrote {one.write} {word_of(data)} {str(last).lower()}"
        require(reply == "ok" and events == [wanted], f"{wanted} is wanted")
        self.writes[one.write].body += data
        self.writes[one.write].told = last

    def do_finish(self, words, reply, events, number, one):
        if one.write is None:
            self.is_idle(reply, events, "nothing")
            return
        number, one.write = one.write, None
        self.ends(number, one.key, one, reply, events)

    def ends(self, number, key, one, reply, events):
        """The end of a write: stored, removed before, stored and purged again, or dropped."""
        write = self.writes[number]
        write.flies = False
        if events[:1] == [f"dropped {number}"]:
            rest = self.released(one, "transient_error") if one else []
            require(reply == E1 and events[1:] == rest, "a write that is dropped")
            return
        kept = not write.removed
        require(events[:1] == [f"finish {number} {str(kept).lower()}"], f"it is {'not ' if kept else ''}removed")
        rest = self.released(one, "done" if kept else "transient_error") if one else []
        require(events[1 : 1 + len(rest)] == rest, f"{rest} is wanted")
        events = events[1 + len(rest) :]
        if not kept:
            require(reply == "refused E6" and not events, "a write that was removed")
            return
        self.standing[write.slot], self.metas[write.slot] = number, write.meta
        require(len(events) == 1, "an admission or a purge")
        words = events[0].split(" ")
        if words[0] == "purge":
            require(reply == E1 and words[1] == key.slot, "a refused admission")
            self.remove(key.slot)
            return
        size, out = len(write.body), words[3:]
        entry = key.entry(number)
        require(words[:3] == ["admit", entry, str(size)], f"{entry} of {size} is admitted")
        self.admit(entry, size, out)
        require(reply == f"stored {size} evicted {len(out)}", "what is stored")

    def do_read(self, words, reply, events, number, one):
        given = self.reads(one.reader)
        if reply == E1:
            require(given.startswith("data"), "memory for a read of nothing")
        if reply == E1 and not events:
            return
        require(events == [f"read {given}"] and reply in (given, E1), f"{given} is wanted")
        if one.reader[0] == "whole":
            one.reader[4] = True
        else:
            one.reader[2] = max(one.reader[2], len(self.writes[one.reader[1]].body))

    def do_seek(self, words, reply, events, number, one):
        start, end = int(words[0]), int(words[1]) if len(words) > 1 else None
        reader = one.reader
        if reader[0] == "part" or start >= len(reader[1]) or end is not None and end < start:
            self.is_idle(reply, events, "refused E2")
            return
        self.is_idle(reply, events, "ok")
        length = len(reader[1])
        one.reader = ["whole", reader[1], start, length if end is None else min(end, length), False, reader[5]]

    def do_done(self, words, reply, events, number, one):
        self.is_idle(reply, events, "ok")
        one.reader = None

    def do_purge(self, words, reply, events, number, one):
        if reply == E1 and not events:
            return
        slot = one.key.slot
        stands = self.complete(slot) is not None
        there = stands or self.serving(slot) is not None
        entry = one.key.entry(self.standing[slot] if stands else None)
        wanted = [f"purge {slot}"] + ([f"untrack {entry}"] if there and one.manager else [])
        require(events == wanted and reply == ("purged" if there else "absent"), f"{wanted} is wanted")
        self.remove(slot)
        if there and one.manager:
            self.tracked.pop(entry, None)

    def do_expire(self, words, reply, events, number, one):
        slot = one.key.slot
        there = self.complete(slot) is not None
        if reply == E1 and not events:
            return
        wanted = f"expire {slot} {self.now}"
        require(events == [wanted] and reply == ("expired" if there else "absent"), f"{wanted} is wanted")
        if there:
            meta = self.metas[slot]
            self.metas[slot] = meta.changed(fresh=min(meta.fresh, self.now))

    def do_lock(self, words, reply, events, number, one):
        self.is_idle(reply, events, "ok")
        one.lock, one.timeout = words[0] == "on", None

    def do_wait(self, words, reply, events, number, one):
        at = one.held[1]
        lock, first = self.locks[at], one.watch is None
        if reply == E1:
            require(first and one.key.unusable is not None and not events, "memory for a wait that asks for none")
            return
        fills = (one.key.unusable or []) if first else one.watch[0]
        shown = [lock.published] if first else one.watch[1]
        aged, wanted = [], None
        if lock.holder is None:
            wanted = "dangling" if lock.status == "waiting" else lock.status
        elif lock.status == "age_timeout" or self.now - lock.at >= AGE:
            aged, wanted = [f"aged {at}"], "age_timeout"
        else:
            told = [fill for tokens in shown for fill in fills if fill in tokens]
            since = self.now if first or one.since is None else one.since
            late = one.timeout is not None and max(0, one.timeout - one.waited) <= max(0, self.now - since)
            wanted = f"abandoned {told[0]}" if told else "wait_timeout" if late else "pending"
        require(reply == wanted and events == aged, f"{wanted} is wanted, and {aged}")
        if aged:
            lock.status, lock.waits = "age_timeout", False
        since = self.now if first or one.since is None else one.since
        if reply == "pending":
            one.since = since
            one.watch = (fills, [list(tokens) for tokens in shown])
        else:
            one.waited += max(0, self.now - since)
            one.held = one.watch = None

    def do_publish(self, words, reply, events, number, one):
        has_permit = one.held is not None and one.held[0] == "write"
        self.is_idle(reply, events, "ok", *([E1] if has_permit else []))
        if reply == "ok" and has_permit:
            at, tokens = one.held[1], [int(word) for word in words]
            self.locks[at].published = tokens
            for other in self.open.values():
                if isinstance(other, Request) and other.held == ("read", at) and other.watch is not None:
                    other.watch[1].append(tokens)

    def do_release(self, words, reply, events, number, one):
        wanted = self.released(one, "transient_error" if words[0] in TRANSIENT else "give_up")
        require(reply == "ok" and events == wanted, f"{wanted} is wanted")

    def do_give(self, words, reply, events, number, one):
        held, one.held = one.held, None
        to = int(words[0])
        other = self.open[to]
        self.locks[held[1]].holder = to
        if other.lock:
            wanted = self.gone(other.held)
            other.held, other.watch = held, None
        else:
            wanted = self.gone(held)
        require(reply == "ok" and events == wanted, f"{wanted} is wanted")

    def do_updating(self, words, reply, events, number, one):
        self.is_idle(reply, events, "ok")
        one.phase = "stale-updating"

    def do_uncacheable(self, words, reply, events, number, one):
        if reply == E1:
            require(not events, "a refused header")
            return
        wanted = self.released(one, "transient_error" if words[0] in TRANSIENT else "give_up")
        require(reply == "ok" and events == wanted, f"{wanted} is wanted")
        one.phase = "revalidated-nocache"

    def do_variance(self, words, reply, events, number, one):
        variance = None if words[0] == "none" else bytes.fromhex(words[0])
        before = one.key.variance if one.key.variance is not None else one.stale_variance
        begins = one.phase == "expired" and before != variance
        leaves = one.key.variance is not None and one.key.variance != variance
        wanted = self.released(one, "done") if leaves else []
        require(reply == "ok" and events == wanted, f"{wanted} is wanted")
        one.meta = one.meta.changed(variance=variance)
        if begins:
            one.meta = one.meta.changed(provenance=one.meta.created)
        if leaves:
            one.key = one.key.with_variance(None)

    def do_revalidate(self, words, reply, events, number, one):
        meta = Meta(int(words[0]) * SECOND, self.now)
        one.meta = meta.changed(created=one.meta.created, provenance=one.meta.provenance)
        slot = one.key.slot
        there = self.complete(slot) is not None
        rest = self.released(one, "done")
        one.phase = "revalidated"
        if reply == E1:
            require(there and events == rest, "memory for no body")
            return
        wanted = ([f"renew {slot} {one.meta.told()}"] if there else []) + rest
        require(events == wanted and reply == ("updated" if there else "not updated"), f"{wanted} is wanted")
        if there:
            self.metas[slot] = one.meta

    def do_phase(self, words, reply, events, number, one):
        self.is_idle(reply, events, one.phase)

    def do_end(self, words, reply, events, number, one):
        wanted = self.dropped(one.write) + self.gone(one.held)
        require(reply == "ok" and events == wanted, f"{wanted} is wanted")
        del self.open[number]

    # ---- calls of puts

    def do_put(self, words, reply, events, number, one):
        self.is_idle(reply, events, "ok", E1)
        if reply == "ok":
            self.open[number] = Put(key_in(words[:2]), int(words[2]) if len(words) > 2 else None)

    def do_feed(self, words, reply, events, number, one):
        data = bytes_of(words[0])
        if one.stage not in ("head", "body"):
            self.is_idle(reply, events, one.stage)
            return
        begun, part = [], data
        if one.stage == "head":
            one.bytes += data
            head = head_of(one.bytes)
            if reply == E1 and not events:
                one.stage = E1
                return
            if head is None:
                self.is_idle(reply, events, "ok")
                return
            part, status, fields = head
            verdict = self.verdict(one, status, fields)
            if verdict is not None:
                self.is_idle(reply, events, verdict)
                one.stage = verdict
                return
            at, meta = len(self.writes), Meta(self.now + SECOND, self.now)
            begun = [f"begin {at} {one.key.slot} {meta.told()}"]
            require(events[:1] == begun, f"{begun} is wanted")
            self.writes.append(Write(one.key.slot, meta))
            one.write, one.stage, one.given = at, "body", 0
        self.feeds_body(one, part, reply, events[len(begun) :])

    def verdict(self, one, status, fields):
        """Why nothing is stored, if so; and how long the body is, if that is said."""
        if status == "bad":
            return "refused E3"
        if b"no-store" in fields.get(b"cache-control", b""):
            return "no cache OriginNotCache"
        length = fields.get(b"content-length")
        length = int(length) if length is not None and length.isdigit() else None
        if one.limit is not None and length is not None and length > one.limit:
            return "no cache ResponseTooLarge"
        one.size = 0 if status in (204, 304) else length
        return None

    def feeds_body(self, one, part, reply, events):
        left = len(part) if one.size is None else min(len(part), one.size - one.given)
        part, write = part[:left], self.writes[one.write]
        is_whole = one.size is not None and one.given + left == one.size
        wrote = f"wrote {one.write} {word_of(part)} {str(is_whole).lower()}"
        if events[:1] == [wrote] and not write.told:
            write.body, write.told = write.body + part, is_whole
            one.given += left
            events = events[1:]
        elif reply == "ok":
            require(not part, f"{wrote} is wanted")
        over = one.limit is not None and one.given + (0 if reply == "ok" else left) > one.limit
        if reply in (E1, "refused E4"):
            require(reply == E1 or over, "a body within its limit")
            require(events == self.dropped(one.write), "a write that is dropped")
            one.stage, one.write = reply, None
            return
        require(not over and reply == "ok" and not events, "ok is wanted")

    def do_drop(self, words, reply, events, number, one):
        wanted = self.dropped(one.write)
        require(reply == "ok" and events == wanted, f"{wanted} is wanted")
        del self.open[number]

    def do_close(self, words, reply, events, number, one):
        del self.open[number]
        if one.stage == "head":
            self.is_idle(reply, events, "refused E5")
        elif one.stage != "body":
            self.is_idle(reply, events, one.stage)
        elif one.size is not None and one.given < one.size:
            wanted = self.dropped(one.write)
            require(reply == "refused E5" and events == wanted, f"{wanted} is wanted")
        else:
            self.ends(one.write, one.key, None, reply, events)


def timeout_in(words):
    return int(words[0][2:]) * SECOND if words else None


def key_in(words):
    variance = unusable = None
    for word in words[2:]:
        if word.startswith("v="):
            variance = bytes.fromhex(word[2:])
        else:
            unusable = [int(token) for token in word[2:].split(",")]
    return Key(bytes_of(words[0]), bytes_of(words[1]), variance, unusable)
