#!/usr/bin/env python3
"""Writes the rows of `random_script.rt` of `tests_of_worlds`: 4,000 calls of five requests, each with its reply.

    bench/random_script.py           the rows, as they stand in the test
    bench/random_script.py --check   whether the test has these rows

The calls are drawn by a linear congruence: mostly one that the phase of its request allows, and else any. Their replies were read
off the list of all that was done so far, slowly, and nothing here is shared with the crates: what is found, who has the permit, what
is evicted, and which bytes a reader is given are each looked for in that list anew.
"""
import os
import sys

TEST = f"{os.path.dirname(os.path.realpath(__file__))}/../crates/tests_of_worlds/src/world/random_script.rt"
COUNT = 4000
REQUESTS = 5
LIMIT = 5
WIDTH = 120
KEYS = ["a", "b", "c", "d"]
TEXTS = ["x", "yy", "zzz", ""]
STATUSES = ["fresh", "fresh", "expired", "force_miss"]
CALLS = "open key look found miss meta begin write write finish read purge end".split()


class Dice:
    """A linear congruence (Knuth's multiplier), of which the high bits are used."""

    def __init__(self):
        self.drawn = 20261122

    def below(self, count):
        self.drawn = (self.drawn * 6364136223846793005 + 1442695040888963407) % 2**64
        return (self.drawn >> 33) % count

    def word(self, words):
        return words[self.below(len(words))]


class Asked:
    """A request, as its calls show it. A reader is `body` or `write`, the number of its write, and how far it was read."""

    def __init__(self):
        self.phase, self.key, self.has_meta = "not open", "", False
        self.pair = self.reader = self.write = self.permit = None


class Past:
    """All that was done, and what the manager tracks, the entry that was used last at the end."""

    def __init__(self):
        self.facts, self.used = [], []

    def note(self, *fact):
        self.facts.append(fact)

    def of(self, kind):
        return [fact[1:] for fact in self.facts if fact[0] == kind]

    def in_flight(self):
        """The writes that began and did not end, in the order in which they began."""
        ended = self.of("finished") + self.of("given up")
        return [write for write, _key in self.of("began") if (write,) not in ended]

    def is_untouched(self, write, key):
        """Whether the write is of the key, and met no removal of it or of itself since it began."""
        found = False
        for kind, of, *more in self.facts:
            if kind == "began" and of == write:
                found = more[0] == key
            elif (kind == "removed" and of == key) or (kind == "evicted" and of == write):
                found = False
        return found

    def is_last_said(self, write):
        return (write,) in self.of("said last")

    def body(self, write):
        return "".join(text for into, text in self.of("wrote") if into == write)

    def standing(self, key):
        """The last finished write of the key, if it met no removal."""
        finished = [write for (write,) in self.of("finished") if (write, key) in self.of("began")]
        return finished[-1] if finished and self.is_untouched(finished[-1], key) else None

    def stored(self):
        there = [write for write in map(self.standing, KEYS) if write is not None]
        return sum(len(self.body(write)) for write in there), len(there)

    def find(self, key):
        """The earliest begun write of the key in flight that met no removal, or else the stored body."""
        for write in self.in_flight():
            if self.is_untouched(write, key):
                return "write", write, 0
        write = self.standing(key)
        return None if write is None else ("body", write, 0)

    def is_permitted(self, key):
        told = [kind for kind, of, *_ in self.facts if of == key and kind in ("permitted", "freed")]
        return told[-1:] == ["permitted"]

    def let_go(self, permit):
        if permit is not None:
            self.note("freed", permit)

    def ask(self, one):
        """The permit goes to a request whose key has none. A lock that it held before is let go."""
        is_taken = self.is_permitted(one.key)
        self.let_go(one.permit)
        one.permit = None if is_taken else one.key
        if is_taken:
            return "Some(Read)"
        self.note("permitted", one.key)
        return "Some(Write)"

    def forget(self, write):
        self.used = [entry for entry in self.used if entry[0] != write]

    def use(self, write, weight):
        self.forget(write)
        self.used.append((write, weight))

    def weight(self):
        return sum(weight for _write, weight in self.used)

    def evict(self):
        """The oldest go until the rest is within the limit."""
        gone = 0
        while self.weight() > LIMIT:
            write, weight = self.used[0]
            self.forget(write)
            self.note("evicted", write, weight)
            gone += 1
        return gone

    def may(self, one, call):
        phase, asks, fills = one.phase, one.phase in ("CacheKey", "Stale"), one.phase in ("Miss", "Expired")
        return {
            "open": phase == "not open",
            "key": phase in ("Uninit", "CacheKey"),
            "look": asks,
            "found": asks and one.pair is not None,
            "miss": asks,
            "meta": phase == "Miss" or (phase == "Stale" and one.has_meta),
            "begin": fills and one.has_meta and one.write is None,
            "write": fills and one.write is not None and not self.is_last_said(one.write),
            "finish": fills,
            "read": one.reader is not None,
            "purge": phase == "CacheKey",
            "end": phase != "not open",
        }[call]

    def answer(self, one, call, first, second):
        if not self.may(one, call):
            return "WrongCall"
        return getattr(self, f"do_{call}")(one, first, second) or "Done"

    def do_open(self, one, *_):
        one.phase = "Uninit"

    def do_key(self, one, name, _):
        one.key, one.phase = name, "CacheKey"

    def do_look(self, one, *_):
        one.pair = self.find(one.key)
        if one.pair is None:
            return f"NotFound({self.ask(one)})"
        kind, write, _ = one.pair
        return f"Hit({len(self.body(write))})" if kind == "body" else "Part"

    def do_found(self, one, status, _):
        pair, one.pair = one.pair, None
        is_kept = status != "force_miss"
        if is_kept and pair[0] == "body":
            self.use(pair[1], dict(self.used).get(pair[1], len(self.body(pair[1]))))
        lock = "None" if status == "fresh" else self.ask(one)
        one.has_meta, one.reader = is_kept, pair if is_kept else None
        one.phase = {"fresh": "Hit", "expired": "Stale"}.get(status, one.phase)
        return f"Taken({one.phase if one.phase in ('Hit', 'Stale') else 'CacheKey'}, {lock})"

    def do_miss(self, one, *_):
        one.phase, one.has_meta, one.pair = "Miss", False, None

    def do_meta(self, one, *_):
        one.has_meta = True
        if one.phase == "Stale":
            one.phase = "Expired"

    def do_begin(self, one, *_):
        one.write = len(self.of("began"))
        self.note("began", one.write, one.key)
        self.let_go(one.permit)
        one.permit = None
        one.reader = ("write", one.write, 0)

    def do_write(self, one, text, last):
        self.note("wrote", one.write, text)
        if last == "last":
            self.note("said last", one.write)

    def do_finish(self, one, *_):
        write, one.write = one.write, None
        if write is None:
            return "Nothing"
        if not self.is_untouched(write, one.key):
            self.note("given up", write)
            return "Refused(WriteRemoved)"
        size = len(self.body(write))
        self.note("finished", write)
        self.use(write, size)
        return f"Stored {{ size: {size}, evicted: {self.evict()} }}"

    def do_read(self, one, *_):
        kind, write, place = one.reader
        body = self.body(write)
        if kind == "body":
            one.reader = kind, write, place + 1
            return f'Data(b"{body}")' if place == 0 else "Finished"
        if place < len(body):
            one.reader = kind, write, len(body)
            return f'Data(b"{body[place:]}")'
        return "Pending" if write in self.in_flight() and not self.is_last_said(write) else "Finished"

    def do_purge(self, one, *_):
        if self.find(one.key) is None:
            return "Absent"
        self.forget(self.standing(one.key))
        self.note("removed", one.key)
        return "Purged"

    def do_end(self, one, *_):
        if one.write is not None:
            self.note("given up", one.write)
        self.let_go(one.permit)
        one.__init__()


def likely(one):
    if one.phase in ("Miss", "Expired"):
        if one.write is not None:
            return "write write write read read finish finish end"
        return "begin begin begin read end" if one.has_meta else "meta"
    if one.phase == "CacheKey":
        return "look look look look miss miss miss key purge" if one.pair is None else "found found found found miss look"
    return {"not open": "open", "Uninit": "key", "Stale": "look found read miss meta end", "Hit": "read read end"}[one.phase]


def script():
    """Each call with its reply, and the counts at the end."""
    dice, past, asked = Dice(), Past(), [Asked() for _ in range(REQUESTS)]
    for _ in range(COUNT):
        number = dice.below(REQUESTS)
        one = asked[number]
        call = dice.word(CALLS if dice.below(8) == 0 else likely(one).split())
        first = dice.word({"key": KEYS, "found": STATUSES, "write": TEXTS}[call]) if call in ("key", "found", "write") else ""
        second = dice.word(["", "", "last"]) if call == "write" else ""
        reply = past.answer(one, call, first, second)
        yield f"{call} {number} {first} {second}".rstrip(), reply
    (size, count), gone = past.stored(), [weight for _write, weight in past.of("evicted")]
    tracked = f"weight: {past.weight()}, items: {len(past.used)}"
    yield "stat", f"{size} in {count}, Totals {{ {tracked}, evicted_weight: {sum(gone)}, evicted_items: {len(gone)} }}, 0 before"


def rows():
    """Some calls in a line. One whose reply is not written is done."""
    line = ""
    for call, reply in script():
        told = call if reply == "Done" else f"{call} -> {reply}"
        if len(line) + len(told) + 2 > WIDTH:
            yield line
            line = "    "
        line = f"{line}; {told}" if line.strip() else f"    {told}"
    yield line


def main():
    written = "\n".join(rows())
    if sys.argv[1:] == ["--check"]:
        with open(TEST, encoding="utf-8") as file:
            sys.exit(0 if f"\n{written}\"#;" in file.read() else "the test has other rows")
    print(written)


if __name__ == "__main__":
    main()
