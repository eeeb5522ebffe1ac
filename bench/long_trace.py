#!/usr/bin/env python3
"""Writes the rows of `long.rt` of `tests_of_simulations`: what caches serve of a trace of a million requests under each option.

    bench/long_trace.py           the rows, as they stand in the test
    bench/long_trace.py --check   whether the test has these rows
    bench/long_trace.py --trace FORM > FILE     the trace: csv, cdn, twitter or oracleGeneral
    bench/long_trace.py PROGRAM   whether `cache_sim`, built as PROGRAM, tells them

The trace is the one that the test makes: numbers drawn by a linear congruence, three requests in a second. What its options mean
was written from docs/SIMULATOR.md, and the caches from the papers' text (simulators.py); nothing here is shared with the crates.
"""
import functools
import hashlib
import itertools
import os
import struct
import subprocess
import sys
import tempfile

sys.path.insert(0, os.path.dirname(os.path.realpath(__file__)))
from simulators import POLICIES, largest_rate, most_hits, node_of  # noqa: E402

TEST = f"{os.path.dirname(os.path.realpath(__file__))}/../crates/tests_of_simulations/src/long.rt"
REQUESTS = 1_000_000
MILLION = 1_000_000

# The options of each run over the trace with commas, by the file that the test makes for them. A test has a minute, on a machine
# with other things to do: so none has more than a few.
RUNS = {
    "policies": ["policy lru,sharded:16,sieve; size 60000"],
    "queues": ["policy s3-fifo,fifo,clock,2q; size 60000"],
    "large": ["policy lru,sieve; size 20000; large evict; threads 2", "policy lru; size 40%; distinct 250000"],
    "times": ["policy lru; size 20%; ttl 20000", "policy sieve,s3-fifo; size 200000; ttl 5000; expired replace"],
    "intervals": ["policy lru,2q; size 100KB; warmup 200000; interval 300000"],
    "samples": [
        "policy lru; size 100000,5%; sample 0.25; part 1",
        "policy lru; size 60000; watermark 400; sample 0.5",
        "policy lru; size 10%; sample-keys 1000",
    ],
    "bounds": ["policy lru,belady; size 100,30%; ignore-size; sample 0.5; warmup 300001"],
    "nodes": ["policy lru; size 30000; nodes 3; drop 1@400000; shield 10%; sample 0.5; large evict; ttl 1000"],
}
FORMS = ["cdn", "twitter", "oracleGeneral"]
OF_FORMS = "policy lru; size 60000"
OTHER_COLUMNS = "trace columns.twitter; columns time,key,none,size"


def trace():
    """Each request: its second, the number of its body, and its size, which doubles after 600,000 requests."""
    drawn = 1
    for number in range(REQUESTS):
        drawn = (drawn * 6364136223846793005 + 1442695040888963407) % 2**64
        name = drawn // 2**32 % 1024 * (drawn // 2**43 % 1024) // 64
        size = 30_000 if name == 500 else (name * 37 % 97 + 1) * (number // 600_000 + 1)
        yield number // 3, name, size


def key_of(name):
    """One key in 16 is longer than those that stand by themselves."""
    return f"a-key-that-does-not-stand-by-itself/{name}" if name % 16 == 5 else f"key{name}"


@functools.cache
def hash_of(key):
    return hashlib.blake2b(key.encode(), digest_size=16).digest()


@functools.cache
def place_of(key):
    """Where the hash of a key lies among a million places."""
    return int.from_bytes(hash_of(key)[:8], "big") % MILLION


def bytes_of(form):
    """The trace in a form."""
    if form == "csv":
        yield b"time,key,size\n"
    for second, name, size in trace():
        if form == "csv":
            yield f"{second},{key_of(name)},{size}\n".encode()
        elif form == "cdn":
            yield f"{second} {key_of(name)} {size}\n".encode()
        elif form == "twitter":  # the key has one of the bytes
            yield f"{second},{key_of(name)},1,{size - 1},7,get,0\n".encode()
        else:
            yield struct.pack("<IQIq", second, name, size, -1)


class Lru:
    """The least recently used entries go until what is there fits, by bytes and, if that is given, by number."""

    def __init__(self, limit, most=None):
        self.limit, self.most, self.used, self.sizes, self.evicted = limit, most, 0, {}, 0

    def has(self, key):
        return key in self.sizes

    def use(self, key):
        self.sizes[key] = self.sizes.pop(key)

    def admit(self, key, size):
        self.used += size - self.sizes.pop(key, 0)
        self.sizes[key] = size
        while self.used > self.limit or (self.most is not None and len(self.sizes) > self.most):
            self.used -= self.sizes.pop(next(iter(self.sizes)))
            self.evicted += 1


class Sharded:
    """16 lists; a key is in that of the last four bits of its hash. What is there must fit together. If it does not, the lists give
    way in turn, first the next one after the list of the key that came in, and that list last; each its least recently used."""

    def __init__(self, limit, most=None):
        self.limit, self.most, self.used, self.count, self.evicted = limit, most, 0, 0, 0
        self.lists = [{} for _ in range(16)]

    def has(self, key):
        return key in self.lists[hash_of(key)[-1] % 16]

    def use(self, key):
        sizes = self.lists[hash_of(key)[-1] % 16]
        sizes[key] = sizes.pop(key)

    def admit(self, key, size):
        place = hash_of(key)[-1] % 16
        sizes = self.lists[place]
        self.count += key not in sizes
        self.used += size - sizes.pop(key, 0)
        sizes[key] = size
        while self.used > self.limit or (self.most is not None and self.count > self.most):
            turn = next(it for it in ((place + step) % 16 for step in range(1, 17)) if self.lists[it])
            self.used -= self.lists[turn].pop(next(iter(self.lists[turn])))
            self.count, self.evicted = self.count - 1, self.evicted + 1


class Other:
    """A cache of simulators.py, which has no limit by number, and no new size of a tracked body."""

    def __init__(self, policy, limit):
        self.cache = POLICIES[policy](limit)
        self.has, self.use, self.remove = self.cache.has, lambda key: self.cache.request(key, 0), self.cache.remove

    def admit(self, key, size):
        assert not self.has(key)
        self.cache.request(key, size)

    evicted = property(lambda self: self.cache.evicted)
    used = property(lambda self: self.cache.used)


def cache_of(policy, limit, most):
    if policy in ("lru", "sharded:16"):
        return (Lru if policy == "lru" else Sharded)(limit, most)
    assert most is None
    return Other(policy, limit)


class Played:
    """A cache and its counts."""

    def __init__(self, policy, limit, options):
        self.cache, self.limit, self.came = cache_of(policy, limit, options.most), limit, {}
        self.ttl, self.replaces, self.passes = options.ttl, options.expired == "replace", options.large == "pass"
        self.mark()

    def mark(self):
        self.requests = self.hits = self.bytes = self.hit_bytes = 0
        self.gone = self.cache.evicted

    def request(self, second, key, size):
        is_hit = self.cache.has(key) and (self.ttl is None or second <= self.came[key] + self.ttl)
        if is_hit:
            self.cache.use(key)
        elif size <= self.limit or not self.passes:
            if self.replaces and self.cache.has(key):
                self.cache.remove(key)
            self.cache.admit(key, size)
            self.came[key] = second
        self.requests, self.bytes = self.requests + 1, self.bytes + size
        if is_hit:
            self.hits, self.hit_bytes = self.hits + 1, self.hit_bytes + size
        return is_hit

    def told(self):
        return [self.requests, self.hits, self.bytes, self.hit_bytes, self.cache.evicted - self.gone, self.cache.used]


class Options:
    """The words of a run."""

    def __init__(self, words, requests):
        given = dict((word.split(" ", 1) + [""])[:2] for word in words.split("; "))
        self.policies, self.large, self.expired = given["policy"].split(","), given.get("large", "pass"), given.get("expired", "use")
        self.ttl, self.part, self.warmup = number(given, "ttl"), number(given, "part") or 0, number(given, "warmup") or 0
        self.interval, self.watermark, self.ignores = number(given, "interval"), number(given, "watermark"), "ignore-size" in given
        self.nodes, self.drop, self.shield = number(given, "nodes"), given.get("drop", ""), given.get("shield")
        self.requests = [(second, key, 1) for second, key, _ in requests] if self.ignores else requests
        self.rate = round(float(given.get("sample", "1")) * MILLION)
        if "sample-keys" in given:
            self.rate = largest_rate([(key, 0) for _, key, _ in self.requests], int(given["sample-keys"]))
        self.most = None if self.watermark is None else self.part_of(self.watermark)
        self.distinct = number(given, "distinct")
        self.sizes = [self.bytes_of(size) for size in given["size"].split(",")]

    def part_of(self, count):
        return count * self.rate // MILLION

    @functools.cache
    def has(self, key):
        return self.part * self.rate <= place_of(key) < (self.part + 1) * self.rate

    def bytes_of(self, text):
        """A size: of a percent, of the bytes of all bodies, each once with its first size."""
        if not text.endswith("%"):
            return int(text.replace("KB", "000"))
        if self.distinct is None:
            first = {}
            for _, key, size in self.requests:
                first.setdefault(key, size)
            self.distinct = sum(size for key, size in first.items() if self.has(key)) * MILLION // self.rate
        return self.distinct * int(text[:-1]) // 100

    def told(self):
        return f"{self.rate / MILLION:.6f},{self.part},{text(self.ttl)},{self.large},{self.expired},{str(self.ignores).lower()},{text(self.watermark)}"


def number(given, name):
    return int(given[name]) if name in given else None


def text(value):
    return "" if value is None else str(value)


def row(policy, size, counts, options, seen, since, until):
    """A row of the report: the counts, those that were to be expected in a sample, and the corrected ones."""
    requests, hits, asked, hit_bytes, *left = counts
    expected, expected_bytes = options.part_of(seen[0]), options.part_of(seen[1])
    corrected = [expected, max(0, hits + expected - requests), expected_bytes, max(0, hit_bytes + expected_bytes - asked)]
    return ",".join(map(text, [policy, size, requests, hits, asked, hit_bytes, *left, *corrected, options.told(), since, until]))


def rows_of(options):
    """The rows of all requests after the warm-up, or of each interval of them."""
    caches = [(policy, size, Played(policy, options.part_of(size), options)) for policy in options.policies if policy != "belady" for size in options.sizes]
    since, seen, told, last = 0, [0, 0], [], len(options.requests)
    for until, (second, key, size) in enumerate(options.requests, 1):
        if options.has(key):
            for _, _, played in caches:
                played.request(second, key, size)
        seen[0] += 1
        seen[1] += size
        is_end = until > options.warmup and options.interval and (until - options.warmup) % options.interval == 0
        if is_end or until == last:
            told += [row(policy, size, played.told(), options, seen, since, until) for policy, size, played in caches]
        if is_end or until == options.warmup:
            since, seen = until, [0, 0]
            for _, _, played in caches:
                played.mark()
    if "belady" in options.policies:
        told += bounds_of(options)
    return told


def bounds_of(options):
    asked = [key for _, key, _ in options.requests if options.has(key)]
    uncounted = sum(options.has(key) for _, key, _ in options.requests[:options.warmup])
    counted, all_counted = len(asked) - uncounted, len(options.requests) - options.warmup
    for size in options.sizes:
        hits = most_hits(asked, options.part_of(size), uncounted)
        counts = [counted, hits, counted, hits, None, None]
        yield row("belady", size, counts, options, [all_counted, all_counted], options.warmup, len(options.requests))


def rows_of_nodes(options):
    """What each node told, all of them together, and the cache behind them."""
    dropped = dict(map(int, it.split("@")[::-1]) for it in options.drop.split(",") if it)
    behind = options.bytes_of(options.shield)
    for policy in options.policies:
        for size in options.sizes:
            nodes = [Played(policy, options.part_of(size), options) for _ in range(options.nodes)]
            shield, there = Played(policy, options.part_of(behind), options), list(range(options.nodes))
            for made, (second, key, asked) in enumerate(options.requests):
                if made in dropped:
                    there.remove(dropped[made])
                if options.has(key) and not (there and nodes[node_of(key, there)].request(second, key, asked)):
                    shield.request(second, key, asked)
            yield from told_of_nodes(policy, size, behind, nodes, shield, options)


def told_of_nodes(policy, size, behind, nodes, shield, options):
    told = [played.told() for played in nodes]
    rest = f"{options.nodes},{options.drop},{options.told()}"
    for node, counts in enumerate(told):
        yield ",".join(map(str, [policy, size, "node", node, *counts, "", rest]))
    both = [sum(counts) for counts in zip(*told)]
    busiest = max(counts[0] for counts in told) * len(nodes) * 100 // both[0]
    yield ",".join(map(str, [policy, size, "nodes", "", *both, f"{busiest // 100}.{busiest % 100:02}", rest]))
    yield ",".join(map(str, [policy, behind, "shield", "", *shield.told(), "", rest]))


def runs_of(file, runs):
    """Each run over the trace with commas: the words of the command line, and the rows that are to be told."""
    requests = [(second, key_of(name), size) for second, name, size in trace()]
    for words in runs:
        options = Options(words, requests)
        yield f"trace {file}; {words}", rows_of(options) if options.nodes is None else list(rows_of_nodes(options))


def runs_of_forms():
    """Each run over the trace in another form, or with other columns."""
    requests = [(second, key_of(name), size) for second, name, size in trace()]
    for form in FORMS:
        named = [(second, str(name), size) for second, name, size in trace()] if form == "oracleGeneral" else requests
        yield [(f"trace long.{form}; trace-type {form}; {OF_FORMS}", rows_of(Options(OF_FORMS, named)))]
    smaller = [(second, key, size - 1) for second, key, size in requests]
    yield [(f"{OTHER_COLUMNS}; {OF_FORMS}", rows_of(Options(OF_FORMS, smaller)))]


def each():
    """What each test has."""
    return itertools.chain((runs_of(f"{name}.csv", runs) for name, runs in RUNS.items()), runs_of_forms())


def compare(program):
    """Compares what a program tells of each run."""
    with tempfile.TemporaryDirectory() as room:
        for form in ["csv", *FORMS]:
            with open(f"{room}/long.{form}", "wb") as file:
                file.writelines(bytes_of(form))
        for name in RUNS:
            os.link(f"{room}/long.csv", f"{room}/{name}.csv")
        os.link(f"{room}/long.twitter", f"{room}/columns.twitter")
        for words, wanted in itertools.chain.from_iterable(each()):
            given = [f"--{word.split(' ', 1)[0]}" + (f"={word.split(' ', 1)[1]}" if " " in word else "") for word in words.split("; ")]
            output = subprocess.run([program, "--format", "csv", *given], capture_output=True, text=True, cwd=room)
            told = output.stdout.split("\n")[1:-1]
            print(f"{words}: {'equal' if told == wanted else f'told {told}, and not {wanted}; {output.stderr}'}", flush=True)


def main():
    if sys.argv[1:2] == ["--trace"]:
        sys.stdout.buffer.writelines(bytes_of(sys.argv[2]))
        return
    if len(sys.argv) > 1 and sys.argv[1] != "--check":
        compare(sys.argv[1])
        return
    written = ["\n\n".join("\n".join(f"    {line}" for line in [words, *rows]) for words, rows in runs) for runs in each()]
    if sys.argv[1:] == ["--check"]:
        with open(TEST, encoding="utf-8") as file:
            text = file.read()
        sys.exit(0 if all(f'"\n{rows}"' in text for rows in written) else "the test has other rows")
    print("\n\n".join(written))


if __name__ == "__main__":
    main()
