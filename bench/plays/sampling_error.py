#!/usr/bin/env python3
"""Measures how far the ratio of hits of `cache_sim --sample` is from that of all keys, as it is read and corrected.

    bench/plays/sampling_error.py               # prints the table of docs/SIMULATOR.md, in about two minutes
    bench/plays/sampling_error.py PROGRAM       # compares the rows of the program with those counted here

Over traces of Zipf popularity, at rates of 0.1, 0.01 and 0.001: of ten parts of that size and of caches of 1, 10 and 50 percent
of the bytes of all bodies, the mean and the largest difference. The caches are those of bench/simulators.py.
"""
import csv
import hashlib
import io
import os
import subprocess
import sys

sys.path.insert(0, os.path.dirname(os.path.dirname(os.path.realpath(__file__))))
import simulators  # noqa: E402

MILLION = 1_000_000
RATES = (100_000, 10_000, 1_000)
PARTS = 10
PERCENTS = (1, 10, 50)


def place_of(key):
    """Where the hash of a key lies among a million places."""
    digest = hashlib.blake2b(key.encode(), digest_size=16).digest()
    return int.from_bytes(digest[:8], "big") % MILLION


def sampled(trace, places, rate, part):
    begin = rate * part
    return [it for it in trace if begin <= places[it[0]] < begin + rate]


def counts_of(trace, sizes, rate):
    """Requests, hits and bytes of each policy and size."""
    for policy in simulators.POLICIES:
        for size in sizes:
            yield policy, size, simulators.simulate(policy, size * rate // MILLION, trace, True)


def corrected(hits, read, expected):
    """SHARDS_adj: the difference between the expected requests and those that were read are hits."""
    return max(0, hits + expected - read)


def errors_of(trace, places, sizes, rate, exact):
    for part in range(PARTS):
        of_part = sampled(trace, places, rate, part)
        expected = len(trace) * rate // MILLION
        for (policy, size, counts), wanted in zip(counts_of(of_part, sizes, rate), exact):
            read, hits = counts[0], counts[1]
            yield abs(hits / max(1, read) - wanted), abs(corrected(hits, read, expected) / expected - wanted)


def told(errors):
    return f"{sum(errors) / len(errors):.3f}; {max(errors):.3f}"


def made(skew, requests, keys):
    trace = list(simulators.zipf(1, requests, keys, skew))
    bodies = dict(trace)
    total = sum(bodies.values())
    return trace, {key: place_of(key) for key in bodies}, [total * part // 100 for part in PERCENTS]


def measure():
    print("| Popularity | Rate | As read | Corrected |\n|---|---|---|---|")
    for skew in (0.6, 0.9, 1.1):
        trace, places, sizes = made(skew, 300_000, 50_000)
        exact = [hits / requests for _, _, (requests, hits, *_) in counts_of(trace, sizes, MILLION)]
        for rate in RATES:
            read, right = zip(*errors_of(trace, places, sizes, rate, exact))
            print(f"| Zipf {skew} | {rate / MILLION} | {told(read)} | {told(right)} |", flush=True)


def compare(program):
    trace, places, sizes = made(0.9, 20_000, 5_000)
    text = "".join(f"{key} {size}\n" for key, size in trace)
    for rate, part in ((100_000, 0), (100_000, 9), (250_000, 3), (10_000, 7)):
        words = [program, "--policy", ",".join(simulators.POLICIES), "--size", ",".join(map(str, sizes)), "--format", "csv"]
        words += ["--sample", f"{rate / MILLION}", "--part", str(part)]
        run = subprocess.run(words, input=text, capture_output=True, text=True, check=True)
        rows = list(csv.DictReader(io.StringIO(run.stdout)))
        wanted = list(counts_of(sampled(trace, places, rate, part), sizes, rate))
        assert len(rows) == len(wanted)
        expected = len(trace) * rate // MILLION
        for row, (policy, size, counts) in zip(rows, wanted):
            told_here = [policy, size, *counts, expected, corrected(counts[1], counts[0], expected)]
            names = ("policy", "size", "requests", "hits", "bytes", "hit_bytes", "evicted", "expected_requests", "corrected_hits")
            assert [row[name] for name in names] == list(map(str, told_here)), (row, told_here)
        print(f"part {part} of {rate / MILLION}: equal, {len(rows)} caches")


if __name__ == "__main__":
    compare(sys.argv[1]) if len(sys.argv) > 1 else measure()
