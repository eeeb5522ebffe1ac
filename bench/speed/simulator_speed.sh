#!/bin/sh
# Requests a second and bytes of memory an entry of the built `cache_sim`, for each policy, with all keys tracked, and
# of a plain LRU in C++ beside it. KEYS are 16 bytes long; each is asked for once, and then all again in another order.
# The programs have their turns, ROUNDS of them (3 if it is not set), and the least processor time of each counts. Bytes
# are the most that a process had, without what it has before it reads. Then the same of a trace with misses, 3,000,000
# requests for 50,000 keys (Zipf 0.9) to 5,000 entries; and how long twelve caches take for it in one thread, in as many as
# there are processors, and in one each, on a machine where nothing else runs.
#     ROUNDS=3 bench/speed/simulator_speed.sh PROGRAM KEYS..
set -eu
program=$1
shift
folder=$(mktemp -d)
trap 'rm -rf "$folder"' EXIT
cp "$(dirname "$0")/plain_lru.cpp.txt" "$folder/plain_lru.cpp"
g++ -O2 -o "$folder/plain_lru" "$folder/plain_lru.cpp"
cat >"$folder/measure.py" <<'END_OF_MEASURE'
import bisect
import os
import random
import subprocess
import sys
import time

folder, program, rounds, *sizes = sys.argv[1:]


def write_trace(keys):
    with open(f"{folder}/trace", "w", encoding="ascii") as it:
        it.writelines(f"k{key:015d} 1\n" for key in range(keys))
        it.writelines(f"k{place * 7919 % keys:015d} 1\n" for place in range(keys))


def before_it_reads(command):
    """The kilobytes that a process has while it waits for its first line."""
    with subprocess.Popen(command, stdin=subprocess.PIPE, stdout=subprocess.DEVNULL, stderr=subprocess.DEVNULL) as ran:
        time.sleep(0.5)
        with open(f"/proc/{ran.pid}/status", encoding="ascii") as it:
            return next(int(line.split()[1]) for line in it if line.startswith("VmHWM"))


def run(command):
    """The processor seconds and the kilobytes of a process that reads the trace."""
    with open(f"{folder}/trace", "rb") as trace:
        ran = subprocess.Popen(command, stdin=trace, stdout=subprocess.DEVNULL, stderr=subprocess.DEVNULL)
        _, status, usage = os.wait4(ran.pid, 0)
    assert status == 0, command
    return usage.ru_utime + usage.ru_stime, usage.ru_maxrss


for keys in map(int, sizes):
    write_trace(keys)
    commands = [[f"{folder}/plain_lru", str(keys)]]
    commands += [[program, "--policy", policy, "--size", str(keys)] for policy in ("lru", "sharded:16", "sieve", "s3-fifo")]
    seen = [[run(command) for command in commands] for _ in range(int(rounds))]
    plain = min(turn[0][0] for turn in seen)
    for place, command in enumerate(commands):
        seconds = min(turn[place][0] for turn in seen)
        kilobytes = min(turn[place][1] for turn in seen) - before_it_reads(command)
        name = command[2] if place else "the LRU in C++"
        print(f"{keys} keys, {name}: {2 * keys / seconds:.0f} requests a second, {seconds / plain:.2f} times the time in C++, {kilobytes * 1024 / keys:.0f} bytes an entry", flush=True)


def write_misses():
    total, sums = 0.0, []
    for rank in range(1, 50_001):
        total += rank**-0.9
        sums.append(total)
    dice = random.Random(5)
    with open(f"{folder}/trace", "w", encoding="ascii") as it:
        it.writelines(f"k{bisect.bisect(sums, dice.random() * total)} 1\n" for _ in range(3_000_000))


def seconds_of(command):
    """How long a process takes that reads the trace, by the clock."""
    start = time.monotonic()
    run(command)
    return time.monotonic() - start


write_misses()
commands = [[f"{folder}/plain_lru", "5000"]]
commands += [[program, "--policy", policy, "--size", "5000"] for policy in ("lru", "sieve", "s3-fifo")]
seen = [[run(command)[0] for command in commands] for _ in range(int(rounds))]
for place, command in enumerate(commands[1:], 1):
    times = min(turn[place] for turn in seen) / min(turn[0] for turn in seen)
    print(f"with misses, {command[2]}: {times:.2f} times the time in C++", flush=True)
twelve = [program, "--policy", "lru,sieve,s3-fifo", "--size", "1000,5000,10000,20000", "--threads"]
for threads in sorted({1, os.cpu_count(), 12}):
    took = min(seconds_of([*twelve, str(threads)]) for _ in range(int(rounds)))
    print(f"twelve caches in {threads} threads: {took:.1f} seconds", flush=True)
END_OF_MEASURE
python3 "$folder/measure.py" "$folder" "$program" "${ROUNDS:-3}" "$@"
echo "cores=$(nproc) load=$(cut -d' ' -f1 /proc/loadavg)"
