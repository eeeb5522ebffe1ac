#!/usr/bin/env python3
"""Refuses requests for memory of `cache_replay torment`, and compares what it tells with a plain reading of the definitions.

  bench/plays/torment/torment.py PROGRAM                               every script, each request refused in turn
  bench/plays/torment/torment.py PROGRAM --minutes M --seed TEXT       as much of that as there is time for, in an order that the text decides
  bench/plays/torment/torment.py PROGRAM --jobs N                      in so many processes
  bench/plays/torment/torment.py PROGRAM --random N                    so many random scripts (60 if it is not said)
  bench/plays/torment/torment.py PROGRAM --only WORDS                  the scripts whose names have these words

The Nth request of a run is refused, for each N until a run meets no refusal: of the rows beside this file, and of puts cut in two
at each place and byte by byte, with the manager in one list and in two shards. Then random scripts of 250 lines, with requests
refused at a rate and in windows. `plain.py` says what may be told. Besides: a run with one refused request answers one refusal at
most, but for what a put repeats; a run with none answers none; nothing leaks. It ends with 1 if a run is wrong, and says which,
with 77 where there is no gcc, so that it could not be tried here, and with 2 if it could not begin for another reason.
"""
import argparse
import concurrent.futures
import hashlib
import multiprocessing
import os
import random
import shutil
import signal
import subprocess
import sys
import tempfile
import time
import traceback

sys.dont_write_bytecode = True
import plain
import scripts

HERE = os.path.dirname(os.path.realpath(__file__))
MANAGERS = [("simple", None), ("shards", 2)]
ALL = 10**9


class Told:
    """What was told of one line."""

    def __init__(self):
        self.reply = self.noted = self.numbers = None
        self.events, self.entries = [], None


def told_of(script, lines):
    """What was told of each line of a script."""
    lines = iter(lines)
    made = []
    for line in script.lines:
        told = Told()
        told.reply = next(lines, None)
        plain.require(told.reply is not None, f"nothing is told of {line}")
        if told.reply != "not read" and not line.startswith("at "):
            read_rest(line, told, lines)
        made.append(told)
    plain.require(next(lines, None) is None, "more is told than was asked")
    return made


def read_rest(line, told, lines):
    """The lines after a reply: what was noted, the numbers, and how many entries there are."""
    for one in lines:
        if one.startswith("noted "):
            told.noted = one.removeprefix("noted ")
        elif one.startswith("stored ") and " slots " in one:
            told.numbers = one
        elif one.startswith("entries "):
            told.entries = int(one.split(" ")[1])
            return
        else:
            told.events.append(one)


class Harness:
    """A program, and the library that refuses its requests."""

    def __init__(self, program, library):
        self.program, self.library = program, library
        # a program that the toolchain tries has a checked memory of its own, and is told to let this library in
        self.quirks = {"ASAN_OPTIONS": "verify_asan_link_order=0:detect_leaks=0"}

    def run(self, manager, script, refuse):
        """What it told of a script, and how many requests there were, were refused and are not given back."""
        environment = {"LD_PRELOAD": self.library, "REFUSE": refuse, **self.quirks}
        done = subprocess.run(
            [self.program, "torment", manager, *script.limits], input="".join(f"{line}\n" for line in script.lines).encode("latin-1"),
            stdout=subprocess.PIPE, stderr=subprocess.PIPE, env=environment, timeout=60, close_fds=False, check=False)
        errors = done.stderr.decode("latin-1").split("\n")
        words = errors[-2].split(" ") if len(errors) > 1 else []
        plain.require(len(words) == 6 and words[0] == "requests", f"it ended with {done.returncode}: {errors}")
        plain.require(done.returncode == 0, f"it ended with {done.returncode}: {errors}")
        return done.stdout.decode("latin-1").split("\n")[:-1], int(words[1]), int(words[3]), int(words[5])


def reads(harness, manager, shards, script, refuse):
    """Runs a script once, compares all that it told, and answers what was counted, with the replies."""
    lines, asked, refused, live = harness.run(manager, script, refuse)
    world = plain.World(int(script.limits[0]), int(script.limits[1]) if len(script.limits) > 1 else None, shards)
    replies = []
    for line, told in zip(script.lines, told_of(script, lines)):
        replies.append(told.reply)
        try:
            world.line(line.split(" "), told)
        except plain.Wrong as wrong:
            raise plain.Wrong(f"{line} -> {told.reply} {told.events}: {wrong}") from None
    return asked, refused, live, world.refusals, replies


def plainly(harness, manager, shards, script):
    """The run in which nothing is refused."""
    asked, refused, live, answered, replies = reads(harness, manager, shards, script, "0-0")
    plain.require(refused == 0 and answered == 0, f"{answered} refusals are answered where none was made")
    if script.replies is not None and shards is None:
        for line, reply, wanted in zip(script.lines, replies, script.replies):
            plain.require(wanted in (None, reply), f"{line} -> {reply}: {wanted} is wanted")
    return asked, live


def in_turn(harness, manager, shards, script):
    """Each request refused in turn, once those are made that come before the first line."""
    before = harness.run(manager, scripts.Script("nothing", script.limits, []), "0-0")[1]
    asked, live = plainly(harness, manager, shards, script)
    runs, answers = 1, 0
    for number in range(before + 1, ALL):
        refuse = f"{number}-{number}"
        try:
            asked, refused, left, answered, _ = reads(harness, manager, shards, script, refuse)
            plain.require(answered <= 1, f"{answered} refusals are answered where one was made")
            plain.require(refused or not answered, "a refusal is answered where none was made")
            plain.require(left == live, f"{left} allocations are left, and {live} without a refusal")
        except plain.Wrong as wrong:
            raise plain.Wrong(f"REFUSE={refuse}: {wrong}") from None
        runs, answers = runs + 1, answers + answered
        if not refused:
            return runs, answers
    return runs, answers


def at_random(harness, manager, shards, script):
    """Requests refused at rates, and in windows."""
    chance = random.Random(script.name)
    before = harness.run(manager, scripts.Script("nothing", script.limits, []), "0-0")[1]
    asked, live = plainly(harness, manager, shards, script)
    plans = [f"{before + 1}-{ALL}/{rate}/{chance.randint(1, ALL)}" for rate in (5, 20, 60, 200)]
    for width in (2, 5, 20, 80):
        first = chance.randint(before + 1, max(before + 1, asked))
        plans.append(f"{first}-{first + width}")
    answers = 0
    for refuse in plans:
        try:
            _, refused, left, answered, _ = reads(harness, manager, shards, script, refuse)
            plain.require(answered <= refused, f"{answered} refusals are answered where {refused} were made")
            plain.require(left == live, f"{left} allocations are left, and {live} without a refusal")
        except plain.Wrong as wrong:
            raise plain.Wrong(f"REFUSE={refuse}: {wrong}") from None
        answers += answered
    return 1 + len(plans), answers


def once(harness, manager, shards, script):
    """The run in which nothing is refused, and no other."""
    plainly(harness, manager, shards, script)
    return 1, 0


def torment(task):
    """One script with one manager: how many runs and answered refusals, or what was wrong."""
    harness, (manager, shards), script, until = task
    if time.time() > until:
        return script.name, manager, 0, 0, None
    try:
        how = once if script.is_plain else at_random if script.replies is None else in_turn
        runs, answers = how(harness, manager, shards, script)
        return script.name, manager, runs, answers, None
    except plain.Wrong as wrong:
        return script.name, manager, 0, 0, f"{wrong}"
    except Exception as odd:  # what is told is nothing that can be read, or nothing is told in time
        return script.name, manager, 0, 0, f"{type(odd).__name__}: {odd}"


def order_of(seed):
    return lambda task: hashlib.sha256(f"{seed} {task[1][0]} {task[2].name}".encode()).digest()


def main():
    # so that the processes that it started end with it
    signal.signal(signal.SIGTERM, lambda number, _: sys.exit(128 + number))
    words = argparse.ArgumentParser()
    words.add_argument("program")
    words.add_argument("--minutes", type=float)
    words.add_argument("--seed", default="")
    words.add_argument("--jobs", type=int, default=os.cpu_count())
    words.add_argument("--random", type=int, default=60)
    words.add_argument("--only", default="")
    words.add_argument("--library", help="a library that refuses requests, in place of the one beside this file")
    said = words.parse_args()
    with tempfile.TemporaryDirectory() as folder:
        library = said.library or f"{folder}/refuse.so"
        if not said.library:
            if not shutil.which("gcc"):
                print("torment: there is no gcc")
                return 77
            command = ["gcc", "-O1", "-shared", "-fPIC", "-o", library, "-x", "c", f"{HERE}/refuse.c.txt"]
            if subprocess.run(command, check=False).returncode != 0 or not os.access(said.program, os.X_OK):
                print(f"torment: no library, or no program {said.program}")
                return 2
        harness = Harness(os.path.realpath(said.program), library)
        chosen = scripts.rows() + scripts.puts() + scripts.insertions()
        chosen += [scripts.random_script(f"{said.seed} {number}") for number in range(said.random)]
        chosen = [script for script in chosen if said.only in script.name]
        until = time.time() + said.minutes * 60 if said.minutes else float("inf")
        tasks = sorted(((harness, manager, script, until) for manager in MANAGERS for script in chosen), key=order_of(said.seed))
        return tell(said, tasks)


def begin_worker():
    """A worker ends at once when it is told to. With the handler of `main` one was seen to wait for ever, told so just before it waited."""
    signal.signal(signal.SIGTERM, signal.SIG_DFL)


def tell(said, tasks):
    scripts_run = runs = answers = failed = 0
    # unlike those of a `multiprocessing.Pool`, its results end when a worker is killed
    pool = concurrent.futures.ProcessPoolExecutor(said.jobs, initializer=begin_worker)
    try:
        for name, manager, made, answered, wrong in pool.map(torment, tasks):
            runs, answers, scripts_run = runs + made, answers + answered, scripts_run + (made > 0)
            if wrong:
                failed += 1
                print(f"torment: {name}, {manager}: {wrong}", flush=True)
    except BaseException:
        for worker in multiprocessing.active_children():
            worker.terminate()
        raise
    finally:
        pool.shutdown(cancel_futures=True)
    print(f"torment: seed '{said.seed}': {scripts_run} of {len(tasks)} scripts, {runs} runs, {answers} refusals answered, {failed} wrong")
    return 1 if failed else 0


if __name__ == "__main__":
    try:
        code = main()
    except Exception:  # a mistake of this script is nothing that it found
        traceback.print_exc()
        code = 2
    sys.exit(code)
