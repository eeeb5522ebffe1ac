#!/usr/bin/env python3
"""Runs the tests of this repository without a proof: `./tests` at the top is this script.

  ./tests                 all tests
  ./tests WORD..          those whose path has one of the words: tests_of_values, values::files, or a part of a test's name

The crates of tests become modules of a few crates, in copies of the sources, so that the libraries below are read and compiled only
a few times; each of these is a program. They are built side by side, as many as there are processors, at most four: `rt try` reads
one and hands LLVM a module, in which an index, a sum, a cast, an `unwrap` or a `prove!` that goes wrong stops the test; the kit's own
clang compiles that, optimized and without a watch over memory (as `bench/make/tried.py --fast`). Then the kit's runner runs each test
in a process of its own, side by side, for at most 120 seconds (RT_SECONDS gives others).

It says what is done, and after how many seconds. A test that fails has its lines of the kit's runner, with the row and the source.
The last line is `N passed, M failed`, and the end 1 if anything failed, which a program that is not built counts as too; it is 2 if no
test has the words. RT_JOBS gives another number than that of the processors. Programs are kept in build/tests under a key of the toolchain, crates.txt and the sources that they are made of, so
a second run only runs. Nothing is proved: whether a test keeps to what the calls require, `rt check --test` says in its crate.
"""
import concurrent.futures
import glob
import os
import re
import resource
import shutil
import signal
import subprocess
import sys
import tempfile
import threading
import time

sys.dont_write_bytecode = True
sys.path.insert(0, os.path.dirname(os.path.realpath(__file__)))
import prove  # noqa: E402
import tried  # noqa: E402

TOP, KIT = tried.TOP, tried.KIT
KEPT = f"{TOP}/build/tests"
NAME = "some_tests"
# Which crates are a program together: those that stand over the same libraries, about as much work in each. The tests of simulations
# run longest, so their program is the smallest, and is begun first. A crate that stands in none goes to the last.
GROUPS = ["simulations", "scripts threads worlds", "caches large requests sharing", "http stores values"]
SECONDS = os.environ.get("RT_SECONDS", "120")
MOST = 1800  # seconds that the kit's clang, linker or runner may take for one thing
BEGIN = time.time()


def say(words):
    print(f"{time.time() - BEGIN:4.0f} s: {words}", flush=True)


def crates_of_tests():
    return [it for it in prove.rows_of() if it.startswith("tests_of_")]


def groups(names):
    """The crates of each program."""
    found = [[f"tests_of_{it}" for it in group.split()] for group in GROUPS]
    known = {it for group in found for it in group}
    found[-1] += sorted(it for it in names if it not in known)
    return [group for group in ([it for it in group if it in names] for group in found) if group]


def tests_in(name):
    """The paths of a crate's tests: each begins with the crate."""
    found, top = [], f"{TOP}/crates/{name}/src"
    for path in sorted(glob.glob(f"{top}/**/*.rt", recursive=True)):
        module = re.sub(r"(^|/)(lib|mod)$", "", os.path.relpath(path, top)[: -len(".rt")])
        at = "::".join(it for it in [name, *module.split("/")] if it)
        with open(path, encoding="utf-8") as it:
            found += [f"{at}::{test}" for test in re.findall(r"#\[test\]\s*(?:#\[[^\n]*\]\s*)*(?:pub )?fn (\w+)", it.read())]
    return found


def named(words, path):
    return not words or any(it in path for it in words)


def write(path, text):
    os.makedirs(os.path.dirname(path), exist_ok=True)
    with open(path, "w", encoding="utf-8") as it:
        it.write(text)


def merge(room, names):
    """Makes one crate of these: each is a module of its root, under the end of its name, with its lines where they were."""
    rows, mods, uses = prove.rows_of(), "", set()
    for name in names:
        module = name.removeprefix("tests_")
        uses.update(rows[name].partition(":")[2].split())
        mods += f"#[cfg(test)]\nmod {module};\n"
        top = f"{TOP}/crates/{name}/src"
        for path in glob.glob(f"{top}/**/*.rt", recursive=True):
            with open(path, encoding="utf-8") as it:
                text = re.sub(r"\bcrate::", f"crate::{module}::", it.read().replace("#![tactic(auto)]\n", "\n"))
            inside = os.path.relpath(path, top)
            write(f"{room}/crates/{NAME}/src/{f'{module}.rt' if inside == 'lib.rt' else f'{module}/{inside}'}", text)
    write(f"{room}/crates/{NAME}/src/lib.rt", f"#![tactic(auto)]\n//! Tests of several crates.\n\n{mods}")
    return f"{NAME}: {' '.join(sorted(uses))}\n"


def libraries_of(names):
    uses = prove.crates_of()
    return sorted({it for name in names for it in prove.below(name, uses, set())})


def copy(room, names):
    """Makes a tree of the crates below these, and of these as one."""
    rows = prove.rows_of()
    for it in libraries_of(names):
        shutil.copytree(f"{TOP}/crates/{it}", f"{room}/crates/{it}", ignore=shutil.ignore_patterns("out"))
    shutil.copy(f"{TOP}/HANDLES", room)
    row = merge(room, names)
    write(f"{room}/crates.txt", "".join(rows[it] for it in libraries_of(names)) + row)


def short(names):
    return ", ".join(it.removeprefix("tests_of_") for it in names)


def kept_at(names):
    """Where the program of these crates stands once it is built."""
    ends = "+".join(it.removeprefix("tests_of_") for it in sorted(names))
    return f"{KEPT}/{ends}-{tried.key_of([*names, *libraries_of(names)])}"


def build(names, kept, rooms):
    """Builds the program of these crates, in a room of its own."""
    with tempfile.TemporaryDirectory(prefix="of-", dir=rooms) as room:
        copy(room, names)
        module = tried.module_of(f"{room}/crates/{NAME}", ["--test"], f"{room}/made", MOST)
        say(f"the tests of {short(names)} are read")
        tried.store(tried.made_of(module, "-O1", f"{room}/made", MOST), kept)
        say(f"the tests of {short(names)} are compiled")


def listed(program):
    """The names of the tests of a program, each as its runner calls it."""
    said = subprocess.run([program, "--list"], stdin=subprocess.DEVNULL, capture_output=True, text=True, timeout=60, check=True).stdout
    return re.findall(r"\bof_\w+(?:::\w+)+", said)


def run(program, name, rooms):
    """Runs one test in an empty folder, since some write files: whether it passed, and what the kit's runner said of it."""
    words = [f"{KIT}/bin/rattle-test", "--seconds", SECONDS, "--filter", name, program]
    try:
        with tempfile.TemporaryDirectory(prefix="in-", dir=rooms) as room:
            said = subprocess.run(words, cwd=room, stdin=subprocess.DEVNULL, capture_output=True, text=True, errors="replace", timeout=MOST, check=False)
    except subprocess.TimeoutExpired:
        return False, f"test {name} ... the kit's runner did not end"
    # (a filter runs each test whose name has it, and this is about one)
    found = re.search(rf"^test {re.escape(name)} \.\.\. .*\n(?:    .*\n|\n(?=    ))*", said.stdout, re.M)
    if not found:
        return False, f"test {name} ... the kit's runner did not tell: {said.stdout[-600:]}{said.stderr[-600:]}"
    is_ok = found[0].split("\n")[0].endswith("... ok")
    return is_ok, re.sub(r"\bsrc/(of_\w+?)(?:(/\S+?)|\.rt)(?=:\d)", lambda it: f"crates/tests_{it[1]}/src{it[2] or '/lib.rt'}", found[0].rstrip())


class Tests:
    """The programs that are built, the tests that run, and what came of those that ended."""

    def __init__(self, pool, words, rooms):
        self.pool, self.words, self.rooms = pool, words, rooms
        self.passed = self.failed = 0
        self.left = 0  # what is begun or waits
        self.moved = threading.Condition()

    def begin(self, what, *given):
        with self.moved:
            self.left += 1
        self.pool.submit(self.ended, what, *given)

    def ended(self, what, *given):
        bad = None
        try:
            what(*given)
        except tried.NoModule as why:
            bad = f"`rt try` made no module of the tests:\n{why}"
        except Exception as why:  # whatever it is, it is no test that passed
            bad = f"{type(why).__name__}: {why}"
        with self.moved:
            if bad is not None:
                self.failed += 1
                say(f"FAILED: {bad}")
            self.left -= 1
            self.moved.notify_all()

    def program(self, names):
        """Builds the program of some crates if it is not there, and then has its tests run."""
        kept = kept_at(names)
        if os.access(kept, os.X_OK):
            say(f"the tests of {short(names)} are built")
        else:
            say(f"the tests of {short(names)} are being read")
            build(names, kept, self.rooms)
        wanted = [it for it in listed(kept) if named(self.words, f"tests_{it}")]
        if not wanted:
            raise ValueError(f"the program of {short(names)} has none of the tests")
        # those that take seconds first
        for it in sorted(wanted, key=lambda it: ("::long::" not in it, not it.startswith("of_large"))):
            self.begin(self.test, kept, it)

    def test(self, program, name):
        is_ok, said = run(program, name, self.rooms)
        with self.moved:
            self.passed += is_ok
            self.failed += not is_ok
            if not is_ok:
                say(f"FAILED: {said}")

    def wait(self):
        """Waits for the end, and says every ten seconds how many tests passed so far."""
        told = 0
        with self.moved:
            while self.left:
                self.moved.wait(10)
                if self.passed != told and time.time() - self.said_at > 10:
                    told = self.passed
                    self.said_at = time.time()
                    say(f"{told} tests passed so far")

    said_at = time.time()


def programs_for(words):
    """The programs that have the tests with one of these words: whole groups, or, where that program is not kept, the crates alone."""
    names = crates_of_tests()
    wanted = [it for it in names if any(named(words, path) for path in tests_in(it))]
    for group in groups(names):
        some = [it for it in group if it in wanted]
        if some:
            yield group if os.access(kept_at(group), os.X_OK) else some


def ends_with(rooms):
    """A signal ends the run, with what it started."""

    def stopped(number, _frame):
        for child in tried.children_of(os.getpid()):
            os.kill(child, signal.SIGTERM)
        shutil.rmtree(rooms, ignore_errors=True)
        os._exit(128 + number)

    for number in (signal.SIGTERM, signal.SIGINT, signal.SIGHUP):
        signal.signal(number, stopped)


def main():
    words = sys.argv[1:]
    if any(it.startswith("-") for it in words):
        sys.exit(__doc__)
    wanted = list(programs_for(words))
    if not wanted:
        print(f"no test has the word {' or '.join(words)}", file=sys.stderr)
        sys.exit(2)
    lanes = int(os.environ.get("RT_JOBS") or min(os.cpu_count() or 1, 4))
    with tempfile.TemporaryDirectory(prefix="tests-") as rooms, concurrent.futures.ThreadPoolExecutor(lanes) as pool:
        ends_with(rooms)
        every = Tests(pool, words, rooms)
        for names in wanted:
            every.begin(every.program, names)
        every.wait()
    used = resource.getrusage(resource.RUSAGE_CHILDREN)
    say(f"all ended, with nothing of them proved; processor seconds: {used.ru_utime + used.ru_stime:.0f}")
    print(f"{every.passed} passed, {every.failed} failed")
    sys.exit(1 if every.failed else 0)


if __name__ == "__main__":
    main()
