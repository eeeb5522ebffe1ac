#!/usr/bin/env python3
"""Proves crates side by side, and leaves this tree ready for daily work.

  bench/make/prove.py [--lanes N] [NAME..]      the crates named and those below them, or all but the crates of tests

One tree takes one check at a time, so each check has a copy of the sources of its own, with the libraries below it as hard
links. What a check keeps and what it builds come back into crates/NAME/out, so that a later `rt check` here proves only what
changed. A program is built too, as crates/NAME/out/NAME. A crate whose proof fails is named, with the end of what was
printed; nothing above it is tried. The longest chain of crates goes first, and takes the processors that no other crate can use.
"""
import argparse
import os
import shutil
import subprocess
import sys
import tempfile
import threading
import time

TOP = os.path.dirname(os.path.dirname(os.path.dirname(os.path.realpath(__file__))))


def rows_of():
    """The line of crates.txt of each crate of the repository."""
    with open(f"{TOP}/crates.txt", encoding="utf-8") as it:
        lines = [line.partition("#")[0].rstrip() + "\n" for line in it if ":" in line.partition("#")[0]]
    return {line.partition(":")[0].split()[0]: line for line in lines}


def crates_of():
    """Each crate of the repository with those of the repository that it uses."""
    rows = rows_of()
    return {name: [it for it in row.partition(":")[2].split() if it in rows] for name, row in rows.items()}


def below(name, uses, found):
    for it in uses[name]:
        if it not in found:
            found.add(it)
            below(it, uses, found)
    return found


def rows_below(name):
    """The lines of crates.txt of a crate and of those below it, by crate."""
    rows = rows_of()
    return {it: rows[it] for it in [name, *sorted(below(name, crates_of(), set()))]}


def lines_of(name):
    """How much there is to prove, by lines."""
    total = 0
    for folder, folders, files in os.walk(f"{TOP}/crates/{name}"):
        folders[:] = [it for it in folders if it != "out"]
        for file in files:
            if file.endswith((".rt", ".antt")):
                with open(f"{folder}/{file}", "rb") as it:
                    total += it.read().count(b"\n")
    return total


class Prover:
    """The crates that are wanted, which of them are done, and the copies that are free."""

    def __init__(self, wanted, uses, room, lanes):
        self.uses, self.todo = uses, set(wanted)
        self.done, self.failed, self.running = set(), set(), set()
        self.jobs = {}  # of each crate that is running
        self.free = [f"{room}/{number}" for number in range(lanes)]
        self.moved = threading.Condition()
        self.start = time.time()
        lines = {name: lines_of(name) for name in self.todo}
        self.weight = {name: self.chain(name, lines) for name in self.todo}

    def chain(self, name, lines):
        """The lines of the longest chain of crates that waits for this one."""
        above = [self.chain(it, lines) for it in self.todo if name in self.uses[it]]
        return lines[name] + max(above, default=0)

    def ready(self):
        waiting = self.todo - self.done - self.failed - self.running
        found = [it for it in waiting if all(use in self.done for use in self.uses[it])]
        return sorted(found, key=lambda it: -self.weight[it])

    def run(self):
        with self.moved:
            while True:
                ready = self.ready()
                while ready and self.free:
                    name = ready.pop(0)
                    self.running.add(name)
                    # the processors that no other crate can use go to this one, for which most wait
                    others = sum(self.jobs.values()) + min(len(ready), len(self.free) - 1)
                    jobs = self.jobs[name] = max(1, os.cpu_count() - others)
                    threading.Thread(target=self.prove, args=(name, self.free.pop(), jobs), daemon=True).start()
                if not self.running:
                    return
                self.moved.wait()

    def prove(self, name, lane, jobs):
        try:
            take_along(name, lane, below(name, self.uses, set()))
            good, said = proved(name, f"{lane}/crates/{name}", jobs)
            shutil.rmtree(f"{TOP}/crates/{name}/out", ignore_errors=True)
            os.rename(f"{lane}/crates/{name}/out", f"{TOP}/crates/{name}/out")
        except OSError as refused:
            good, said = False, str(refused)
        with self.moved:
            self.running.remove(name)
            del self.jobs[name]
            self.free.append(lane)
            (self.done if good else self.failed).add(name)
            minutes = (time.time() - self.start) / 60
            print(f"{minutes:.0f} min: {name} {'proved' if good else 'NOT PROVED'}", flush=True)
            if not good:
                print("\n".join(said.split("\n")[-40:]), flush=True)
            self.moved.notify_all()


def take_along(name, lane, libraries):
    """Makes the lane a copy of the sources, with what was kept of the crate and the libraries that it uses."""
    shutil.rmtree(lane, ignore_errors=True)
    os.makedirs(lane)
    shutil.copy(f"{TOP}/HANDLES", lane)
    with open(f"{lane}/crates.txt", "w", encoding="utf-8") as to:
        to.writelines(rows_below(name).values())
    for it in [name, *libraries]:
        shutil.copytree(f"{TOP}/crates/{it}", f"{lane}/crates/{it}", ignore=shutil.ignore_patterns("out"))
    for it in libraries:
        built = f"{TOP}/crates/{it}/out/rlib"
        shutil.copytree(built, f"{lane}/crates/{it}/out/rlib", copy_function=os.link)
    if os.path.isdir(f"{TOP}/crates/{name}/out"):
        os.rename(f"{TOP}/crates/{name}/out", f"{lane}/crates/{name}/out")
    os.makedirs(f"{lane}/crates/{name}/out", exist_ok=True)


def proved(name, folder, jobs):
    """Whether the crate was proved and built, and what was printed."""
    is_library = os.path.exists(f"{folder}/src/lib.rt")
    is_of_tests = name.startswith("tests_of_")
    said = rt(folder, "check", "--jobs", str(jobs))
    if said.returncode:
        return False, said.stdout
    if is_of_tests:  # the gate checks both: what is no test must not end the program
        tested = rt(folder, "check", "--test", "--jobs", str(jobs))
        return not tested.returncode, tested.stdout
    if is_library:
        built = rt(folder, "lib")
        return not built.returncode, built.stdout
    built = rt(folder, "run")  # what it says of no input does not matter
    return os.path.exists(f"{folder}/out/{name}"), built.stdout


def rt(folder, *words):
    return subprocess.run(["rt", *words], cwd=folder, stdin=subprocess.DEVNULL, stdout=subprocess.PIPE, stderr=subprocess.STDOUT, text=True, check=False)


def main():
    words = argparse.ArgumentParser(description=__doc__, formatter_class=argparse.RawDescriptionHelpFormatter)
    words.add_argument("--lanes", type=int, default=min(os.cpu_count(), 4))
    words.add_argument("names", nargs="*")
    given = words.parse_args()
    uses = crates_of()
    named = given.names or [it for it in uses if not it.startswith("tests_of_")]
    unknown = [it for it in named if it not in uses]
    if unknown:
        sys.exit(f"no crate is named {unknown[0]}")
    wanted = {it for name in named for it in [name, *below(name, uses, set())]}
    room = tempfile.mkdtemp(prefix=".prove-", dir=TOP)
    try:
        prover = Prover(wanted, uses, room, given.lanes)
        prover.run()
    finally:
        shutil.rmtree(room, ignore_errors=True)
    left = sorted(prover.todo - prover.done)
    print(f"proved: {len(prover.done)} crates" + (f"; not proved: {' '.join(left)}" if left else ""))
    sys.exit(1 if left else 0)


if __name__ == "__main__":
    main()
