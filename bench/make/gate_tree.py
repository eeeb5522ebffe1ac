#!/usr/bin/env python3
"""The copy of this tree that `.ci/run` hands to `rt ci`: without the crates of tests, but for those that this gate proves.

  bench/make/gate_tree.py TO --seed TEXT      makes the copy TO, and prints which crates of tests are in it
  bench/make/gate_tree.py TO --bring          moves what `rt ci` built in the copy to crates/NAME/out of this tree
  bench/make/gate_tree.py --seed TEXT         only prints which crates of tests it would be
  bench/make/gate_tree.py --note [NAME..]     notes that these crates of tests were proved as they stand, or that all were

These are the crates of tests whose own sources (src/, specs/, proofs/) are others than bench/contracts/tests_proved.txt notes, and one
that the text picks, as the commit's hash, so that each is proved anew every few landings, also where only something below it changed.
The file has a hash of the sources of each crate of tests as they were when its proof was last seen to pass: `.ci/run --write` notes
that. It says nothing to `rt ci`, which proves all that it is handed, and .ci/run --whole hands it the whole tree.

All else is copied, so `rt ci` sees each file that is in no crate's folder too. Each form ends with 1, and says why, if it cannot be done.
"""
import argparse
import hashlib
import os
import shutil
import sys

sys.dont_write_bytecode = True
sys.path.insert(0, os.path.dirname(os.path.realpath(__file__)))
import prove  # noqa: E402

TOP = prove.TOP
NOTED = f"{TOP}/bench/contracts/tests_proved.txt"
HEAD = "# Crates of tests whose proof was seen to pass, with a hash of their sources: written by bench/make/gate_tree.py --note\n"


def crates_of_tests():
    return sorted(it for it in prove.rows_of() if it.startswith("tests_of_"))


def hash_of(name):
    """A hash of a crate's own sources."""
    found = hashlib.sha256()
    for part in ("src", "specs", "proofs"):
        for folder, folders, files in os.walk(f"{TOP}/crates/{name}/{part}"):
            folders.sort()
            for file in sorted(files):
                with open(f"{folder}/{file}", "rb") as it:
                    text = it.read()
                path = os.path.relpath(f"{folder}/{file}", f"{TOP}/crates/{name}")
                found.update(f"{path} {len(text)}\n".encode() + text)
    return found.hexdigest()[:16]


def noted():
    """The crates of tests that were seen proved: the hash of what was seen."""
    if not os.path.exists(NOTED):
        return {}
    with open(NOTED, encoding="utf-8") as it:
        rows = [line.split() for line in it if line.strip() and not line.startswith("#")]
    return {row[0]: row[1] for row in rows if len(row) == 2}


def note(names):
    """Notes these crates, and lets the lines of crates that are gone go."""
    there = crates_of_tests()
    unknown = [it for it in names if it not in there]
    if unknown:
        sys.exit(f"no crate of tests is named {unknown[0]}")
    found = noted()
    found.update({it: hash_of(it) for it in names or there})
    with open(NOTED, "w", encoding="utf-8") as it:
        it.write(HEAD)
        it.writelines(f"{name} {number}\n" for name, number in sorted(found.items()) if name in there)


def due(seed):
    """The crates of tests that this gate proves."""
    names, seen = crates_of_tests(), noted()
    found = {it for it in names if seen.get(it) != hash_of(it)}
    if names:
        found.add(names[int(hashlib.sha256(seed.encode()).hexdigest(), 16) % len(names)])
    return sorted(found)


def copy(to, proved):
    """Copies the tree without the other crates of tests, and without what was built."""
    left_out = {it for it in crates_of_tests() if it not in proved}

    def passed_by(at, names):
        inside = os.path.relpath(at, TOP)
        if inside == ".":
            return [it for it in names if it in (".git", "build") or it.startswith(".prove-")]
        if inside == "crates":
            return [it for it in names if it in left_out]
        return [it for it in names if it == "out" and os.path.dirname(inside) == "crates"]

    if os.path.lexists(to):
        sys.exit(f"{to} is there already")
    shutil.copytree(TOP, to, ignore=passed_by, symlinks=True)
    with open(f"{TOP}/crates.txt", encoding="utf-8") as it:
        lines = it.readlines()
    with open(f"{to}/crates.txt", "w", encoding="utf-8") as it:
        it.writelines(line for line in lines if not (":" in line and line.partition(":")[0].split()[:1] and line.partition(":")[0].split()[0] in left_out))


def bring(made):
    """Moves what was built in the copy to where it is looked for, in place of what an earlier run left there."""
    for name in sorted(os.listdir(f"{made}/crates")):
        built = f"{made}/crates/{name}/out"
        if not os.path.isdir(built) or not os.path.isdir(f"{TOP}/crates/{name}"):
            continue
        to = f"{TOP}/crates/{name}/out"
        os.makedirs(to, exist_ok=True)
        for part in sorted(os.listdir(built)):
            old = f"{to}/{part}"
            if os.path.isdir(old) and not os.path.islink(old):
                shutil.rmtree(old)
            elif os.path.lexists(old):
                os.remove(old)
            shutil.move(f"{built}/{part}", old)


def main():
    words = argparse.ArgumentParser(description=__doc__, formatter_class=argparse.RawDescriptionHelpFormatter)
    words.add_argument("to", nargs="?")
    words.add_argument("--seed")
    words.add_argument("--bring", action="store_true")
    words.add_argument("--note", nargs="*", metavar="NAME")
    given = words.parse_args()
    if given.note is not None:
        note(given.note)
    elif given.bring and given.to:
        bring(given.to)
    elif given.seed is not None:
        proved = due(given.seed)
        if given.to:
            copy(given.to, proved)
        print(" ".join(proved) or "none")
    else:
        words.error("what is to be done?")


if __name__ == "__main__":
    try:
        main()
    except (OSError, shutil.Error) as why:
        sys.exit(f"{why}")
