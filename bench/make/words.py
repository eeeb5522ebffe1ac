#!/usr/bin/env python3
"""Passes on from one place what several proofs of a crate import from elsewhere.

  bench/make/words.py NAME..            says how many lines of imports there would be
  bench/make/words.py --write NAME..    writes crates/NAME/proofs/Words.antt, and what imports it

A name that two or more files of proofs/ import, and that means the same in all of them, stands in Words. What the crate's own
proofs declare does not, since Words would import who imports it; nor does what a proof unfolds, which may not be passed on so.
Run again after a change, it begins with what each name of Words stands for.
"""
import argparse
import collections
import os
import re

TOP = os.path.dirname(os.path.dirname(os.path.dirname(os.path.realpath(__file__))))
USE = re.compile(r"^(?:pub )?use ([^{}\s]+)\.\{(.*)\}\s*$")
COMMON, PRELUDE = "Rattle.std.proofs.Common", "Rattle.std.specs.Prelude"
HEAD = "-- The names that several proofs of this crate cite, passed on from one place. Declares nothing.\n"


def text_of(file):
    if not os.path.isfile(file):
        return ""
    with open(file, encoding="utf-8") as it:
        return it.read()


def written(file, text):
    if text != text_of(file):
        with open(file, "w", encoding="utf-8") as it:
            it.write(text)


def names_in(line):
    """The module and the names of a line that imports some, or none of either."""
    found = USE.match(line)
    return (found[1], [it.strip() for it in found[2].split(",") if it.strip()]) if found else (None, [])


class Proofs:
    """The files of a crate's proofs, and where each imports its names from."""

    def __init__(self, name):
        self.folder, self.own = f"{TOP}/crates/{name}/proofs", f"Rattle.{name}.proofs"
        self.words = f"{self.own}.Words"
        passed = [names_in(line) for line in text_of(f"{self.folder}/Words.antt").split("\n")]
        self.known = {name: module for module, names in passed for name in names}
        self.files = {}
        for at, _, names in sorted(os.walk(self.folder)):
            for it in sorted(names):
                if it.endswith(".antt") and it not in ("Words.antt", "Lib.antt"):
                    self.files[f"{at}/{it}"] = text_of(f"{at}/{it}").split("\n")

    def imports(self, lines):
        """Each name that lines import from elsewhere, with its module; what Words passed on, as if it did not."""
        for line in lines:
            module, names = names_in(line)
            for name in names:
                if module == self.words:
                    yield name, self.known[name]
                elif not module.startswith(self.own):
                    yield name, module

    def chosen(self):
        """The names that Words passes on, with their modules."""
        modules, uses, unfolded = collections.defaultdict(set), collections.Counter(), set()
        for lines in self.files.values():
            for line in lines:
                unfolded.update(line.partition("unfolding")[2].split())
            for name, module in self.imports(lines):
                modules[name].add(module)
                uses[name] += 1
        found = {}
        for name, among in modules.items():
            if among == {COMMON, PRELUDE}:
                among = {COMMON}
            if len(among) == 1 and uses[name] > 1 and name not in unfolded and " as " not in name:
                found[name] = next(iter(among))
        return found

    def turned(self, lines, chosen):
        """The same lines, which import from Words what it passes on."""
        taken = [name for name, module in self.imports(lines) if name in chosen]
        taken = list(dict.fromkeys(taken))
        rest, at, out = collections.defaultdict(list), None, []
        for name, module in self.imports(lines):
            if name not in chosen:
                rest[module].append(name)
        for line in lines:
            module, _ = names_in(line)
            if module is None or module.startswith(self.own) and module != self.words:
                out.append(line)
            elif at is None:
                at = len(out)
        new = [f"use {module}.{{{', '.join(names)}}}" for module, names in rest.items()]
        new += [f"use {self.words}.{{{', '.join(taken)}}}"] if taken else []
        return out if at is None else out[:at] + new + out[at:]

    def turn(self, write):
        chosen = self.chosen()
        by = collections.defaultdict(list)
        for name, module in chosen.items():
            by[module].append(name)
        passed = [f"pub use {module}.{{{', '.join(sorted(names))}}}" for module, names in sorted(by.items())]
        turned = {file: self.turned(lines, chosen) for file, lines in self.files.items()}
        count = lambda all_lines: sum(line.startswith("use ") for lines in all_lines for line in lines)
        print(f"{self.own}: {count(self.files.values())} lines of imports, {count(turned.values()) + len(passed)} with {len(chosen)} words")
        if write and passed:
            for file, lines in turned.items():
                written(file, "\n".join(lines))
            written(f"{self.folder}/Words.antt", HEAD + "\n".join(passed) + "\n")
            lib = f"{self.folder}/Lib.antt"
            if "mod Words\n" not in text_of(lib):
                written(lib, text_of(lib).rstrip("\n") + "\npub mod Words\n")


def main():
    words = argparse.ArgumentParser(description=__doc__, formatter_class=argparse.RawDescriptionHelpFormatter)
    words.add_argument("--write", action="store_true")
    words.add_argument("names", nargs="+", metavar="NAME")
    given = words.parse_args()
    for name in given.names:
        Proofs(name).turn(given.write)


if __name__ == "__main__":
    main()
