#!/usr/bin/env python3
"""Tells which lemmas and definitions nothing uses, and which libraries a crate is given and names in no file.

  bench/contracts/unused.py         the lemmas and definitions in proofs/ and specs/ of all crates, one a line, and the libraries of
                                    crates.txt, as `CRATE: LIBRARY ..`; it ends with 1 if there is one
  bench/contracts/unused.py --cut   takes them out, and what only they used, and the imports that are no longer wanted; then run
                                    `rt tidy` in the crates that it names, which checks them again

A name is used that stands elsewhere in its file, that another file imports, or that a tactic names. What a function's Answers,
Invariants and Proof state is named by the function, what Send and Sync state by an impl, and the hash's vectors in
proofs/HashVectors.antt are tests: they are never told.
"""
import argparse
import collections
import glob
import os
import re
import sys

TOP = os.path.dirname(os.path.dirname(os.path.dirname(os.path.realpath(__file__))))
DEFINES = re.compile(r"(?:(?:unfoldable|pub|abbrev|data|record) )*([^\s(){}:.]+)(?= .*: | :|$)")
NAMED_ELSEWHERE = ("/Answers.antt", "/Invariants.antt", "/Proof.antt", "/Send.antt", "/Sync.antt", "/proofs/HashVectors.antt")


def words_in(text):
    """How often each word is in a text, without its comments."""
    lines = [it for it in text.split("\n") if not it.lstrip().startswith(("--", "//"))]
    return collections.Counter(re.findall(r"[^\s(){},;.«»\"`:]+", "\n".join(lines)))


def defined_in(paragraph):
    """The names that a paragraph defines."""
    found = []
    for line in paragraph.split("\n"):
        if line.startswith((" ", "--", "use ", "pub use ", "module ")) or " : " not in line:
            continue
        name = DEFINES.match(line)
        if name:
            found.append(name.group(1))
    return found


def read():
    """The texts of the crates, by path."""
    texts = {}
    for kind in ("proofs/**/*.antt", "specs/**/*.antt", "src/**/*.rt"):
        for path in glob.glob(f"{TOP}/crates/*/{kind}", recursive=True):
            with open(path, encoding="utf-8") as it:
                texts[path] = it.read()
    return texts


def module_of(path):
    """The module that a file of proofs or specs is."""
    return "Rattle." + os.path.relpath(path, f"{TOP}/crates").removesuffix(".antt").replace("/", ".")


def names_imported(text):
    """The names that a text imports one by one, each with its module."""
    for module, names in re.findall(r"use (Rattle\.[^\s{}]+)\.\{([^}]*)\}", text):
        for name in names.split(","):
            yield module, name.split(" as ")[0].strip()


def imports_in(texts):
    """What all files import, as (module, name), and as (module, None) for a module that is named as a whole. What a crate's Words
    passes on is imported from where it stands, by who imports it from there."""
    found, passed = set(), {}
    for path, text in texts.items():
        if path.endswith("/proofs/Words.antt"):
            for module, name in names_imported(text):
                passed[module_of(path), name] = module
    for path, text in texts.items():
        if path.endswith("/proofs/Words.antt"):
            continue
        for module, name in names_imported(text):
            module = passed.get((module, name), module)
            found |= {(module, name), (f"{module}.{name}", None)}
        found |= {(module, None) for module in re.findall(r"use (Rattle\.[^\s{};]+)(?: as |;|$)", text, re.M)}
        for path in re.findall(r"(\w+(?:::[\w-]+)+)", text):
            parts = path.split("::")
            found.add((".".join(parts[1:-1]), parts[-1]))
    return found


def unused(texts):
    """The paragraphs of which nothing is used outside, as (path, paragraph, names)."""
    imports = imports_in(texts)
    found = []
    for path, text in texts.items():
        if not path.endswith(".antt") or path.endswith(NAMED_ELSEWHERE):
            continue
        module, here = module_of(path), words_in(text)
        if (module, None) in imports:
            continue

        def is_used(name, own):
            return here[name] > own[name] or (module, name) in imports or (module.split(".", 2)[2], name) in imports

        for paragraph in text.split("\n\n"):
            names, own = defined_in(paragraph), words_in(paragraph)
            if names and not any(is_used(name, own) for name in names):
                found.append((path, paragraph, names))
    return found


# A library of which a crate uses an impl alone: no file names it, and without it the impl is not in scope.
FOR_AN_IMPL = {("tests_of_values", "indexmap")}


def libraries_unnamed(texts):
    """The libraries of crates.txt that no file of their crate names, as (crate, libraries)."""
    found = []
    with open(f"{TOP}/crates.txt", encoding="utf-8") as it:
        for line in it:
            head, _, libraries = line.split("#")[0].partition(":")
            if not libraries:
                continue
            crate = head.split()[0]
            words = set()
            for path, text in texts.items():
                if path.startswith(f"{TOP}/crates/{crate}/"):
                    words.update(re.findall(r"\w+", text))
            unnamed = [it for it in libraries.split() if it not in words and (crate, it) not in FOR_AN_IMPL]
            if unnamed:
                found.append((crate, unnamed))
    return found


def without_unwanted_imports(text):
    """The text without the names that its imports bring and nothing in it has."""
    body = "\n".join(it for it in text.split("\n") if not re.match(r"(pub )?use |\s*--", it))
    words = set(re.findall(r"[^\s(){},;.«»\"`:]+", body))
    apart = {part for word in words for part in re.split(r"[∷++×⊎∙→≡]", word)}

    def is_wanted(name):
        name = name.split(" as ")[-1].strip()
        if "◌" in name:
            return all(sign in body for sign in name.split("◌") if sign)
        return name in words or name in apart

    kept = []
    for line in text.split("\n"):
        named = re.match(r"(use [^{]*\.)\{(.*)\}$", line)
        if named:
            names = [it for it in named.group(2).split(", ") if is_wanted(it)]
            if not names:
                continue
            line = f"{named.group(1)}{{{', '.join(names)}}}"
        kept.append(line)
    return "\n".join(kept)


def cut(texts):
    """Takes out what is unused until nothing is, and answers the paths that changed."""
    changed = set()
    while True:
        found = unused(texts)
        if not found:
            return changed
        for path, paragraph, _names in found:
            rest = [it for it in texts[path].split("\n\n") if it != paragraph]
            texts[path] = without_unwanted_imports("\n\n".join(rest).rstrip("\n") + "\n")
            changed.add(path)


def main():
    words = argparse.ArgumentParser(description=__doc__, formatter_class=argparse.RawDescriptionHelpFormatter)
    words.add_argument("--cut", action="store_true")
    given = words.parse_args()
    texts = read()
    found = unused(texts)
    for path, _paragraph, names in found:
        print(os.path.relpath(path, TOP), *names)
    unnamed = libraries_unnamed(texts)
    for crate, libraries in unnamed:
        print(f"{crate}:", *libraries)
    if given.cut:
        for path in cut(texts):
            with open(path, "w", encoding="utf-8") as it:
                it.write(texts[path])
    sys.exit(1 if found or unnamed else 0)


if __name__ == "__main__":
    main()
