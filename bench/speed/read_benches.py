#!/usr/bin/env python3
"""Sees that the programs of bench/speed/ still read: puts them into one crate of a copy of this tree, each as a module, and compiles it.

  bench/speed/read_benches.py       ends with 1, and says why, if a program does not read

Those that use threads are compiled each by itself. Nothing is proved, and no program is run to its end: what it measures, its own
script says. It takes about two minutes.
"""
import glob
import os
import re
import shutil
import subprocess
import sys
import tempfile

TOP = os.path.dirname(os.path.dirname(os.path.dirname(os.path.realpath(__file__))))
NAME = "benches"


def libraries():
    """What the scripts give their programs to use."""
    found = set()
    for path in glob.glob(f"{TOP}/bench/speed/*.sh"):
        with open(path, encoding="utf-8") as it:
            for line in re.findall(r"(?m)^build '\w+: ([^']*)'", it.read()):
                found.update(line.split())
    return sorted(found)


def as_module(path, own=None):
    """The text of a program as a module: no attribute of a root, and paths into its own files below its name."""
    with open(path, encoding="utf-8") as it:
        text = it.read().replace("#![tactic(auto)]\n", "").replace("\nfn main(", "\npub fn main(")
    return text.replace("crate::", f"crate::{own}::") if own else text


def write(path, text):
    """Writes a file, and makes its folder."""
    os.makedirs(os.path.dirname(path), exist_ok=True)
    with open(path, "w", encoding="utf-8") as it:
        it.write(text)


def copy_tree(room):
    """Copies the sources of the tree, with a crate beside them that has no files yet: its folder."""
    shutil.copytree(f"{TOP}/crates", f"{room}/crates", ignore=shutil.ignore_patterns("out"))
    shutil.copy(f"{TOP}/HANDLES", room)
    shutil.copy(f"{TOP}/crates.txt", room)
    with open(f"{room}/crates.txt", "a", encoding="utf-8") as it:
        it.write(f"{NAME}: {' '.join(libraries())}\n")
    return f"{room}/crates/{NAME}"


def programs():
    """The files of each program: where each is, by its path in the crate if the program is a module."""
    found = {}
    for path in glob.glob(f"{TOP}/bench/speed/*.rt.txt"):
        name = os.path.basename(path).removesuffix(".rt.txt")
        found[name] = {f"{name}.rt": path}
    for path in glob.glob(f"{TOP}/bench/speed/*/*.rt.txt"):
        name, file = path.removesuffix(".txt").split("/")[-2:]
        found.setdefault(name, {})[f"{name}.rt" if file == "main.rt" else f"{name}/{file}"] = path
    return found


def as_root(text):
    """A program that ends before it measures."""
    head = "fn main(rt: HostRuntime) -> ExitCode {"
    return text.replace(head, f"{head}\n    let ends = true;\n    if ends {{\n        return ExitCode::SUCCESS;\n    }}")


def wrong_in(folder, names, root):
    """Why these programs do not read as modules of one program: of the root, which alone has the runtime's threads, or of an
    empty one."""
    every = programs()
    shutil.rmtree(folder, ignore_errors=True)
    for name in names:
        for file, path in every[name].items():
            write(f"{folder}/src/{file}", as_module(path, name if len(every[name]) > 1 else None))
    modules = "".join(f"pub mod {it};\n" for it in names)
    if root:
        with open(every[root][f"{root}.rt"], encoding="utf-8") as it:
            write(f"{folder}/src/main.rt", as_root(it.read()))
    else:
        write(f"{folder}/src/main.rt", f"#![tactic(auto)]\n{modules}\nfn main() {{}}\n")
    ran = subprocess.run(["rt", "try"], cwd=folder, capture_output=True, text=True, check=False)
    said = ran.stdout + ran.stderr
    wrong = [it for it in said.split("\n") if ": error" in it]
    return wrong or ([] if "checked: ended status=0" in said else said.split("\n")[-10:])


def main():
    alone = []
    for name, files in programs().items():
        with open(files[f"{name}.rt"], encoding="utf-8") as it:
            if "Threads" in it.read():
                alone.append(name)
    together = sorted(programs().keys() - set(alone))
    with tempfile.TemporaryDirectory(prefix="benches-") as room:
        folder = copy_tree(room)
        wrong = wrong_in(folder, together, None)
        for name in sorted(alone):
            wrong += [f"{name}: {it}" for it in wrong_in(folder, [], name)]
    print("\n".join(wrong) if wrong else f"{len(programs())} programs of bench/speed/ read")
    return 1 if wrong else 0


if __name__ == "__main__":
    sys.exit(main())
