#!/usr/bin/env python3
"""Prints what one has to read to believe a contract: the definitions that it reaches, in reading order.

  bench/contracts/definitions_of.py NAME [--count]
  bench/contracts/definitions_of.py --list [WORD..]  a line for each definition whose name or comment has all of these words
  bench/contracts/definitions_of.py --test TREE     compares what it reads with what the toolchain read, of all libraries that stand proved
                                                    in a tree: the clauses of each function, and that each definition which the toolchain
                                                    has in a contract is reached. It ends with 1 if anything is lost

NAME is a function of a crate, as World::headline or laws::finds_exactly, or a definition, as Headline.FindsUntouched.
A definition comes after those that it names, each with its file and line and the words above it; what the contract itself says
comes last. --count prints only how many definitions and lines each clause of the contract reaches, and all together.
A method that a type has from a trait has the trait's contract, if it writes none. Enums, structs and traits of the sources, and
what the toolchain's own library defines, are named and not followed.
"""
import argparse
import json
import os
import re
import sys

TOP = os.path.dirname(os.path.dirname(os.path.dirname(os.path.realpath(__file__))))
WORD = re.compile(r"[^\W\d][\w'-]*(?:\.[^\W\d][\w'-]*)*")
HEAD = re.compile(r"^(?:abbrev pub|unfoldable pub|pub record|pub data|pub|abbrev|unfoldable)\s+([^\s:(]+)")


class Definition:
    """One definition of specs/: its crate, module, name, text, and the names that its text may mean."""

    def __init__(self, module, name, line, comment, text):
        self.module, self.name, self.line, self.comment, self.text = module, name, line, comment, text

    @property
    def key(self):
        return f"{self.module.crate}.{self.module.name}.{self.name}"


class Module:
    """A file of specs/: its imports and its definitions."""

    def __init__(self, crate, path):
        self.crate, self.path = crate, path
        self.name = os.path.splitext(os.path.basename(path))[0]
        self.names, self.aliases, self.definitions = {}, {}, {}
        with open(path, encoding="utf-8") as it:
            self.read(it.read().split("\n"))

    def read(self, lines):
        comment, block, start = [], [], 0
        for number, line in enumerate([*lines, ""], 1):
            if line.startswith("use "):
                read_use(line[len("use ") :], self.names, self.aliases)
            elif line.startswith("--"):
                self.close(comment, block, start)
                comment, block = [*(comment if not block else []), line], []
            elif not line.strip():
                if not block:
                    comment = []
                self.close(comment, block, start)
                comment, block = [], []
            else:
                if HEAD.match(line) and block and not line.startswith(" "):
                    self.close(comment, block, start)
                    comment, block = [], []
                if not block:
                    start = number
                block.append(line)

    def close(self, comment, block, start):
        found = HEAD.match(block[0]) if block else None
        if found:
            self.definitions[found[1]] = Definition(self, found[1], start, comment, block)


def read_use(text, names, aliases):
    """Notes what a line of imports brings: names with their (crate, module), and modules under another name."""
    found = re.match(r"Rattle\.(\w+)\.specs\.([\w.]+?)(?:\.\{(.*)\}| as (\w+))?;?$", text.strip())
    if not found:
        return
    crate, module, listed, alias = found.groups()
    if alias:
        aliases[alias] = (crate, module)
    for name in (listed or "").split(","):
        name = name.strip().split(" as ")
        if name[0]:
            names[name[-1]] = (crate, module, name[0])


def modules_of():
    """All files of specs/, by crate and module."""
    found = {}
    for crate in sorted(os.listdir(f"{TOP}/crates")):
        specs = f"{TOP}/crates/{crate}/specs"
        if os.path.isdir(specs):
            for file in sorted(os.listdir(specs)):
                if file.endswith(".antt") and file != "Lib.antt":
                    module = Module(crate, f"{specs}/{file}")
                    found[crate, module.name] = module
    return found


def means(words, module_names, aliases, own, modules):
    """The definitions that these words may name, in the order of the words."""
    for word in WORD.findall(words):
        head, _, rest = word.partition(".")
        if head in own:
            yield own[head]
        elif head in module_names:
            crate, module, name = module_names[head]
            target = modules.get((crate, module))
            if target and name in target.definitions:
                yield target.definitions[name]
        elif head in aliases and rest:
            target = modules.get(aliases[head])
            name = rest.split(".")[0]
            if target and name in target.definitions:
                yield target.definitions[name]


def body_of(definition):
    return "\n".join(line.split(" -- ")[0] for line in definition.text if not line.strip().startswith("--"))


def reach(definition, modules, seen, order):
    """Puts the definition, and before it all that it names, into the order."""
    if definition.key in seen:
        return
    seen.add(definition.key)
    module = definition.module
    for other in means(body_of(definition), module.names, module.aliases, module.definitions, modules):
        reach(other, modules, seen, order)
    order.append(definition)


class Contract:
    """A function's contract: where it stands, the clauses whole, the names that they may mean, and the function's body."""

    def __init__(self, path, line, owner, function, names, aliases, clauses, body):
        self.path, self.line, self.owner, self.function = path, line, owner, function
        self.names, self.aliases, self.clauses, self.body = names, aliases, clauses, body
        self.is_public, self.text = False, ""


def closed(text, at):
    """Where the bracket that opens at a place is closed, and the text goes on. Strings and characters of a text are passed over."""
    closers, depth = {"(": ")", "{": "}", "[": "]"}, []
    while True:
        found = re.compile(r"""//[^\n]*|"(?:\\.|[^"\\])*"|'(?:\\.|[^'\\\n])'|[(){}\[\]]""").search(text, at)
        at = found.end()
        if found[0] in closers:
            depth.append(closers[found[0]])
        elif depth and found[0] == depth[-1]:
            depth.pop()
            if not depth:
                return at


def contract_at(text, at):
    """The clauses of the function whose name ends at a place, each as it stands, and its body."""
    at = closed(text, text.index("(", behind_generics(text, at)))
    clause = re.compile(r"(?:\s|//[^\n]*\n)*((?:requires|ensures)\*?)(?: \w+)? \{")
    while not re.compile(r"(?:\s|//[^\n]*\n)*(?:(?:requires|ensures)\b|[{;])").match(text, at):
        at = closed(text, at) if text[at] in "([" else at + 1
    clauses = []
    while found := clause.match(text, at):
        at = closed(text, found.end() - 1)
        clauses.append(re.sub(r"\s*\n\s*", " ", text[found.start(1) : at]))
    opener = re.compile(r"(?:\s|//[^\n]*\n)*\{").match(text, at)
    return clauses, text[at : closed(text, opener.end() - 1)] if opener else ""


def behind_generics(text, at):
    depth = 0
    while text[at] == "<" or depth:
        depth += {"<": 1, ">": -1}.get(text[at], 0) if text[at - 1 : at + 1] != "->" else 0
        at += 1
    return at


def blocks_of(text):
    """Each impl and trait of a file: where it begins and ends, and its head. Before them the file itself."""
    yield 0, len(text), ""
    for head in re.finditer(r"(?m)^(?:pub(?:\(\w+\))? )?(?:unsafe )?(?:impl|trait)\b([^{]*)\{", text):
        yield head.start(), closed(text, head.end() - 1), " ".join(head[1].split())


def contracts_in(path):
    """Each function of a file with its contract. A name means what its impl or trait imports, and else what the file does."""
    with open(path, encoding="utf-8") as it:
        text = it.read()
    names, aliases = {}, {}
    blocks = []
    for start, end, head in blocks_of(text):
        indent = "    " if head else ""
        own = {}, {}
        for line in re.findall(rf"(?m)^{indent}ghost use (.*)$", text[start:end]):
            read_use(line, *own)
        if head:
            blocks.append((start, end, head, names | own[0], aliases | own[1]))
        else:
            names, aliases = own
    for found in re.finditer(r"(?m)^ *(?:pub(?:\(\w+\))? )?(?:final )?(?:const )?(?:unsafe )?(?:extern \"C\" )?fn (\w+)", text):
        block = next((it for it in blocks if it[0] <= found.start() < it[1]), (0, 0, "", names, aliases))
        it = Contract(path, text.count("\n", 0, found.start()) + 1, block[2], found[1], *block[3:], *contract_at(text, found.end()))
        it.is_public = found[0].lstrip().startswith("pub ")
        it.text = text[found.start() : text.index(it.body, found.end()) + len(it.body)] if it.body else ""
        yield it


def sources():
    for folder, folders, files in os.walk(f"{TOP}/crates"):
        folders[:] = sorted(it for it in folders if it != "out")
        if "/src" in folder[len(TOP) :]:
            yield from (f"{folder}/{it}" for it in sorted(files) if it.endswith(".rt"))


def contracts_named(name):
    """The contract of each function of the sources with this name, which may have its type or its module before it."""
    owner, _, function = name.rpartition("::")
    owner = owner.split("::")[-1]
    for path in sources():
        with open(path, encoding="utf-8") as it:
            if not re.search(rf"\bfn {re.escape(function)}\b", it.read()):
                continue
        stem = os.path.splitext(os.path.basename(path))[0]
        for it in contracts_in(path):
            if it.function == function and (owner in ("", stem) or re.search(rf"\b{re.escape(owner)}\b", it.owner)):
                trait = re.match(r"(?:<.*?> )?(\w+)(?:<.*>)? for ", it.owner)
                if it.clauses or not trait:
                    yield it
                elif owner != trait[1]:  # it has the contract of its trait
                    yield from contracts_named(f"{trait[1]}::{function}")


def shown(definition):
    path = os.path.relpath(definition.module.path, TOP)
    return "\n".join([f"{path}:{definition.line}", *definition.comment, *definition.text, ""])


def unread_clauses():
    """A line for each file of the sources in which more or fewer clauses begin than are read."""
    clause = re.compile(r"(?m)^\s*(?:requires|ensures)\*?(?: \w+)? \{")
    for path in sources():
        with open(path, encoding="utf-8") as it:
            begun = len(clause.findall(it.read()))
        read = sum(len(it.clauses) + len(clause.findall(it.body)) for it in contracts_in(path))  # closures have clauses too
        if begun != read:
            yield f"{os.path.relpath(path, TOP)}: {begun} clauses begin, and {read} are read"


def lines_of(order):
    return sum(len(it.text) for it in order)


def read_by_the_toolchain(tree):
    """What the libraries that stand proved in a tree have of each contract: (crate, path of the function, the names of its clauses,
    the definitions of specs/ that it names). A contract is a module of the library's checked text, with an item for each clause."""
    for crate in sorted(os.listdir(f"{tree}/crates")):
        built = f"{tree}/crates/{crate}/out/rlib/{crate}.rlib/toolchain"
        if not os.path.exists(f"{built}/checked.json"):
            continue
        with open(f"{built}/checked.json", encoding="utf-8") as it:
            rows = [json.loads(line.strip().rstrip(",")) for line in it if line.strip().startswith('["')]
        with open(f"{built}/checked.a", "rb") as it:
            for module, begin, length in rows:
                found = re.fullmatch(rf"Rattle-{crate}-specs\.contracts\.(.+)", module)
                if found and not found[1].endswith(".Key") and ".fn." not in found[1]:  # no closure's
                    it.seek(begin)
                    names, named = parts_of(it.read(length))
                    if names:  # what a derive writes has no clause of the sources
                        yield crate, found[1], names, named


def parts_of(text):
    """The clauses of a checked module, and the definitions of this repository that it names: each name has its length before it."""
    clauses = re.findall(rb'"spelling":"((?:requires|ensures)-\w+)-text"', text)
    named = set()
    for found in re.finditer(rb"Rattle-(pcache_\w+|pingora_cache|cache_\w+)-specs\.", text):
        at = found.start()
        size = text[at - 1] if text[at - 1] < 0x80 else 0
        if at > 1 and text[at - 2] >= 0x80 and 0 < text[at - 1] < 4:
            size = text[at - 2] % 0x80 + 0x80 * text[at - 1]
        words = text[at : at + size].decode(errors="replace").split("-specs.", 1)
        if len(words) == 2 and not words[1].startswith(("contracts.", "declared.")):
            named.add((words[0][len("Rattle-") :], words[1]))
    return sorted(it.decode() for it in clauses), named


def test(tree):
    """Compares what this reads with what the toolchain read. Returns whether both have the same clauses of each function, and whether
    all definitions that the toolchain has in a contract are reached by this."""
    modules, mine = modules_of(), {}
    for path in sources():
        crate, _, rest = os.path.relpath(path, f"{TOP}/crates").partition("/src/")
        for it in contracts_in(path):
            mine.setdefault((crate, it.function), []).append((rest[: -len(".rt")].split("/"), it))
    functions, clauses, wrong = 0, 0, []
    for crate, path, names, named in read_by_the_toolchain(tree):
        *owner, function = path.split(".")
        near = [it for file, it in mine.get((crate, function), ()) if owner == file or is_of(owner[-1:], it.owner)]
        fits = [it for it in near if names_of(it.clauses) == names]
        if not fits:
            wrong.append(f"{crate} {path}: the toolchain has {names}, and here are {[names_of(it.clauses) for it in near]}")
            continue
        functions, clauses = functions + 1, clauses + len(names)
        lost = min((lost_of(it, named, modules) for it in fits), key=len)
        if lost:
            wrong.append(f"{crate} {path}: not reached: {', '.join(sorted(lost))}")
    if not functions:  # a gate keeps no text of the contracts
        wrong.append("no library in that tree has its contracts: prove it there by bench/make/prove.py")
    print("\n".join(wrong))
    print(f"{functions} functions with {clauses} clauses are read as the toolchain does, {len(wrong)} are not")
    return not wrong


def is_of(owner, head):
    """Whether the last name of a path of the toolchain is that of an impl or a trait with this head, or both have none."""
    words = re.findall(r"\w+", head)
    return any(owner[0].startswith(it) for it in words) if owner and words else not words


def names_of(clauses):
    """The names of clauses as the toolchain gives them: those without one are counted."""
    found, count = [], {}
    for clause in clauses:
        head, name = re.match(r"(requires|ensures)\*?(?: (\w+))? \{", clause).groups()
        count[head] = count.get(head, 0) + 1
        found.append(f"{head}-{name or count[head]}")
    return sorted(found)


def lost_of(contract, named, modules):
    """The definitions that the toolchain has in a contract, and that this does not reach: but for the records and the types that its
    values are of, which no word of a clause names."""
    seen, order = set(), []
    for definition in means(" ".join(contract.clauses), contract.names, contract.aliases, {}, modules):
        reach(definition, modules, seen, order)
    wanted = []
    for crate, name in sorted(named):
        module, _, rest = name.partition(".")
        if (crate, module) in modules and rest.split(".")[0] in modules[crate, module].definitions:
            wanted.append(modules[crate, module].definitions[rest.split(".")[0]])
    for definition in wanted:
        if re.match(r"pub (?:record|data) |.*: Type\b", definition.text[0]):
            reach(definition, modules, seen, order)
    return {it.key for it in wanted if it.key not in seen}


def listed(wanted):
    """A line for each definition that has all of these words in its name or in the words above it; without such words, its type."""
    for module in modules_of().values():
        for it in module.definitions.values():
            about = " ".join(line.strip().lstrip("-").strip() for line in it.comment)
            about = about or HEAD.sub("", it.text[0].split(" -- ")[0], count=1).removesuffix(" where").strip()
            line = f"{module.crate}: {module.name}.{it.name}: {about}"
            if all(word.lower() in line.lower() for word in wanted):
                yield line


def main():
    words = argparse.ArgumentParser(description=__doc__, formatter_class=argparse.RawDescriptionHelpFormatter)
    words.add_argument("name", nargs="?")
    words.add_argument("--count", action="store_true")
    words.add_argument("--list", nargs="*", metavar="WORD")
    words.add_argument("--test", metavar="TREE")
    given = words.parse_args()
    if given.list is not None:
        print("\n".join(listed(given.list)))
        return
    if given.test:
        sys.exit(0 if test(given.test) else 1)
    if not given.name:
        words.error("a name is missing")
    modules = modules_of()
    found = False
    all_seen, all_order = set(), []
    for definition in [d for m in modules.values() for d in m.definitions.values() if given.name in (d.name, f"{m.name}.{d.name}")]:
        found = True
        reach(definition, modules, all_seen, all_order)
    for contract in contracts_named(given.name) if not found else ():
        found = True
        for clause in contract.clauses:
            order = []
            seen = set()
            for definition in means(clause, contract.names, contract.aliases, {}, modules):
                reach(definition, modules, seen, order)
                reach(definition, modules, all_seen, all_order)
            if given.count:
                print(f"{len(order)} definitions, {lines_of(order)} lines: {clause[:110]}")
        if not given.count:
            print("\n".join(shown(it) for it in all_order))
            print("\n".join([f"{os.path.relpath(contract.path, TOP)}:{contract.line}", *contract.clauses]))
    if not found:
        sys.exit(f"no definition and no function is named {given.name}")
    if given.count:
        print(f"{len(all_order)} definitions, {lines_of(all_order)} lines in all")
    elif not any(contracts_named(given.name)):
        print("\n".join(shown(it) for it in all_order))


if __name__ == "__main__":
    main()
