#!/usr/bin/env python3
"""Writes docs/api: for each library a page with its public items, made from the sources.

  bench/pages/api_pages.py             writes the pages
  bench/pages/api_pages.py --check     writes nothing, and fails if a page is not what would be written

A line for each item: its signature without the contract, the first sentence of its doc comment, and its condition: the
sentence of the comment that begins with "Requires", or if there is none the clause itself. An item that a module re-exports
from a private module of its crate is listed there; what comes from another crate has a line with a link to it. A method stands
under the type of its own module, or that its module brings in by `use`.

  bench/pages/api_pages.py --test TREE asks the libraries that stand proved in a tree whether each method is one of its type.
"""
import json
import os
import re
import sys

TOP = os.path.dirname(os.path.dirname(os.path.dirname(os.path.realpath(__file__))))
PAGES = f"{TOP}/docs/api"
ITEM = re.compile(r"(?:unsafe )?(?:extern \"C\" )?(fn|struct|enum|trait|const|type|static) (\w+)")
CLAUSE = re.compile(r"\s*(?:requires|ensures)\*?\b")


class Item:
    def __init__(self, kind, name, signature, docs, conditions):
        self.kind, self.name, self.signature, self.docs, self.conditions = kind, name, signature, docs, conditions


class Module:
    def __init__(self, path):
        self.path, self.items, self.uses, self.modules = path, {}, [], {}
        self.brings = []  # what it brings in for itself


class Crate:
    """The modules of a crate by their paths, and the methods of its types and traits by their names."""

    def __init__(self, name):
        self.name, self.modules, self.methods, self.docs = name, {}, {}, []
        self.read(f"{TOP}/crates/{name}/src/lib.rt", ())

    def read(self, file, path):
        with open(file, encoding="utf-8") as it:
            lines = it.read().split("\n")
        module = self.modules[path] = Module(path)
        module.about = sentences(about_of([line[3:].rstrip() for line in lines if line.startswith("//!")]))[0]
        if not path:
            self.docs = about_of([line[3:].rstrip() for line in lines if line.startswith("//!")])
        folder = os.path.dirname(file) if not path else file[: -len(".rt")]
        self.read_lines(lines, module)
        for name in module.modules:
            below = f"{folder}/{name}.rt"
            if os.path.exists(below):
                self.read(below, path + (name,))

    def read_lines(self, lines, module):
        docs, owner, is_test, at = [], None, False, 0
        while at < len(lines):
            line = lines[at]
            text = line.strip()
            if text.startswith("///"):
                docs.append(text[3:].strip())
            elif text == "#[cfg(test)]":
                is_test = True
            elif text.startswith("#[") or text.startswith("#!["):
                pass
            else:
                at = self.read_item(lines, at, module, owner, docs, is_test)
                owner = owner_of(lines[at]) if line[:1] not in (" ", "}", "") else owner
                if lines[at].startswith("}"):
                    owner = None
                if text:
                    docs, is_test = [], False
            at += 1

    def read_item(self, lines, at, module, owner, docs, is_test):
        line = lines[at]
        indent, text = len(line) - len(line.lstrip()), line.strip()
        if is_test or indent not in (0, 4):
            return at
        found = re.match(r"(pub )?mod (\w+);", text)
        if found and indent == 0:
            module.modules[found[2]] = bool(found[1])
            return at
        if text.startswith("pub use ") and indent == 0:
            while not lines[at].endswith(";"):
                at += 1
                text += " " + lines[at].strip()
            module.uses += used(text[len("pub use "):-1])
            return at
        if re.match(r"use (crate|super|self)\b", text) and indent == 0:
            while not lines[at].endswith(";"):
                at += 1
                text += " " + lines[at].strip()
            module.brings += used(text[len("use "):-1])
            return at
        is_pub = text.startswith("pub ")
        found = ITEM.match(text[4:] if is_pub else text)
        if not found or not (is_pub if indent == 0 else (is_pub and owner) or (owner and owner[1])):
            return at
        if indent == 4 and found[1] not in ("fn", "const", "type"):
            return at
        signature, conditions = head_of(lines, at, found[1])
        item = Item(found[1], found[2], signature, docs, conditions)
        item.parts = parts_of(lines, at, found[1]) if indent == 0 else ""
        if indent == 0 and signature.startswith("extern"):
            self.modules[()].items[item.name] = item
        elif indent == 0:
            module.items[item.name] = item
        else:
            item.only = owner[2]
            self.methods.setdefault((module.path, owner[0]), []).append(item)
        return at

    def methods_by_type(self):
        """The methods of each public type, by the type itself."""
        found = {}
        for (path, name), methods in self.methods.items():
            module = self.modules[path]
            owner = module.items.get(name)
            use = next((it for it, alias in module.brings if (alias or it.split("::")[-1]) == name), None)
            owner = owner or (self.find(path, use.split("::")) if use else None)
            if isinstance(owner, Item):
                found.setdefault(id(owner), []).extend(methods)
        return found

    def public(self):
        """The public modules in order, each with its items and what it brings from other crates."""
        out = []
        for path, module in self.modules.items():
            if not all(self.modules[path[:i]].modules[path[i]] for i in range(len(path))):
                continue
            items, others = dict(module.items), []
            for name, alias in module.uses:
                found = self.find(path, name.split("::"))
                if found is None:
                    others.append((name, alias))
                elif isinstance(found, Item):
                    items[found.name] = found
            out.append((path, items, others))
        return out

    def find(self, path, names):
        """The item or module of this crate that a path means in a module, if it is one."""
        if names[0] == "crate":
            path, names = (), names[1:]
        while names and names[0] in ("self", "super"):
            path, names = path if names[0] == "self" else path[:-1], names[1:]
        at = self.modules[path]
        if names and names[0] not in at.modules and names[0] not in at.items:
            return None
        for name in names:
            if not isinstance(at, Module):
                return None
            if name in at.modules:
                at = self.modules.get(at.path + (name,))
            elif name in at.items:
                at = at.items[name]
            else:
                use = next((use for use, _alias in at.uses if use.split("::")[-1] == name), None)
                at = self.find(at.path, use.split("::")) if use else None
        return at


def about_of(lines):
    """The text of a crate's comment without its lists: each begins with a dash, and goes on in lines that are set in."""
    kept, in_list = [], False
    for line in lines:
        in_list = line.lstrip().startswith("- ") or (in_list and line.startswith("   "))
        if not in_list and line.strip():
            kept.append(line.strip())
    return kept


def owner_of(line):
    """The type of an impl with its own methods, or the trait; whether all of its methods are public; and for which arguments."""
    whole = line
    line = re.sub(r"<[^<>]*>", "", re.sub(r"<[^<>]*>", "", re.sub(r"<[^<>]*>", "", line)))
    found = re.match(r"pub (?:unsafe )?trait (\w+)", line)
    if found:
        return found[1], True, ""
    found = re.match(r"impl (\w+)", line.replace("impl  ", "impl "))
    return (found[1], False, only_of(whole)) if found and " for " not in line else None


def only_of(line):
    """The type of an impl that is not for all arguments of its type, as `HttpCache<MemCache>`."""
    found = re.match(r"impl(<.*?>)? (\w+<(.*)>) \{$", line)
    if not found:
        return ""
    own = set(re.findall(r"\w+", found[1] or ""))
    return "" if set(re.findall(r"\w+", found[3])) <= own else found[2]


def used(text):
    """Each path of a use, with its alias."""
    open_at = text.find("{")
    if open_at < 0:
        name, _, alias = text.partition(" as ")
        return [(name.strip(), alias.strip())]
    before, inner = text[:open_at], text[open_at + 1:text.rindex("}")]
    parts, depth, last = [], 0, 0
    for i, letter in enumerate(inner + ","):
        depth += (letter == "{") - (letter == "}")
        if letter == "," and depth == 0:
            parts.append(inner[last:i].strip())
            last = i + 1
    return [(before + name, alias) for part in parts if part for name, alias in used(part)]


def head_of(lines, at, kind):
    """The signature that begins at a line, on one line, and the conditions of the contract behind it."""
    head, conditions, in_contract = [], [], False
    while True:
        line = lines[at]
        text = line.strip()
        if CLAUSE.match(line):
            in_contract = True
            clause = re.match(r"requires\*? ?(\w+)? ?\{ ?(.*?) ?\}?$", text)
            if clause:
                conditions.append(clause[2])
        elif text == "{" or (in_contract and text.startswith("{")):
            break
        elif not in_contract and not head_done(head) and not text.startswith("//"):  # words above the first clause
            head.append(text)
        # a clause may go on over several lines, so only the end of the item is one there
        if text.endswith("};") or (not in_contract and text.endswith(("{", ";", "}"))):
            break
        at += 1
    text = " ".join(head)
    if kind in ("struct", "enum", "trait"):
        text = text.partition("{")[0]
    text = re.sub(r"\s*\{\}?$|;$", "", text).strip()
    text = re.sub(r",? \)", ")", text.replace("( ", "("))
    return re.sub(r"^pub ", "", text), conditions


def parts_of(lines, at, kind):
    """The variants of an enum or the public fields of a struct that begins at a line, in words."""
    form = {"enum": r"    (\w+)(?:\(.*\)| \{|,|$)", "struct": r"    pub (\w+: .*?),?$"}.get(kind)
    if not form or not lines[at].endswith("{"):
        return ""
    end = next(i for i in range(at, len(lines)) if lines[i].startswith("}"))
    found = [re.match(form, line) for line in lines[at:end]]
    names = ", ".join(f"`{it[1]}`" for it in found if it)
    return f" {'Variants' if kind == 'enum' else 'Fields'}: {names}." if names else ""


def head_done(head):
    text = " ".join(head)
    return bool(head) and text.count("(") == text.count(")") and text.endswith(("{", ";"))


def sentences(docs):
    """The first paragraph's first sentence, and the sentence that begins with Requires or Ask."""
    text = " ".join(docs)
    parts = re.split(r"(?<=[.!?])\s+(?=[A-Z`])", text)
    return (parts[0] if parts[0] else ""), " ".join(it for it in parts[1:] if re.match(r"Requires |Ask `", it))


def line_of(item, indent=""):
    first, words = sentences(item.docs)
    condition = words or (f"Requires {' and '.join(f'`{it}`' for it in item.conditions)}." if item.conditions else "")
    if first.startswith("Requires "):
        condition = ""
    rest = " ".join(it for it in (first, condition) if it)
    only = f" of `{item.only}`" if getattr(item, "only", "") else ""
    return f"{indent}- `{item.signature}`{only}" + (f": {rest}" if rest else "") + getattr(item, "parts", "")


def anchor_of(path):
    """The place of a module on a page: its heading without marks, as hosts make it."""
    return re.sub(r"[^\w\- ]", "", "::".join(path)).replace(" ", "-").lower()


def owners_of(crate):
    """The module under which each public item of a crate is listed, by the item."""
    parts = crate.public()
    own = {id(item): path for path, items, _others in reversed(parts) for item in items.values()}
    return own | {id(item): path for path, _items, _others in parts for item in crate.modules[path].items.values()}


def brought(name, alias, crates):
    """A line for what a module re-exports of another crate: with a link to where it is listed."""
    shown = f"`{name}`" + (f" as `{alias}`" if alias else "")
    crate, *rest = name.split("::")
    while crate in crates:
        listed = {path: (items, dict((it.split("::")[-1], it) for it, _ in others)) for path, items, others in crates[crate].public()}
        if tuple(rest) in listed:
            about = crates[crate].modules[tuple(rest)].about or "a module"
            return f"- [{shown}]({crate}.md#{anchor_of((crate, *rest))}): {about}"
        items, others = listed.get(tuple(rest[:-1]), ({}, {}))
        if rest[-1] in items:
            item = items[rest[-1]]
            link = f"{crate}.md#{anchor_of((crate, *owners_of(crates[crate])[id(item)]))}"
            return f"- [{shown}]({link}): {sentences(item.docs)[0]}"
        if rest[-1] not in others:
            break
        crate, *rest = others[rest[-1]].split("::")
    return f"- {shown}"


def page(crate, crates):
    out = [f"# `{crate.name}`", "", " ".join(crate.docs), ""]
    own, methods = owners_of(crate), crate.methods_by_type()
    for path, items, others in crate.public():
        if not items and not others:
            continue
        out += [f"## `{'::'.join((crate.name,) + path)}`", ""]
        again = {name: own[id(item)] for name, item in items.items() if own[id(item)] != path}
        items = {name: item for name, item in items.items() if name not in again}
        if again:
            lines = [f"[`{name}`](#{anchor_of((crate.name,) + at)})" for name, at in sorted(again.items())]
            out += ["Also here: " + ", ".join(lines) + ".", ""]
        for name in sorted(items):
            out.append(line_of(items[name]))
            out += [line_of(it, "  ") for it in methods.get(id(items[name]), ()) if items[name].kind != "fn"]
        if items:
            out.append("")
        if others:
            out += ["From other crates:", "", *(brought(*it, crates) for it in sorted(others)), ""]
    return "\n".join(out).rstrip() + "\n"


def test(crates, tree):
    """Whether each method that a page shows is one of its type, as the proved libraries of a tree have it."""
    seen, wrong = 0, []
    for name, crate in crates.items():
        built = f"{tree}/crates/{name}/out/rlib/{name}.rlib/toolchain/checked.json"
        if not os.path.exists(built):
            continue
        with open(built, encoding="utf-8") as it:
            known = {json.loads(line.strip().rstrip(","))[0].removeprefix("part/") for line in it if line.strip().startswith('["')}
        methods = crate.methods_by_type()
        for path, module in crate.modules.items():
            for item in module.items.values():
                for method in methods.get(id(item), ()) if item.kind in ("struct", "enum", "trait") else ():
                    place = ".".join((*path, item.name, method.name))
                    seen += 1
                    if method.only:  # there the toolchain has the arguments in the name of the type
                        place = rf"(?:.*\.)?{item.name}\+.*\.{method.name}"
                        is_known = any(re.fullmatch(rf"Rattle-{name}-specs\.contracts\.{place}", it) for it in known)
                    else:
                        is_known = f"Rattle-{name}-specs.contracts.{place}" in known
                    if method.kind == "fn" and not is_known:
                        wrong.append(f"{name}: {place}")
    print("\n".join([*wrong, f"{seen} methods, of which {len(wrong)} are not of their type"]))
    return seen > 0 and not wrong


def main():
    crates = sorted(it for it in os.listdir(f"{TOP}/crates") if os.path.exists(f"{TOP}/crates/{it}/src/lib.rt"))
    crates = [it for it in crates if not it.startswith("test")]
    crates = {name: Crate(name) for name in crates}
    if "--test" in sys.argv[1:]:
        sys.exit(0 if test(crates, sys.argv[-1]) else 1)
    pages, index = {}, ["# Items", "", "The public items of each library, made by `bench/pages/api_pages.py` from the sources.", ""]
    for name, crate in crates.items():
        pages[f"{name}.md"] = page(crate, crates)
        index.append(f"- [`{name}`]({name}.md): {sentences(crate.docs)[0]}")
    pages["README.md"] = "\n".join(index) + "\n"
    wrong = []
    for name, text in pages.items():
        at = f"{PAGES}/{name}"
        old = open(at, encoding="utf-8").read() if os.path.exists(at) else None
        if old == text:
            continue
        wrong.append(name)
        if "--check" not in sys.argv[1:]:
            os.makedirs(PAGES, exist_ok=True)
            with open(at, "w", encoding="utf-8") as it:
                it.write(text)
    for name in sorted(os.listdir(PAGES) if os.path.isdir(PAGES) else ()):
        if name not in pages:
            wrong.append(name)
            if "--check" not in sys.argv[1:]:
                os.remove(f"{PAGES}/{name}")
    if "--check" in sys.argv[1:] and wrong:
        print("not what the sources say; run bench/pages/api_pages.py: " + ", ".join(wrong))
        sys.exit(1)


if __name__ == "__main__":
    main()
