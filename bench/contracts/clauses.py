#!/usr/bin/env python3
"""Tells how wide the clauses of contracts are, and lays out those that are too wide.

  bench/contracts/clauses.py                  each clause with a line of more than 100 columns; it ends with 1 if there is one. Then how
                                              many clauses there are, and how many would be over 100 and over 160 columns on one line
  bench/contracts/clauses.py --longest N      the N clauses that would be longest on one line
  bench/contracts/clauses.py --lay-out FILE.. breaks the clauses of these files that have such lines; `rt fmt` comes after it

A clause is broken at the operators that bind least, with the operator first on its line, or within its last argument.
"""
import argparse
import os
import re
import sys

TOP = os.path.dirname(os.path.dirname(os.path.dirname(os.path.realpath(__file__))))
WIDTH = 100
BEGIN = re.compile(r"(?m)^([ \t]*)((?:requires|ensures)\*?)(?: (\w+))? \{")
CLOSER = {"(": ")", "{": "}", "[": "]"}
# The operators by how tight they bind, the loosest first.
RANKS = [["→"], ["↔"], ["⊎"], ["×"], ["≡", "≢", "<", "≤", ">", "≥"], ["||"], ["&&"], ["++", "∷"], ["+", "-", "*"]]
RANK = {word: rank for rank, words in enumerate(RANKS) for word in words}


def clauses(text):
    """Each clause: where it begins and ends, its indentation, its head, and where its body begins."""
    for begin in BEGIN.finditer(text):
        end, depth = begin.end(), 1
        while depth:
            depth += {"{": 1, "}": -1}.get(text[end], 0)
            end += 1
        head = " ".join(word for word in begin.group(2, 3) if word)
        yield begin.start(), end, begin.group(1), head, begin.end()


def sources():
    for folder, folders, files in os.walk(f"{TOP}/crates"):
        folders[:] = sorted(it for it in folders if it not in ("out", "proofs", "specs", "wrong-bodies"))
        for file in sorted(files):
            if file.endswith(".rt"):
                with open(f"{folder}/{file}", encoding="utf-8") as it:
                    yield f"{folder}/{file}"[len(TOP) + 1 :], it.read()


def read(words, at=0, closer=None):
    """Nested lists of words: a group is its bracket, what stands in it, and the fields that are taken of it."""
    found = []
    while at < len(words):
        word = words[at]
        at += 1
        if word in CLOSER:
            inner, at = read(words, at, CLOSER[word])
            found.append((word, inner, ""))
        elif re.match(r"\.\w", word) and found and not isinstance(found[-1], str):
            bracket, inner, fields = found[-1]
            found[-1] = (bracket, inner, fields + word)
        elif word == closer:
            return found, at
        else:
            found.append(word)
    return found, at


def brackets(group):
    opener, _, fields = group
    return ("{ ", " }") if opener == "{" else (opener, CLOSER[opener] + fields)


def flat(items):
    said = []
    for item in items:
        if isinstance(item, str):
            said.append(item)
        else:
            opener, closer = brackets(item)
            said.append(opener + flat(item[1]) + closer)
    return " ".join(said)


def tidy(line):
    return line.replace("@none", "[]").replace("@unit", "()").replace(" ;", ";").rstrip()


def split(items):
    """The items between the operators that bind least, and these operators; nothing if there is none."""
    until = next((at for at, it in enumerate(items) if it in ("λ", "let")), len(items))
    ranks = [RANK[it] for it in items[1:until] if isinstance(it, str) and it in RANK]
    if not ranks:
        return None
    parts, operators = [[]], []
    for at, item in enumerate(items):
        if 0 < at < until and isinstance(item, str) and RANK.get(item) == min(ranks):
            operators.append(item)
            parts.append([])
        else:
            parts[-1].append(item)
    return parts, operators


class Page:
    """The lines so far; `inset` is where a line that goes on begins, `after` how many columns must stay free behind."""

    def __init__(self, first):
        self.lines = [first]

    def add(self, text):
        self.lines[-1] += text

    def turn(self, inset):
        self.lines[-1] = self.lines[-1].rstrip()
        self.lines.append(" " * inset)

    def fits(self, items, after, at=None):
        return (len(tidy(self.lines[-1] + "x")) - 1 if at is None else at) + len(tidy(flat(items))) + after <= WIDTH

    def lay(self, items, inset, after):
        parted = split(items)
        if self.fits(items, after):
            self.add(flat(items))
        elif items[0] == "λ":
            dot = next(at for at, it in enumerate(items) if isinstance(it, str) and it.endswith("."))
            self.add(flat(items[: dot + 1]) + " ")
            body = items[dot + 1 :]
            if not self.fits(body, after) and self.fits(body, after, inset):
                self.turn(inset)
            self.lay(body, inset, after)
        elif parted:
            parts, operators = parted
            for at, part in enumerate(parts):
                if at:
                    self.turn(inset)
                    self.add(operators[at - 1] + " ")
                self.lay(part, inset + 4, after if at == len(parts) - 1 else 0)
        else:
            self.apply(items, inset, after)

    def apply(self, items, inset, after):
        """A function with its arguments: broken within the last one, or else before those that do not fit."""
        *before, last = items
        lead = flat(before) + " " if before else ""
        if not isinstance(last, str) and self.fits([lead], 12):
            plain = last[0] == "(" and last[1][0] != "λ" and not split(last[1])
            self.add(lead)
            if before and plain and self.fits([last], after, inset):
                self.turn(inset)
            self.group(last, inset, after)
            return
        for at, item in enumerate(items):
            behind = after if at == len(items) - 1 else 0
            if at and self.fits([" ", item], behind):
                self.add(" " + flat([item]))
                continue
            if at:
                self.turn(inset)
            self.group(item, inset + 4 if at else inset, behind)

    def group(self, item, inset, after):
        if isinstance(item, str) or self.fits([item], after):
            self.add(flat([item]))
            return
        opener, closer = brackets(item)
        self.add(opener)
        self.lay(item[1], inset, after + len(closer))
        self.add(closer)


def laid_out(text):
    """The text with its too wide clauses broken."""
    done, kept = [], 0
    for start, end, indent, head, body in clauses(text):
        clause = text[start:end]
        if start < kept or max(map(len, clause.split("\n"))) <= WIDTH or "//" in clause:
            continue
        words = text[body : end - 1].replace("[]", "@none").replace("()", "@unit").replace(";", " ;")
        items, _ = read(re.findall(r"[(){}\[\]]|[^\s(){}\[\]]+", words))
        page = Page(f"{indent}{head} {{ ")
        page.lay(items, len(indent) + 4, 2)
        page.add(" }")
        new = "\n".join(map(tidy, page.lines))
        if re.sub(r"\s", "", new) != re.sub(r"\s", "", clause):
            sys.exit(f"a clause would change: {clause}")
        done += [text[kept:start], new]
        kept = end
    return "".join(done) + text[kept:]


def main():
    words = argparse.ArgumentParser(description=__doc__, formatter_class=argparse.RawDescriptionHelpFormatter)
    words.add_argument("--longest", type=int, default=0)
    words.add_argument("--lay-out", nargs="+", default=[])
    given = words.parse_args()
    for path in given.lay_out:
        with open(path, encoding="utf-8") as it:
            text = it.read()
        with open(path, "w", encoding="utf-8") as it:
            it.write(laid_out(text))
    if given.lay_out:
        return
    wide, lengths = 0, []
    for path, text in sources():
        for start, end, *_ in clauses(text):
            clause = text[start:end]
            place = f"{path}:{text.count(chr(10), 0, start) + 1}"
            lengths.append((len(re.sub(r"\s*\n\s*", " ", clause)), place))
            if max(map(len, clause.split("\n"))) > WIDTH:
                print(f"{place}: a line of more than {WIDTH} columns")
                wide += 1
    for length, place in sorted(lengths, reverse=True)[: given.longest]:
        print(f"{place}: {length} columns on one line")
    over = [sum(length > limit for length, _ in lengths) for limit in (100, 160)]
    print(f"{len(lengths)} clauses, of which {wide} have a line of more than {WIDTH} columns; on one line {over[0]} would have more than 100, {over[1]} more than 160")
    sys.exit(1 if wide else 0)


if __name__ == "__main__":
    main()
