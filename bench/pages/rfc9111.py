#!/usr/bin/env python3
"""Writes docs/RFC9111.md: what RFC 9111 demands of a cache, as the definitions of the crates that decide by it have it. Each row is
one definition: its section, how strong the demand is, the definition's words, the functions whose contracts cite it, and the tests'
rows of that section. Below stand the wrong bodies that break each MUST, as the lines `breaks: DEFINITION SECTIONS` of the files
of wrong bodies say, and what is left to a proxy. `--check` only says whether the page is due; `--unturned` lists the MUSTs that no
wrong body breaks, and ends with 1 if there is one."""
import pathlib, re, sys

TOP = pathlib.Path(__file__).resolve().parents[2]
CRATES = ["pcache_http", "pcache_validation", "pcache_decisions"]
DEMANDS = ["MUST NOT", "MUST", "SHOULD NOT", "SHOULD", "MAY", "should", "ought to", "encouraged", "prefers", "accepts"]
SECTION = re.compile(r"(RFC \d+ )?\b(\d+(?:\.\d+)*)\b")
HEAD = """# RFC 9111, demand by demand

Made by `bench/pages/rfc9111.py` from the definitions in `specs/` of {crates}; do not edit it here. A section without a name is one of RFC 9111. A function is proved to decide as the definitions in its contract say; the rows are tests beside that.

| Section | Demand | Definition | In words | Decided by | Rows |
|---|---|---|---|---|---|
"""

BROKEN = """
## What breaks each MUST

For each section that a MUST above names there is a body of the function that decides it which breaks this demand, and which the prover refuses (`wrong-bodies/` of the crate; `bench/contracts/edits_seen.py` tries them). `bench/pages/rfc9111.py --unturned` lists those without one.

| Section | Definition | Wrong bodies that break it |
|---|---|---|
"""

TAIL = """
## What is the proxy's

`decide_request` and `decide_response` say what is to be done. These do it, or know what no head tells:

| Section | What | Whose it is |
|---|---|---|
| 3.3, 3.4 | whether a body came whole; parts of one | the store's: a write that is not finished is no complete body. A 206 is not stored, and parts are not combined |
| 4 | that a stored response has the target URI | the key's, under which it is looked up |
| 4, 4.1 | of several stored responses the most recent | the key's with its variance: there is one for each. Who keeps several hands over the most recent |
| 4 | one request for many clients | the lock table's: one request has the permit to fill a key |
| 4.2.4, 4.3.3 | that no answer came | the proxy calls `after_failure` then |
| 4.3.2, 5.1 | the Age and the fields of what is sent | the decision has the Age, `not_modified` says which fields a 304 has; the proxy writes them |
| 4.3.5 | that a stored response counts as stale from now on (`MarkStale`) | the proxy removes it, since no head says so |
| 4.4 | that what is invalidated goes | the proxy purges the keys of the target and of the URIs that `unsafe_methods::taken_away` gives: how keys are made of URIs is its own |
| 5.2.1.6, 5.2.2.6 | no-transform | nothing here transforms |
| RFC 5861, 3 | the validation while a stale response is served (`WhileRevalidating`) | the proxy sends it |
| RFC 9110, 14 | the 206 or 416 for a Range (`Answer::Range`) | the proxy cuts the body |

`rfc9111_proxy` is a proxy over these calls; its `stdout` shows what becomes of a line of requests.
"""


def comment_sections(text):
    """The sections that the words of a definition name, and the RFC of each."""
    found, rfc = [], "9111"
    for part in re.finditer(r"RFC (\d+)|(?<![\w.-])(\d+(?:\.\d+)+|[345])(?=[\s,:;)])", text):
        if part.group(1):
            rfc = part.group(1)
        elif (rfc, part.group(2)) not in found:
            found.append((rfc, part.group(2)))
    return found


def definitions(crate):
    """Each definition with words above it: its file, its name and its words."""
    for path in sorted((TOP / "crates" / crate / "specs").glob("*.antt")):
        words = []
        for line in path.read_text(encoding="utf-8").splitlines():
            text = line.strip()
            if text.startswith("--"):
                words.append(text[2:].strip())
                continue
            named = re.match(r"(?:unfoldable |abbrev )?pub (?:record |data )?([\w◌-]+)", text)
            if named and words and not text.startswith("pub mod"):
                yield path.stem, named.group(1), " ".join(words)
            words = []


def uses(crate):
    """Which definitions name each word of the specs: by name, those whose text has it."""
    found = {}
    for path in sorted((TOP / "crates" / crate / "specs").glob("*.antt")):
        name = None
        for line in path.read_text(encoding="utf-8").splitlines():
            text = line.strip()
            named = re.match(r"(?:unfoldable |abbrev )?pub (?:record |data )?([\w◌-]+)", text)
            if named and not text.startswith(("pub mod", "use ")) and not line.startswith("  "):
                name = named.group(1)
            if name and not text.startswith(("--", "use ")):
                for word in re.findall(r"[\w]+", text):
                    found.setdefault(word, set()).add(name)
    return found


def deciders_of(name, functions, used):
    """The functions whose contracts cite a definition, or else the nearest ones that use it."""
    level, seen = {name}, {name}
    while level:
        named = sorted({f"`{file}::{function}`" for file, function, cited in functions if level & cited})
        if named:
            return named
        level = set().union(*(used.get(n, set()) for n in level)) - seen
        seen |= level
    return []


def contracts(crate):
    """Each function with a contract: its file, its name, and the words of its clauses."""
    for path in sorted((TOP / "crates" / crate / "src").rglob("*.rt")):
        text = path.read_text(encoding="utf-8")
        for part in re.finditer(r"\bfn (\w+)[^{;]*?((?:\s+(?:requires|ensures)\b[^{]*\{(?:[^{}]|\{[^{}]*\})*\})+)", text):
            yield path.stem, part.group(1), set(re.findall(r"[\w]+", part.group(2)))


def rows_of(section):
    """How many rows of text are under a section, by the crate of tests."""
    count = 0
    for path in sorted(TOP.glob("crates/tests_of_http/src/*.rt")):
        here = False
        for line in path.read_text(encoding="utf-8").splitlines():
            text = line.strip()
            if text.startswith("# "):
                here = section in comment_sections(text[2:] + " ")
            elif here and " ->" in text:
                count += 1
    return count


def demand_of(words):
    for demand in DEMANDS:
        if re.search(r"\b" + demand + r"\b", words):
            return demand
    return ""


def told_of(rfc, section):
    return (f"RFC {rfc}, " if rfc != "9111" else "") + section


def broken(crates):
    """The wrong bodies that break a definition's demand in a section: by the crate of the definition, its name and the section."""
    found = {}
    for crate in crates:
        for path in sorted((TOP / "crates" / crate / "wrong-bodies").glob("*.edit")):
            name = None
            for line in path.read_text(encoding="utf-8").splitlines():
                if line.startswith("edit: "):
                    name = line[len("edit: ") :].strip()
                elif line.startswith("breaks: "):
                    definition, _, sections = line[len("breaks: ") :].partition(" ")
                    for section in comment_sections(sections + " "):
                        found.setdefault((definition, section), []).append(name)
    return found


def musts(crates):
    """Each definition that has a MUST, with each section that it names."""
    for crate in crates:
        for module, name, words in definitions(crate):
            if demand_of(words).startswith("MUST"):
                for section in comment_sections(words + " "):
                    yield crate, f"{module}.{name}", section


def order_of(rfc, section):
    return (rfc != "9111", rfc, [int(n) for n in section.split(".")])


def broken_rows(crates):
    """The rows of what breaks each MUST, in the order of the sections, and the MUSTs that nothing breaks."""
    bodies, every = broken(crates), sorted(musts(crates), key=lambda it: (order_of(*it[2]), it[1]))
    named = {(definition, section) for _, definition, section in every}
    strange = [f"{definition} {told_of(*section)}: {', '.join(names)}" for (definition, section), names in bodies.items() if (definition, section) not in named]
    if strange:
        sys.exit("wrong bodies break what is no MUST:\n" + "\n".join(strange))
    rows, without = [], []
    for crate, definition, section in every:
        names = bodies.get((definition, section))
        if names:
            rows.append(f"| {told_of(*section)} | `{crate}: {definition}` | {', '.join(f'`{name}`' for name in names)} |")
        else:
            without.append(f"{told_of(*section)}: {crate}: {definition}")
    return rows, without


def page():
    crates = [crate for crate in CRATES if (TOP / "crates" / crate / "specs").is_dir()]
    rows = []
    for crate in crates:
        functions, used = list(contracts(crate)), uses(crate)
        for module, name, words in definitions(crate):
            sections = comment_sections(words + " ")
            if not sections:
                continue
            deciders = deciders_of(name, functions, used)
            counts = sum(rows_of(section) for section in sections)
            told = ", ".join(told_of(*section) for section in sections)
            key = [(rfc != "9111", [int(n) for n in section.split(".")]) for rfc, section in sections][0]
            words = words.replace("|", "\\|")
            rows.append((key, f"| {told} | {demand_of(words)} | `{crate}: {module}.{name}` | {words} | {', '.join(deciders)} | {counts or ''} |"))
    rows.sort(key=lambda row: row[0])
    return HEAD.format(crates=", ".join(f"`{crate}`" for crate in crates)) + "\n".join(row for _, row in rows) + "\n" + BROKEN + "\n".join(broken_rows(crates)[0]) + "\n" + TAIL


def main():
    if "--unturned" in sys.argv[1:]:
        rows, without = broken_rows(CRATES)
        print("\n".join([*without, f"{len(rows)} of {len(rows) + len(without)} sections of MUSTs have a wrong body"]))
        sys.exit(1 if without else 0)
    path = TOP / "docs" / "RFC9111.md"
    made = page()
    if "--check" in sys.argv[1:]:
        due = not path.exists() or path.read_text(encoding="utf-8") != made
        print("docs/RFC9111.md is due" if due else "docs/RFC9111.md is as its definitions are")
        sys.exit(1 if due else 0)
    path.write_text(made, encoding="utf-8")


main()
