#!/usr/bin/env python3
"""Sees that the documents say what is so: README.md, CHANGELOG.md, CONTRIBUTING.md, bench/README.md and the pages of docs/.

  bench/pages/docs_true.py             prints what is wrong, and fails if anything is
  bench/pages/docs_true.py --write     writes the counts of AUDIT.md as they are today, and then does the same
  bench/pages/docs_true.py --run       also runs the commands of README.md and GUIDE.md that take seconds, over the programs that are built
  bench/pages/docs_true.py --use-it    runs the block "Use it" of README.md in a copy of the tree, which takes some minutes
  bench/pages/docs_true.py --lies      plants a lie of each kind in the pages, in memory, and fails if one is not caught

- each relative link leads to a file, and its anchor to a heading of it
- each path of the repository in backticks exists
- each name in backticks is one of the sources or of specs/; in `Type::method`, `module::item` and `Module.definition` the second
  is one of the first
- each `rt WORD` is a command of the toolchain, and each option of a script of bench/ stands in it
- each block of Rattle in README.md, GUIDE.md and AUDIT.md stands in a source, as it is but for blanks
- each definition in SIMULATOR.md stands in specs/, but for its type, its comment and blanks
- each block of output in README.md and GUIDE.md is what a program's file stdout has
- in a picture of the crates none stands above one that uses it
- where a number of tests, crates, public functions or wrong bodies is said, it is today's; so in AUDIT.md's counts
- bench/contracts/definitions_of.py reads each clause that begins in a source
- bench/README.md names each script of bench/ in the part of its folder (or dev/PERFORMANCE.md, if it measures), and no other
- README.md has at most 140 lines, and dev/PERFORMANCE.md 100
"""
import functools
import glob
import os
import re
import shutil
import subprocess
import sys
import tempfile
import traceback

BENCH = os.path.dirname(os.path.dirname(os.path.realpath(__file__)))
sys.path.insert(0, f"{BENCH}/contracts")
import definitions_of  # noqa: E402

TOP = os.path.dirname(BENCH)
ABSENT = {"async_lru", "lru"}  # of the Rust, and said to be absent
OUTSIDE = {"std", "core", "fs", "http", "bytes", "rt", "crate", "Rattle", "kit", "env", "io", "Self", "BUILD"}
BLOCK = re.compile(r"^```(\w*)\n(.*?)^```$", re.S | re.M)
# The commands of the toolchain.
COMMANDS = "all check ci doc expand fmt help lemma lib must-fail names new plant run seed selftest test tidy try verdict version".split()
NOT_COMMANDS = {"rt", "is", "and"}


def pages():
    out = [f"{TOP}/{it}" for it in ("README.md", "CHANGELOG.md", "CONTRIBUTING.md", "bench/README.md") if os.path.exists(f"{TOP}/{it}")]
    for folder, _folders, files in os.walk(f"{TOP}/docs"):
        out += [f"{folder}/{it}" for it in files if it.endswith(".md")]
    return {os.path.relpath(it, TOP): read(it) for it in sorted(out)}


@functools.lru_cache(None)
def read(path):
    with open(path, encoding="utf-8") as it:
        return it.read()


@functools.lru_cache(None)
def files_of(*ends):
    found = []
    for folder, folders, files in os.walk(f"{TOP}/crates"):
        folders[:] = sorted(it for it in folders if it != "out")
        found += [f"{folder}/{it}" for it in sorted(files) if it.endswith(ends)]
    return found


@functools.lru_cache(None)
def names_of_sources():
    names, modules = set(), set(os.listdir(f"{TOP}/crates"))
    for path in files_of(".rt", ".antt"):
        modules |= {os.path.basename(path).rsplit(".", 1)[0], os.path.basename(os.path.dirname(path))}
        names |= set(re.findall(r"[^\W\d][\w'-]*", read(path)))
    return names | modules


@functools.lru_cache(None)
def members():
    """What stands in each type, trait, module and crate, by its name; of what is in several all together."""
    found = {}

    def add(owner, *names):
        found.setdefault(owner, set()).update(names)

    for path in files_of(".rt"):
        crate, _, rest = os.path.relpath(path, f"{TOP}/crates").partition("/")
        parts = [it for it in rest[: -len(".rt")].split("/")[1:] if it not in ("lib", "main")]
        text, module = read(path), ([crate] + parts)[-1]
        for above, below in zip([crate, *parts], parts):
            add(above, below)
        add(module, *re.findall(r"\bfn (\w+)", text))  # a page may name a method by its module alone
        add(module, *re.findall(r"(?m)^(?:pub(?:\(\w+\))? )?(?:const |unsafe |extern \"C\" )*(?:fn|struct|enum|trait|type|const|static|mod) (\w+)", text))
        for names in re.findall(r"(?ms)^pub use (.*?);", text):
            add(module, *re.findall(r"\w+", names))
        for owner, body in re.findall(r"(?ms)^(?:pub(?:\(\w+\))? )?(?:enum|struct) (\w+)[^{;]*\{(.*?)^\}", text):
            add(owner, *re.findall(r"(?m)^    (?:pub )?(?:ghost )?(\w+)", body))
        for start, end, head in definitions_of.blocks_of(text):
            inside = re.findall(r"(?m)^    (?:pub(?:\(\w+\))? )?(?:final |const |unsafe )*(?:fn|const|type|ghost) (\w+)", text[start:end])
            for owner in re.findall(r"\w+", head):
                add(owner, *inside)
    for path in files_of(".rt"):
        for alias, name in re.findall(r"(?m)^pub type (\w+)[^=]*= (\w+)", read(path)):
            add(alias, *found.get(name, ()))
    for path in files_of(".antt"):
        module = os.path.basename(path)[: -len(".antt")]
        add(module, *re.findall(r"[^\s(){};:,.]+", read(path)))
    for path in files_of(".rt"):
        for module, alias in re.findall(r"(\w+) as (\w+)", " ".join(re.findall(r"(?ms)^pub use (.*?);", read(path)))):
            add(alias, *found.get(module, ()))
    return found


def anchors_of(text):
    heads = re.findall(r"^#+ (.*)$", text, re.M)
    return {re.sub(r"[^\w\- ]", "", it.lower()).replace(" ", "-") for it in heads}


def wrong_links(page, text):
    for link in re.findall(r"\]\(([^)\s]+)\)", text):
        if re.match(r"\w+:", link):
            continue
        at, _, anchor = link.partition("#")
        file = os.path.normpath(os.path.join(TOP, os.path.dirname(page), at)) if at else f"{TOP}/{page}"
        if not os.path.exists(file):
            yield f"no file: {link}"
        elif anchor and anchor not in anchors_of(text if not at else read(file)):
            yield f"no heading: {link}"


def wrong_names(text):
    names = names_of_sources()
    for word in re.findall(r"`([^`\n]+)`", BLOCK.sub("", text)):
        if re.fullmatch(r"(?:crates|bench|docs|examples_c|examples_rust)/[\w./-]+", word):
            if not os.path.exists(f"{TOP}/{word}"):
                yield f"no path: {word}"
        elif re.fullmatch(r"[\w]+(?:(?:::|\.)[\w'-]+)+", word) and not re.search(r"\.\w{1,4}$|^\d", word):
            parts = re.split(r"::|\.", word)
            if parts[0] in OUTSIDE:
                continue
            missing = [it for it in parts if it not in names | ABSENT]
            yield from (f"no name {it}: {word}" for it in missing)
            if not missing:
                pairs = zip(parts, parts[1:]) if "::" in word or word[0].isupper() else ()
                yield from (f"{first} has no {second}: {word}" for first, second in pairs if is_foreign(first, second))


def is_foreign(owner, name):
    known = members()
    return owner in known and name not in known[owner] and not {owner, name} & ABSENT


def wrong_commands(text):
    for word in re.findall(r"(?:`|^|&& )rt ([a-z-]+)", text, re.M):
        if word not in COMMANDS and word not in NOT_COMMANDS:
            yield f"no command of the toolchain: rt {word}"
    for script, rest in re.findall(r"(bench/[\w/]+\.(?:py|sh))((?: [^`\n|]*)?)", text):
        if not os.path.exists(f"{TOP}/{script}"):
            yield f"no script: {script}"
            continue
        for option in re.findall(r" (--[a-z-]+)", rest):
            if option not in read(f"{TOP}/{script}"):
                yield f"{script} has no {option}"


def plain(text):
    """A text without its blanks, and without the commas behind which a line is broken."""
    return re.sub(r"\s+", "", text).replace(",)", ")")


@functools.lru_cache(None)
def plain_sources():
    return [plain(read(it)) for it in files_of(".rt", ".antt")]


def wrong_blocks(text):
    for kind, block in BLOCK.findall(text):
        if kind == "rust" or re.search(r"(?m)^\s*(?:ensures|abbrev|requires)\b", block):
            wanted = plain(block).removesuffix(";")
            if not any(wanted in it for it in plain_sources()):
                yield f"no source has this block: {block.splitlines()[0]}"


# What a definition in specs/ has that a page leaves out: comments, types, and what says who may use it.
UNTOLD = re.compile(r"(?m)^--.*\n|^(?:abbrev|unfoldable)(?: pub)? \S+ :.*\n|\bpub |\{O (?:: Type 0|= O)\} | : Type 0(?= where$)|(?<=→) Type 0(?= where$)")


@functools.lru_cache(None)
def plain_specs():
    return [plain(UNTOLD.sub("", read(it))) for it in files_of(".antt") if "/specs/" in it]


def wrong_definitions(text):
    """Definitions that stand on a page, without their types, and not so in specs/."""
    for _kind, block in BLOCK.findall(text):
        if "≡" in block or re.search(r"(?m)^-- ", block):
            for part in re.split(r"\n\n|\n +\.\.\n|\n(?=[^\s-])", block):
                wanted = plain(UNTOLD.sub("", part.strip() + "\n")).removesuffix("}")
                if not any(wanted in it for it in plain_specs()):
                    yield f"no file of specs/ has this definition: {part.strip().splitlines()[-1]}"


def outputs():
    return {it: read(it) for it in glob.glob(f"{TOP}/crates/*/stdout")}


def is_output(block):
    """Whether a block is what a program prints: not code, not a command, not a picture."""
    return not re.search(r"(?m)^(?: |cd |rt |bench/|printf |fn |--|\w+ --)", block)


def wrong_outputs(text):
    for kind, block in BLOCK.findall(text):
        if not kind and is_output(block) and not any(("\n" + it).count("\n" + block) for it in outputs().values()):
            yield f"no program prints: {block.splitlines()[0]}"


def uses_of():
    uses = {}
    for line in read(f"{TOP}/crates.txt").split("\n"):
        head, _, rest = line.partition(":")
        if rest and not line.startswith("#"):
            uses[head.split()[0]] = rest.split()
    return uses


def wrong_pictures(text):
    """In a picture each line has crates that use none of a line above it, and each that has a picture's line is a crate."""
    uses = uses_of()
    for kind, block in BLOCK.findall(text):
        rows = [[it for it in line.split() if it in uses] for line in block.split("\n")]
        if kind or sum(len(it) > 1 for it in rows) < 4:
            continue
        level = {name: at for at, row in enumerate(rows) for name in row}
        for name, at in level.items():
            yield from (f"{name} stands below {it}, which it uses" for it in uses[name] if it in level and level[it] < at)
        for name in uses:
            if name not in level and not name.startswith("test") and not re.match(r"cache_\w+", name):
                yield f"the picture has no {name}"


@functools.lru_cache(None)
def figures():
    """What a script counts, by its name in the pages."""
    sources = [it for it in files_of(".rt") if "/src/" in it]
    crates = [it for it in uses_of()]
    edits = glob.glob(f"{TOP}/crates/*/wrong-bodies/*.edit")
    return {
        "tests": sum(len(re.findall(r"(?m)^\s*#\[test\]", read(it))) for it in sources),
        "crates": len(crates),
        "wrong bodies": sum(len(re.findall(r"(?m)^edit: ", read(it))) for it in edits),
    }


def wrong_figures(text):
    for number, what in re.findall(r"(?<![\w.,])(\d[\d,]*) (tests|crates|wrong bodies)\b(?! of| that)", text):
        if int(number.replace(",", "")) != figures()[what]:
            yield f"{number} {what}: today there are {figures()[what]:,}"


def reached(wanted):
    """How many definitions and lines the clauses of some functions reach: each (function, clauses), or None for all clauses."""
    modules, seen, order = definitions_of.modules_of(), set(), []
    for name, clauses in wanted:
        for contract in definitions_of.contracts_named(name):
            for clause in contract.clauses:
                if clauses is None or re.match(r"\w+\*? (\w*)", clause)[1] in clauses:
                    for it in definitions_of.means(clause, contract.names, contract.aliases, {}, modules):
                        definitions_of.reach(it, modules, seen, order)
    return len(order), definitions_of.lines_of(order)


PRINTED = re.compile(r"(`bench/contracts/definitions_of\.py ([\w:.]+)` prints the )\d+( definitions)")
COUNTED = re.compile(r"(?m)^(\| [^|\n]* \| ([^|\n]* of `[\w:]+`) \| )([\d,]+) \| ([\d,]+) \|$")


def with_counts(text):
    """The text of AUDIT.md as it is today: in its tables, how many definitions the clauses of a row use, and how many lines these
    have; and how many definitions a contract prints."""

    def row(found):
        wanted = []
        for part in found[2].split(" and "):
            clauses, name = part.split(" of ")
            wanted.append((name.strip("`"), set(re.findall(r"`(\w+)`", clauses)) or None))
        count, lines = reached(wanted)
        return f"{found[1]}{count:,} | {lines:,} |"

    text = PRINTED.sub(lambda it: f"{it[1]}{reached([(it[2], None)])[0]}{it[3]}", text)
    return COUNTED.sub(row, text)


def wrong_counts(text):
    for old, new in zip(text.split("\n"), with_counts(text).split("\n")):
        if old != new:
            yield f"today this line is: {new}"


def made_seeds(change=lambda text: text):
    """Where a library makes a seed, though docs/PROMISES.md says that each has the one that it is given: no contract can say so of a
    store, a predictor or a cache. The library for C makes one of its caller's bytes."""
    for file in files_of(".rt"):
        found = re.search(r"crates/(pcache_\w+|pingora_cache)/src/(\S+)", file)
        if not found or found[1] == "pcache_base":
            continue
        made = len(re.findall(r"\bSeed::(?:new|fixed)\b|\bSeed \{", change(read(file))))
        if made > (found[0] == "crates/pcache_c/src/managers.rt"):
            yield f"{found[0]} makes a seed"


def wrong_scripts(text):
    """Scripts of a folder of bench/ that its part of the page does not name (nor docs/dev/PERFORMANCE.md, if it measures), and those
    that are named and are not there."""
    folders = {it for it in os.listdir(BENCH) if os.path.isdir(f"{BENCH}/{it}") and not it.startswith("_")}
    parts = {folder: part for folder, part in re.findall(r"(?ms)^## (.*?)\n(.*?)(?=^## |\Z)", text)}
    yield from (f"nothing says what is in {it}" for it in sorted(folders - parts.keys()))
    for folder, part in parts.items():
        at = f"{BENCH}/{folder}" if folder in folders else BENCH
        named = set(re.findall(r"[\w/]+\.(?:py|sh)\b", part))
        yield from (f"no script in {folder}: {it}" for it in sorted(named) if not os.path.exists(f"{at}/{it}"))
        if folder == "speed":
            named |= set(re.findall(r"\w+\.sh\b", read(f"{TOP}/docs/dev/PERFORMANCE.md")))
        there = {os.path.basename(it) for it in glob.glob(f"{at}/*.py") + glob.glob(f"{at}/*.sh")}
        yield from (f"nothing says what {folder}/{it} does" for it in sorted(there - named))


# Pages of one screen or little more stay so.
MOST_LINES = {"README.md": 140, "docs/dev/PERFORMANCE.md": 100}


def wrong_in(page, text):
    if text.count("\n") > MOST_LINES.get(page, 10**6):
        yield f"more than {MOST_LINES[page]} lines"
    yield from wrong_links(page, text)
    yield from wrong_names(text)
    if not page.startswith("docs/api/"):
        yield from wrong_commands(text)
    base = os.path.basename(page)
    if base in ("README.md", "GUIDE.md", "AUDIT.md") and "api" not in page:
        yield from wrong_blocks(text)
        yield from wrong_pictures(text)
    if page in ("README.md", "docs/GUIDE.md"):
        yield from wrong_outputs(text)
    if page == "docs/SIMULATOR.md":
        yield from wrong_definitions(text)
    if page in ("README.md", "CHANGELOG.md", "CONTRIBUTING.md") or (page.count("/") == 1):
        yield from wrong_figures(text)
    if base == "AUDIT.md":
        yield from wrong_counts(text)
    if page == "bench/README.md":
        yield from wrong_scripts(text)


def with_output_changed(text):
    """The first block of output with a letter more."""
    block = next(block for kind, block in BLOCK.findall(text) if not kind and is_output(block))
    return text.replace(block, block.rstrip("\n") + "1\n", 1)


def with_count_changed(text):
    return COUNTED.sub(lambda it: f"{it[1]}{it[3]} | 1{it[4]} |", text, count=1)


# A lie of each kind: the page, and what makes the lie of its text.
LIES = [
    ("a method of another type", "docs/PROMISES.md", lambda text: text + "\n`MemCache::cache_lookup`\n"),
    ("a wrong output", "docs/GUIDE.md", with_output_changed),
    ("a wrong number of tests", "docs/PROMISES.md", lambda text: text + "\nThere are 9,999 tests.\n"),
    ("a command that is none", "docs/GUIDE.md", lambda text: text + "\nThen `rt frob` proves it.\n"),
    ("a block that is no source's", "docs/GUIDE.md", lambda text: text + "\n```rust\nlet cache = Cache::default();\n```\n"),
    ("a definition that was changed", "docs/SIMULATOR.md", lambda text: text.replace("then Some (key_in s key)", "then Some (by_hash key)")),
    ("a link to no heading", "README.md", lambda text: text.replace("\n\n", " [opened](docs/PROMISES.md#opened)\n\n", 1)),
    ("a page that is too long", "README.md", lambda text: text + "\n" * 9),
    ("a crate above one that uses it", "README.md", lambda text: re.sub(r"(?m)^( values .*)\n", "", text).replace("```\n programs", "```\n values  pcache_base  pcache_meta  pcache_control  pcache_table\n programs", 1)),
    ("a wrong count of definitions", "docs/AUDIT.md", with_count_changed),
    ("a script that no page names", "bench/README.md", lambda text: re.sub(r"(?m)^\| `unused\.py`.*\n", "", text)),
    ("a script in another folder", "bench/README.md", lambda text: text.replace("| `prove.py", "| `clauses.py` | | |\n| `prove.py", 1)),
]


def lies():
    """Plants each lie, and says which is not caught."""
    texts, missed = pages(), 0
    for what, page, lie in LIES:
        before = list(wrong_in(page, texts[page]))
        caught = [it for it in wrong_in(page, lie(texts[page])) if it not in before]
        print(f"{what}: " + (f"caught, {caught[0]}" if caught else "NOT CAUGHT"))
        missed += not caught
    seeds = list(made_seeds(lambda text: text.replace(", seed,", ", Seed::fixed(),")))
    print("a library that makes a seed: " + (f"caught, {seeds[0]}" if seeds else "NOT CAUGHT"))
    return missed + (not seeds)


def run_commands():
    """The first run of README.md over the built program, and the examples of GUIDE.md."""
    wrong = []
    blocks = [block for _kind, block in BLOCK.findall(read(f"{TOP}/README.md"))]
    at = next(i for i, block in enumerate(blocks) if block.startswith("printf"))
    said = subprocess.run(["sh", "-c", blocks[at]], cwd=TOP, capture_output=True, text=True, timeout=300).stdout
    if said != blocks[at + 1]:
        wrong.append(f"README.md: the first run prints {said!r}")
    for words in (["python3", "bench/contracts/definitions_of.py", "World::headline", "--count"], ["python3", "bench/pages/api_pages.py", "--check"]):
        ran = subprocess.run(words, cwd=TOP, capture_output=True, text=True, timeout=120)
        if ran.returncode:
            wrong.append(f"{' '.join(words)} ends with {ran.returncode}: {ran.stdout[-300:]}")
    return wrong


def use_it():
    """Runs the block "Use it" of README.md in a copy of the sources, with two lines for what is typed."""
    block = next(block for kind, block in BLOCK.findall(read(f"{TOP}/README.md")) if kind == "sh")
    ran = use_block(block)
    if ran.returncode == 2:  # the toolchain judged nothing, as where memory ran out: once more
        ran = use_block(block)
    if ran.returncode > 2 or ran.returncode < 0:
        print(f'"Use it" ends with {ran.returncode}, which says nothing: {ran.stderr[-600:]}')
        sys.exit(2)
    wanted = ["/news: 17 bytes from the origin", "/news: 17 bytes from the cache"]
    if ran.returncode or ran.stdout.splitlines() != wanted:
        return [f'README.md: "Use it" ends with {ran.returncode}, and prints {ran.stdout!r}: {ran.stderr[-600:]}']
    return []


def use_block(block):
    with tempfile.TemporaryDirectory(prefix="use-it-") as room:
        for it in ("crates.txt", "HANDLES"):
            shutil.copy(f"{TOP}/{it}", f"{room}/{it}")
        shutil.copytree(BENCH, f"{room}/bench")
        shutil.copytree(f"{TOP}/crates", f"{room}/crates", ignore=shutil.ignore_patterns("out"))
        return subprocess.run(["sh", "-ec", block], cwd=room, input="/news\n/news\n", capture_output=True, text=True)


def main():
    for it in sys.argv[1:]:
        if it not in ("--run", "--use-it", "--lies", "--write"):
            sys.exit(__doc__)
    if "--write" in sys.argv[1:]:
        text = with_counts(read(f"{TOP}/docs/AUDIT.md"))
        with open(f"{TOP}/docs/AUDIT.md", "w", encoding="utf-8") as it:
            it.write(text)
        read.cache_clear()
    if "--lies" in sys.argv[1:]:
        sys.exit(1 if lies() else 0)
    wrong = [f"{page}: {it}" for page, text in pages().items() for it in wrong_in(page, text)]
    wrong += [f"bench/contracts/definitions_of.py: {it}" for it in definitions_of.unread_clauses()]
    wrong += [f"docs/PROMISES.md: {it}" for it in made_seeds()]
    wrong += run_commands() if "--run" in sys.argv[1:] else []
    wrong += use_it() if "--use-it" in sys.argv[1:] else []
    print("\n".join(wrong) if wrong else "the pages say what is so")
    sys.exit(1 if wrong else 0)


if __name__ == "__main__":
    try:
        main()
    except Exception:  # says nothing of the pages
        traceback.print_exc()
        sys.exit(2)
