#!/usr/bin/env python3
"""Says of each wrong body of a crate by name whether the prover refuses it, and why.

  bench/contracts/edits_seen.py [NAME..]                     the crates named, or all
  bench/contracts/edits_seen.py --compile-only [NAME..]      only whether each edit still applies, and what it makes reads as a crate
  bench/contracts/edits_seen.py --missing [NAME..]           the public functions with a contract that have no wrong body; it runs nothing
  bench/contracts/edits_seen.py --unseen [NAME..]            the wrong bodies that were not seen to be refused as they stand; it runs nothing
  bench/contracts/edits_seen.py --sample MINUTES --seed TEXT [NAME..]      some of them, picked by the text, in so many processor minutes
  bench/contracts/edits_seen.py --named MINUTES [--lanes N] [NAME..]       those of bench/contracts/mistakes.txt, side by side, in so many minutes

This reads the files in wrong-bodies/ of a crate, tries as many edits at once as turn functions of their own, in a copy, and looks
for the function that each turns:

  by itself    a goal of this very function fails
  by callers   the function is still proved, but something that uses it is not, with this edit alone
  only below   the function is refused because of another one that it calls, also with this edit alone
  let through  the crate is proved with this edit alone

What was refused by itself is a line of bench/contracts/verdicts.txt: the crate and file, the edit's name, and a hash of the edit, of the
function that it turns with its contract but without its comments, and of the crate's specs. A line counts as long as these are the same. --keep, with any
of the forms that prove, writes the file; --sample tries first what has no such line.

It ends non-zero if any edit is not refused by itself. An edit outside a function, as of a constant, is tried alone and is
refused by itself if anything is refused.

--compile-only proves nothing, and takes a reading of the crate for each round (one more for each edit of a round that does not
read). --sample takes the edits in an order that the text decides, each alone, and checks the function that it turns and those
that this one calls, and no other; so an edit that only callers refuse counts as let through. What there was no time for, or what
a check had no time for, is said and is no failure; an edit that is let through, that does not apply or that does not read is one,
and so is a sample that tried nothing. --named does the same for the mistakes that a file lists by name. --after-gate, with either,
is for a tree in which `rt ci` just passed: the gate leaves what it built of the libraries without the stamps by which a check
knows that they are of these sources, so they are written first.
"""
import argparse
import concurrent.futures
import contextlib
import hashlib
import os
import re
import resource
import shutil
import signal
import subprocess
import sys
import tempfile
import time

BENCH = os.path.dirname(os.path.dirname(os.path.realpath(__file__)))
sys.path[:0] = [f"{BENCH}/contracts", f"{BENCH}/make"]
import definitions_of  # noqa: E402
import prove  # noqa: E402

TOP = os.path.dirname(BENCH)


class Edit:
    """One wrong body: its name, and the pairs (file, old text, new text)."""

    def __init__(self, name, text):
        self.name, self.pairs = name, []
        path = old = None
        for line in text.split("\n"):
            if line.startswith("file: "):
                path = line[len("file: ") :].strip()
            elif line.startswith("old: "):
                old = line[len("old: ") :]
            elif line.startswith("new:"):
                self.pairs.append((path, old, line[len("new:") :].removeprefix(" ")))

    def turn(self, folder, texts):
        """Changes the texts of the files below the folder, of which some may be changed already, and answers the functions that it
        turns, as (module, type, function, trait)."""
        turned = []
        for path, old, new in self.pairs:
            if path not in texts:
                with open(f"{folder}/{path}", encoding="utf-8") as it:
                    texts[path] = it.read()
            text = texts[path]
            if text.count(old) != 1:
                raise SystemExit(f"{self.name}: the old text stands {text.count(old)} times in {path}: {old}")
            at = text.index(old)
            texts[path] = text.replace(old, new)
            turned.append(function_at(path, texts[path], at, at + len(new)))
        return turned

    def apply(self, folder):
        """Changes the files below the folder, and answers the functions that it turns."""
        texts = {}
        turned = self.turn(folder, texts)
        for path, text in texts.items():
            with open(f"{folder}/{path}", "w", encoding="utf-8") as it:
                it.write(text)
        return turned


class Round:
    """Edits of a crate that are checked together: each applies to what those before it made, and each turns functions of its own."""

    def __init__(self, crate):
        self.folder, self.texts, self.turned, self.edits = f"{TOP}/crates/{crate}", {}, set(), []

    def takes(self, file, edit):
        """Takes an edit in, if it fits."""
        texts = dict(self.texts)
        try:
            turned = set(edit.turn(self.folder, texts))
        except SystemExit:
            return False
        # one outside a function may change what any other shows
        is_outside = any(it[2] is None for it in turned | self.turned)
        if self.edits and (is_outside or turned & self.turned):
            return False
        self.texts, self.turned = texts, self.turned | turned
        self.edits.append((file, edit))
        return True


def rounds_of(crate):
    """The edits of a crate, with their files, in as few rounds as they fit into."""
    found = []
    for file in files_of(crate):
        for edit in edits_in(f"{TOP}/crates/{crate}/{file}"):
            if any(it.takes(file, edit) for it in found):
                continue
            found.append(Round(crate))
            if not found[-1].takes(file, edit):
                edit.turn(f"{TOP}/crates/{crate}", {})  # says why it does not apply
    return [it.edits for it in found]


def function_around(text, start, end):
    """The function that stands at a place of a text, as its name, its margin, and where it begins and ends; or None."""
    # a text that begins a function turns that one, also if the old function goes on under another name after it
    begun = [it for it in re.finditer(r"\bfn (\w+)", text) if start <= it.start() < end]
    before = [it for it in re.finditer(r"\bfn (\w+)", text) if it.start() < start]
    if not begun and not before:
        return None
    found = begun[0] if begun else before[-1]
    # a brace at the margin of the function ends it
    margin = re.search(r"(?m)^( *)[^\n]*\Z", text[: found.start()])[1]
    closed = re.search(rf"(?m)^{margin}\}}$", text[found.start() :])
    last = found.start() + closed.end() if closed else len(text)
    return (found[1], margin, found.start(), last) if last >= start else None


def function_at(path, text, start, end):
    """The function that stands at a place of a file: its module, the type of its impl or None, and its name or None."""
    module = re.sub(r"^src/|\.rt$", "", path).replace("/", "::")
    module = re.sub(r"(^|::)(lib|main|mod)$", "", module)
    around = function_around(text, start, end)
    name, margin = around[:2] if around else (None, "")
    blocks = [it for it in re.finditer(r"(?m)^(?:impl|trait|pub trait)\b([^\n{]*)", text) if it.start() < start]
    owner, trait = None, ""
    if name and margin and blocks:
        words = re.sub(r"<[^<>]*(<[^<>]*>[^<>]*)*>", "", blocks[-1][1])
        # the prover calls a type of another module, as simple_lru::Manager, by both names: Simple_lruManager
        path = re.findall(r"\w+", (re.findall(r"\w+(?:::\w+)*", words.split(" for ")[-1].split(" where")[0]) or [""])[0])
        owner = "".join(it[0].upper() + it[1:] for it in path[-2:-1]) + path[-1] if path else None
        if " for " in words:
            trait = re.findall(r"\w+", words.split(" for ")[0])[-1]
    return module, owner, name, trait


def edits_in(path):
    """The edits of a file: each under a line 'edit: NAME', or one that has the file's name."""
    with open(path, encoding="utf-8") as it:
        parts = re.split(r"(?m)^edit: ", it.read())
    if len(parts) == 1:
        return [Edit(os.path.basename(path).removesuffix(".edit"), parts[0])]
    return [Edit(*it.split("\n", 1)) for it in parts[1:]]


def files_of(crate):
    """The files of wrong bodies of a crate."""
    at = f"{TOP}/crates/{crate}/wrong-bodies"
    if not os.path.isdir(at):
        return []
    return sorted(f"wrong-bodies/{it}" for it in os.listdir(at) if it.endswith(".edit"))


def every_crate():
    """The crates that have wrong bodies."""
    return sorted(it for it in os.listdir(f"{TOP}/crates") if files_of(it))


def link(old, new):
    """Gives the copy of a library the same files: they are read alone."""
    try:
        os.link(old, new)
    except OSError:
        shutil.copy2(old, new)


@contextlib.contextmanager
def copy_of(crate):
    """A folder with the crate and those below it, with what was built of them: the crate's own folder there."""
    with tempfile.TemporaryDirectory(prefix="edits-seen-") as room:
        shutil.copy(f"{TOP}/HANDLES", room)
        lines = prove.rows_below(crate)
        with open(f"{room}/crates.txt", "w", encoding="utf-8") as it:
            it.writelines(lines.values())
        for name in lines.keys() - {crate}:
            shutil.copytree(f"{TOP}/crates/{name}", f"{room}/crates/{name}", copy_function=link, ignore=shutil.ignore_patterns("incremental"))
        shutil.copytree(f"{TOP}/crates/{crate}", f"{room}/crates/{crate}", symlinks=True)
        yield f"{room}/crates/{crate}"


VERDICTS = f"{BENCH}/contracts/verdicts.txt"


def kept_verdicts():
    """The wrong bodies that were seen to be refused, by crate, file and name: the hash of what was seen."""
    found = {}
    if os.path.exists(VERDICTS):
        with open(VERDICTS, encoding="utf-8") as it:
            for line in it:
                words = line.split("#")[0].split()
                if words:
                    found[tuple(words[:2])] = words[2]
    return found


def specs_of(crate):
    """All that the specs of a crate say."""
    said = []
    for folder, _, files in sorted(os.walk(f"{TOP}/crates/{crate}/specs")):
        for file in sorted(files):
            with open(f"{folder}/{file}", encoding="utf-8") as it:
                said.append(it.read())
    return "\n".join(said)


def without_comments(text):
    """A text without the lines that are only a comment: they say why, and change no verdict."""
    return re.sub(r"(?m)^ *//.*\n", "", text)


def hash_of(crate, edit, specs):
    """What a verdict is about: the edit, the functions that it turns with their contracts, and the crate's specs."""
    about = [specs]
    for path, old, new in edit.pairs:
        with open(f"{TOP}/crates/{crate}/{path}", encoding="utf-8") as it:
            text = it.read()
        at = text.find(old)
        around = function_around(text, at, at + len(old)) if at >= 0 else None
        about += [path, old, new, without_comments(text[around[2] : around[3]] if around else text)]
    return hashlib.sha256("\0".join(about).encode()).hexdigest()[:12]


def as_they_stand(crates):
    """Each wrong body of these crates: (crate, file, edit, hash)."""
    for crate in crates:
        specs = specs_of(crate)
        for file in files_of(crate):
            for edit in edits_in(f"{TOP}/crates/{crate}/{file}"):
                yield crate, file, edit, hash_of(crate, edit, specs)


def keep_verdicts(seen):
    """Writes the lines of these wrong bodies, (crate, file, name), which were refused by themselves just now; lines of those that
    are gone go."""
    standing = {(f"{crate}/{file}", edit.name): number for crate, file, edit, number in as_they_stand(every_crate())}
    verdicts = {it: number for it, number in kept_verdicts().items() if it in standing}
    for crate, file, name in seen:
        verdicts[f"{crate}/{file}", name] = standing[f"{crate}/{file}", name]
    with open(VERDICTS, "w", encoding="utf-8") as it:
        it.write("# Wrong bodies that were seen to be refused by themselves, with what was seen: written by bench/contracts/edits_seen.py --keep\n")
        it.writelines(f"{place} {name} {number}\n" for (place, name), number in sorted(verdicts.items()))


def unseen(crates):
    """The wrong bodies of these crates that were not seen to be refused as they stand."""
    verdicts = kept_verdicts()
    return [(crate, file, edit) for crate, file, edit, number in as_they_stand(crates) if verdicts.get((f"{crate}/{file}", edit.name)) != number]


def tell_unseen(crates):
    """Lists them."""
    found = unseen(crates)
    for crate, file, edit in found:
        print(f"{crate}/{file}: {edit.name}")
    print(f"{len(found)} of {sum(1 for _ in as_they_stand(crates))} wrong bodies were not seen to be refused as they stand")
    return 0


class NoTime(Exception):
    """A check had no more time."""


def spent():
    """The processor seconds of the children that ended."""
    used = resource.getrusage(resource.RUSAGE_CHILDREN)
    return used.ru_utime + used.ru_stime


def said_by(words, folder, seconds=None):
    """What a command says in a folder, line by line. It and what it started end after so many seconds, if a number is given."""
    ran = subprocess.Popen(words, cwd=folder, stdin=subprocess.DEVNULL, stdout=subprocess.PIPE, stderr=subprocess.STDOUT, errors="replace", text=True, start_new_session=True)
    try:
        return ran.communicate(timeout=seconds)[0].split("\n")
    except subprocess.TimeoutExpired:
        raise NoTime from None
    finally:
        if ran.poll() is None:
            os.killpg(ran.pid, signal.SIGTERM)
            try:
                ran.communicate(timeout=10)
            except subprocess.TimeoutExpired:
                os.killpg(ran.pid, signal.SIGKILL)
                ran.communicate()


def why_unread(lines):
    """Why an edited text did not reach the prover."""
    return "\n".join([it for it in lines if ": error" in it][:3] or lines[-4:])


def checked(crate, edits):
    """Checks a copy of the crate with these edits: whether it is proved, what was said of each function, and what each edit turned."""
    with copy_of(crate) as folder:
        turned = [it.apply(folder) for it in edits]
        lines = said_by(["rt", "check", "--jobs", "1"], folder)
    if not any(it.startswith("logic=") for it in lines):
        raise SystemExit(f"{crate}: the edited text of {', '.join(it.name for it in edits[:4])} .. did not reach the prover:\n{why_unread(lines)}")
    return any(it.startswith("logic=proved") for it in lines), of_functions(crate, lines), turned


def of_functions(crate, lines):
    """What the prover said of each function, by its path."""
    said = {}
    for line in lines:
        found = re.match(rf"fn {crate}::(\S+): (.*)", line)
        if found:
            said[found[1]] = found[2]
    return said


def paths_meant(paths, place):
    """Those of these paths by which the prover calls the function at a place. A method whose type stands in a module beside its own
    is found by its type, with its trait, and its name alone."""
    module, owner, name, trait = place
    if name is None:
        return []
    exact = [it for it in paths if is_named(it, module, owner, name)]
    return exact or [it for it in paths if owner and is_method(it, owner + trait, name)]


def is_method(path, owner, name):
    """Whether a path is that of a method of a type with this name, or of a closure inside it, in whatever module."""
    parts = path.split("::")
    closure = parts.index("fn") if "fn" in parts else len(parts)
    for at in range(len(parts) - 1):
        if parts[at : at + 2] == [owner, name]:
            return at + 2 == len(parts) or at > closure
    return False


def is_named(path, module, owner, name):
    """Whether what the prover calls this path is the function: module::Type::name, with the trait's name after the type's where
    it stands in a trait's impl, or a closure inside it, module::fn::Type::name::... A method may stand in a module below that
    of its type, by which the prover calls it."""
    parts = path.split("::")
    ours = [it for it in module.split("::") if it]
    return any(is_named_in(parts, ours[:n], owner, name) for n in range(len(ours), -1 if owner else len(ours) - 1, -1))


def is_named_in(parts, ours, owner, name):
    """The same for the module of the function, or of its type."""
    if parts[: len(ours)] != ours:
        return False
    rest = parts[len(ours) :]
    is_closure = rest[:1] == ["fn"]
    rest = rest[is_closure:]
    if owner:
        if not rest or not rest[0].startswith(owner):
            return False
        rest = rest[1:]
    return rest[:1] == [name] and (is_closure or len(rest) == 1)


def outcome(said, turned):
    """What was said of the functions that an edit turned: 'by itself', 'only below', 'proved', or None if there is no such function."""
    best = None
    for place in turned:
        for path in paths_meant(said, place):
            words = said[path]
            if words.startswith(("no proof: it calls", "not proved; it calls")):
                best = best or "only below"
            elif words.startswith("proved"):
                best = best or "proved"
            else:
                return "by itself"
    return best


def alone(crate, edit):
    """The outcome of one edit tried alone."""
    proved, said, turned = checked(crate, [edit])
    if proved:
        return "let through"
    seen = outcome(said, turned[0])
    if seen is None:
        return "by itself"
    return "by callers" if seen == "proved" else seen


class NotLookedAt(Exception):
    """The toolchain said nothing of the text."""


def why_it_does_not_read(folder, seconds=None):
    """Why the crate in a folder does not read as one, or None if it does. Nothing is proved."""
    lines = said_by(["rt", "check", "--jobs", "1", "--only", ""], folder, seconds)
    if any(": error" in it for it in lines):
        return why_unread(lines)
    if not any(it.startswith("only=0") for it in lines):
        raise NotLookedAt(why_unread(lines))
    return None


def put_back(folder, crate):
    """Gives a copy the texts of the crate again."""
    for part in ("src", "specs", "proofs"):
        if os.path.isdir(f"{TOP}/crates/{crate}/{part}"):
            shutil.rmtree(f"{folder}/{part}")
            shutil.copytree(f"{TOP}/crates/{crate}/{part}", f"{folder}/{part}", symlinks=True)


def unread(crate, edits, folder):
    """The edits of one round that do not apply, or whose text does not read, each with why."""
    found, applied = [], []
    for edit in edits:
        try:
            edit.apply(folder)
            applied.append(edit)
        except SystemExit as why:
            found.append((edit, str(why)))
    if why_it_does_not_read(folder) is None:
        return found
    for edit in applied:
        put_back(folder, crate)
        edit.apply(folder)
        why = why_it_does_not_read(folder)
        if why:
            found.append((edit, why))
    return found


def compile_all(crates):
    """Says which edits do not apply or do not read."""
    bad = 0
    for crate in crates:
        files, count = files_of(crate), 0
        if files:
            with copy_of(crate) as folder:
                for tried in rounds_of(crate):
                    put_back(folder, crate)
                    of = {edit.name: file for file, edit in tried}
                    for edit, why in unread(crate, [edit for _, edit in tried], folder):
                        print(f"{crate}/{of[edit.name]}: {edit.name}: does not read: {why}", flush=True)
                        bad += 1
                    count += len(tried)
        print(f"{crate}: {count} wrong bodies in {len(files)} file(s) were read", flush=True)
    return 1 if bad else 0


def path_of(module, owner, name, trait):
    """A function as `rt check --only` calls it, by the end of its path where it is a method: its type may stand in a module above."""
    if owner:
        return f"{owner}{trait}::{name}"
    return "::".join(it for it in (module, name) if it)


def paths_named(crate, place, folder):
    """The paths of the functions that the prover may mean by a function's name alone: it lists them if there are several."""
    name = place[2]
    lines = said_by(["rt", "check", "--jobs", "1", "--only", name], folder)
    several = [it for it in lines if f"several functions are named `{name}`" in it]
    if not several:
        return [name]
    found = re.findall(rf"`{crate}::([^`]+)`", several[0])
    return paths_meant(found, place)


def outcome_alone(crate, edit, seconds):
    """What comes of one edit, of which only what it turns is checked: 'refused', or what is wrong with it."""
    until = time.monotonic() + seconds
    with copy_of(crate) as folder:
        try:
            turned = edit.apply(folder)
        except SystemExit as why:
            return f"DOES NOT APPLY: {why}"
        seen = checked_alone(crate, turned, [path_of(*it) for it in turned if it[2]], folder, until)
        if seen is None:
            why = why_it_does_not_read(folder, max(1, until - time.monotonic()))
            if why:
                return f"DOES NOT READ: {why}"
            # a method whose type has parameters filled in, or that is in a file outside its type's, has another path than one would think
            seen = checked_alone(crate, turned, [path for it in turned if it[2] for path in paths_named(crate, it, folder)], folder, until)
    if seen == "by itself":
        return "refused"
    if seen is None:
        return "not found by its function's name, so not tried"
    return "LET THROUGH: the function that it turns is proved" if seen == "proved" else f"not tried: it is refused {seen}"


def checked_alone(crate, turned, paths, folder, until):
    """The outcome of an edit of which only the functions with these paths are checked, or None if nothing was said of them."""
    if not paths:
        return None
    only = [it for path in paths for it in ("--only", path)]
    lines = said_by(["rt", "check", "--jobs", "1", *only], folder, max(1, until - time.monotonic()))
    return outcome(of_functions(crate, lines), turned)


def ended(number, _frame):
    """A signal ends the run, with what it started."""
    sys.exit(128 + number)


def sample(crates, minutes, seed, keeps):
    """Tries some edits, in the order that the seed decides, for so many processor minutes. Its end is 1 if one of them is bad."""
    signal.signal(signal.SIGTERM, ended)
    every = []
    for crate in crates:
        for file in files_of(crate):
            if file.startswith("wrong-bodies/"):
                every += [(crate, file, it) for it in edits_in(f"{TOP}/crates/{crate}/{file}")]
    first = {(crate, file, edit.name) for crate, file, edit in unseen(crates)}
    every.sort(key=lambda it: ((it[0], it[1], it[2].name) not in first, hashlib.sha256(f"{seed} {it[0]}/{it[1]} {it[2].name}".encode()).digest()))
    refused = []
    tried, bad, most, lost, until = 0, 0, minutes * 60, 0, time.monotonic() + 3 * minutes * 60
    for crate, file, edit in every:
        left = min(most - spent() - lost, until - time.monotonic())
        if tried == 0:
            # one is tried, whatever it costs: a sample that tried nothing tells nothing
            left = until - time.monotonic()
        if left < most / 10:
            break
        seen = seen_in(crate, edit, left)
        if seen == NO_TIME:
            # what a check took that was ended is not told
            lost += left
        print(f"wrong body {crate}/{file}: {edit.name}: {seen}", flush=True)
        tried += seen == "refused"
        refused += [(crate, file, edit.name)] if seen == "refused" else []
        bad += seen.startswith(("LET THROUGH", "DOES NOT"))
    if keeps:
        keep_verdicts(refused)
    print(f"wrong bodies: {tried} of {len(every)} seen refused, picked by {seed[:12]}; {bad} not; {(spent() + lost) / 60:.1f} processor minutes", flush=True)
    return 1 if bad or not tried else 0


NO_TIME = "not tried, for want of time"


def seen_in(crate, edit, seconds):
    """What came of an edit within so many seconds."""
    try:
        return outcome_alone(crate, edit, seconds)
    except NoTime:
        return NO_TIME
    except (NotLookedAt, OSError) as why:
        return f"not tried: {why}"


MISTAKES = f"{BENCH}/contracts/mistakes.txt"


def mistakes():
    """The mistakes that are listed by name: (crate, file, edit)."""
    found = []
    with open(MISTAKES, encoding="utf-8") as it:
        for line in it:
            words = line.split("#")[0].split()
            if not words:
                continue
            crate, _, file = words[0].partition("/")
            edits = [it for it in edits_in(f"{TOP}/crates/{crate}/{file}") if it.name == words[1]]
            if len(edits) != 1:
                raise SystemExit(f"{MISTAKES}: {len(edits)} edits are named {words[1]} in crates/{crate}/{file}")
            found.append((crate, file, edits[0]))
    return found


def named(crates, minutes, lanes, keeps):
    """Tries the mistakes that are listed of these crates, side by side. Its end is 1 if one of them is let through, or does not apply or read."""
    signal.signal(signal.SIGTERM, ended)
    every = [it for it in mistakes() if it[0] in crates]
    until, refused, bad = time.monotonic() + minutes * 60, [], 0
    with concurrent.futures.ThreadPoolExecutor(lanes) as pool:

        def tried(crate, file, edit):
            left = until - time.monotonic()
            if left <= 0:
                return NO_TIME
            return seen_in(crate, edit, left)

        for (crate, file, edit), seen in zip(every, pool.map(lambda it: tried(*it), every)):
            print(f"mistake {crate}/{file}: {edit.name}: {seen}", flush=True)
            refused += [(crate, file, edit.name)] if seen == "refused" else []
            bad += seen.startswith(("LET THROUGH", "DOES NOT"))
    if keeps:
        keep_verdicts(refused)
    print(f"mistakes: {len(refused)} of {len(every)} seen refused, {bad} let through or not to be read; {spent() / 60:.1f} processor minutes", flush=True)
    return 1 if bad else 0


def stamp_libraries():
    """Says of what the gate built here that it is of these sources, as a check of the toolchain does of what it builds."""
    kit = os.path.dirname(os.path.realpath(shutil.which("rt")))
    sys.path.insert(0, kit)
    try:
        import rtlib

        for crate in rtlib.crates_below(TOP):
            kept = f"{crate.folder}/out/rlib/stamp"
            if os.path.isdir(crate.rlib) and not os.path.exists(kept):
                with open(kept, "w", encoding="utf-8") as it:
                    it.write(crate.stamp())
    except Exception as why:  # whatever the toolchain's files have become, the checks below build what they need
        print(f"what the gate built is not used: {why}", flush=True)


def main(names, keeps):
    bad = 0
    for crate in names:
        count, refused = 0, []
        for tried in rounds_of(crate):
            _, said, turned = checked(crate, [edit for _, edit in tried])
            for (file, edit), places in zip(tried, turned):
                seen = outcome(said, places)
                if seen != "by itself":
                    seen = alone(crate, edit)
                count += 1
                if seen == "by itself":
                    refused.append((crate, file, edit.name))
                else:
                    print(f"{crate}/{file}: {edit.name}: {seen}", flush=True)
            if keeps:
                keep_verdicts(refused)
        print(f"{crate}: {len(refused)} of {count} wrong bodies refused by themselves, {len(files_of(crate))} file(s)", flush=True)
        bad += count - len(refused)
    return 1 if bad else 0


def missing(names):
    """Lists each public function with a contract whose body no wrong body turns, and counts them."""
    count, without = 0, []
    for crate in names:
        turned = {}
        for file in files_of(crate):
            for edit in edits_in(f"{TOP}/crates/{crate}/{file}"):
                for source, old, _new in edit.pairs:
                    turned.setdefault(source, []).append(old.strip())
        for path in definitions_of.sources():
            if not path.startswith(f"{TOP}/crates/{crate}/src/"):
                continue
            olds = turned.get(os.path.relpath(path, f"{TOP}/crates/{crate}"), ())
            for it in definitions_of.contracts_in(path):
                if it.is_public and it.clauses and it.body.strip("{} \n"):
                    count += 1
                    if not any(old in it.text for old in olds):
                        without.append(f"{os.path.relpath(path, TOP)}:{it.line}: {it.function}")
    print("\n".join([*without, f"{count - len(without)} of {count} public functions with a contract and a body have a wrong body"]))
    return 0


def asked():
    """What the command line asks for."""
    words = argparse.ArgumentParser(description=__doc__, formatter_class=argparse.RawDescriptionHelpFormatter)
    words.add_argument("crates", nargs="*", metavar="NAME")
    words.add_argument("--compile-only", action="store_true")
    words.add_argument("--missing", action="store_true")
    words.add_argument("--sample", type=float, metavar="MINUTES")
    words.add_argument("--seed", default="", metavar="TEXT")
    words.add_argument("--named", type=float, metavar="MINUTES")
    words.add_argument("--lanes", type=int, default=min(os.cpu_count(), 4))
    words.add_argument("--after-gate", action="store_true")
    words.add_argument("--unseen", action="store_true")
    words.add_argument("--keep", action="store_true")
    given = words.parse_args()
    unknown = [it for it in given.crates if not os.path.isdir(f"{TOP}/crates/{it}/src")]
    if unknown:
        words.error(f"no crate: {' '.join(unknown)}")
    given.crates = given.crates or every_crate()
    return given


if __name__ == "__main__":
    given = asked()
    if given.after_gate:
        stamp_libraries()
    if given.missing:
        sys.exit(missing(given.crates))
    if given.compile_only:
        sys.exit(compile_all(given.crates))
    if given.unseen:
        sys.exit(tell_unseen(given.crates))
    if given.named:
        sys.exit(named(given.crates, given.named, given.lanes, given.keep))
    if given.sample:
        sys.exit(sample(given.crates, given.sample, given.seed, given.keep))
    sys.exit(main(given.crates, given.keep))
