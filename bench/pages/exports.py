#!/usr/bin/env python3
"""The exports of the library for C, from one list: the sources of crates/pcache_c.

  bench/pages/exports.py            prints each export as the sources declare it
  bench/pages/exports.py --check    compares names, types and values with examples_c/pcache_c.h and rust/src/raw.rs, and ends with 1
                                    where they differ

What is compared: of each function the types of what it takes and returns; of each struct the fields, their types and their order;
the codes. It reads texts, and takes less than a second.
"""
import glob
import os
import re
import sys

TOP = os.path.dirname(os.path.dirname(os.path.dirname(os.path.realpath(__file__))))
HEADER = f"{TOP}/examples_c/pcache_c.h"
WRAPPER = f"{TOP}/rust/src/raw.rs"
# What the archives say of themselves: bench/make/archives.py makes them, and no source has them.
MADE = {"pcache_is_proved": ((), "u32")}
# What header and wrapper call the kinds of errors that have a code of their own.
KINDS = {
    "InvalidHttpHeader": "INVALID_HEAD",
    "ResponseTooLarge": "TOO_LARGE",
    "IncompleteHttpBody": "INCOMPLETE",
    "WriteRemoved": "REMOVED",
    "NumbersExhausted": "EXHAUSTED",
    "Io": "IO",
    "Superseded": "SUPERSEDED",
}
# The struct of a handle: C sees two words of what the sources keep in two structs.
HANDLE = [("tag", "u64"), ("at", "*mut u8")]
WORDS = {"uint8_t": "u8", "uint16_t": "u16", "uint32_t": "u32", "uint64_t": "u64", "size_t": "usize", "void": "u8"}


def read(path):
    with open(path, encoding="utf-8") as it:
        return it.read()


def struct_name(name):
    """PcacheCacheCounts, pcache_cache_counts -> cachecounts."""
    return re.sub(r"^pcache", "", name.replace("_", "").lower())


def word(name):
    return name if name in WORDS.values() else struct_name(name)


def fields_of(body, pattern):
    found = re.findall(pattern, re.sub(r"//.*|/\*.*?\*/", "", body))
    return [it[::-1] if pattern is C_FIELD else it for it in found]


def from_reference(text):
    """The words of C for a type of the sources."""
    if text == "Global":
        return []
    slice_of = re.fullmatch(r"&(mut )?\[(u8|u64)\]", text)
    if slice_of:
        return [f"*{'mut' if slice_of[1] else 'const'} {slice_of[2]}", "usize"]
    to_pointer = re.fullmatch(r"&mut \*const (\w+)", text)
    if to_pointer:
        return [f"*mut *const {word(to_pointer[1])}"]
    reference = re.fullmatch(r"&(mut )?(\w+)", text)
    if reference:
        return [f"*{'mut' if reference[1] else 'const'} {word(reference[2])}"]
    return [word(text)]


def parameters(text):
    return [re.sub(r"\s+", " ", it).strip() for it in text.split(",") if it.strip()]


RUST_FIELD = r"(?:pub )?(\w+): ([^,\n]+),"
C_FIELD = r"([\w ]+[ *])(\w+);"


def of_sources():
    """The functions, with what a source calls their parameters, the structs and the codes of the sources."""
    functions, shown, structs, codes = {}, {}, {}, {}
    for path in sorted(glob.glob(f"{TOP}/crates/pcache_c/src/*.rt")):
        text = re.sub(r"^\s*//.*\n", "", read(path), flags=re.M)
        exports = re.findall(r'#\[unsafe\(no_mangle\)\]\s*pub extern "C" fn (\w+)\(([^)]*)\) -> (\w+)', text)
        if len(exports) != text.count("no_mangle"):
            sys.exit(f"{path}: an export that is not read")
        for name, given, result in exports:
            pairs = [it.split(": ", 1) for it in parameters(given)]
            functions[name] = tuple(w for _, kind in pairs for w in from_reference(kind)), word(result)
            shown[name] = os.path.basename(path)[:-3], [tuple(it) for it in pairs]
        for name, body in re.findall(r"#\[repr\(C\)\](?:\s*#\[[^\]]*\])*\s*pub struct (\w+) \{(.*?)\n\}", text, re.S):
            structs[struct_name(name)] = [(n, word(k)) for n, k in fields_of(body, RUST_FIELD)]
        if path.endswith("/codes.rt"):
            codes = {n: int(v) for n, v in re.findall(r"const (\w+): u32 = (\d+);", text)}
            codes.update((KINDS[n], int(v)) for n, v in re.findall(r"ErrorType::(\w+) => (\d+)", text))
    structs.pop("objectptr")
    structs["handle"] = HANDLE
    functions.update(MADE)
    return functions, shown, structs, codes


def from_c(text):
    """The word for a type of C, without the parameter's name."""
    text = re.sub(r"\s+", " ", text).strip()
    if text == "void":
        return None
    whole = re.fullmatch(r"(const )?(\w+) ?(\**) ?\w*", text)
    if not whole:
        sys.exit(f"{HEADER}: not read: {text}")
    const, base, stars = whole.groups()
    base = WORDS.get(base, word(base))
    if not stars:
        return base
    pointer = f"*{'const' if const else 'mut'} {base}"
    return f"*mut {pointer}" if stars == "**" else pointer


def of_header():
    text = re.sub(r"/\*.*?\*/", "", read(HEADER), flags=re.S)
    functions = {}
    for result, name, given in re.findall(r"^(\w+) (pcache_\w+)\(([^)]*)\);", text, re.M):
        functions[name] = tuple(w for w in map(from_c, given.split(",")) if w), from_c(result)
    structs = {}
    for body, name in re.findall(r"typedef struct \w+ \{(.*?)\} (\w+);", text, re.S):
        structs[struct_name(name)] = [(n, from_c(f"{k}{n}")) for n, k in fields_of(body, C_FIELD)]
    codes = {n: int(v) for n, v in re.findall(r"PCACHE_(\w+) = (\d+)", text)}
    return functions, structs, codes


def from_rust(text):
    pointers = re.fullmatch(r"((?:\*(?:mut|const) )*)(\w+)", text.strip())
    if not pointers:
        sys.exit(f"{WRAPPER}: not read: {text}")
    return pointers[1] + word(pointers[2])


def of_wrapper():
    text = re.sub(r"//.*", "", read(WRAPPER))
    functions = {}
    for name, given, result in re.findall(r"fn (pcache_\w+)\(([^)]*)\) -> (\w+);", text):
        functions[name] = tuple(from_rust(it.split(": ", 1)[1]) for it in parameters(given)), word(result)
    structs = {}
    for name, body in re.findall(r"#\[repr\(C\)\](?:\s*#\[[^\]]*\])*\s*pub struct (\w+) \{(.*?)\n\}", text, re.S):
        structs[struct_name(name)] = [(n, from_rust(k)) for n, k in fields_of(body, RUST_FIELD)]
    codes = {n: int(v) for n, v in re.findall(r"const (\w+): u32 = (\d+);", text)}
    return functions, structs, codes


def differences(where, what, wanted, found, only_known=False):
    for name in sorted(set(wanted) | set(found)):
        if name not in found:
            yield f"{where}: no {what} {name}"
        elif name not in wanted:
            if not only_known:
                yield f"{where}: {what} {name}, which the library does not have"
        elif wanted[name] != found[name]:
            yield f"{where}: {what} {name} is {found[name]}, and in the library {wanted[name]}"


def check():
    functions, _, structs, codes = of_sources()
    said = []
    for where, found in (("pcache_c.h", of_header()), ("raw.rs", of_wrapper())):
        said += differences(where, "function", functions, found[0])
        said += differences(where, "struct", structs, found[1])
        said += differences(where, "code", codes, found[2], only_known=True)
    print("\n".join(said) or f"{len(functions)} functions, {len(structs)} structs and {len(codes)} codes: header and wrapper have them")
    return 1 if said else 0


def main():
    if sys.argv[1:] == ["--check"]:
        sys.exit(check())
    for name, (taken, result) in sorted(of_sources()[0].items()):
        print(f"{name}({', '.join(taken)}) -> {result}")


if __name__ == "__main__":
    main()
