#!/usr/bin/env python3
"""Prints the rows of crates/tests_of_values/src/changed_metas.rt: what is read of metas with a byte changed.

  bench/metas_changed.py                 the rows
  bench/metas_changed.py --compare FILE  ends non-zero if the file's rows are others

What a meta is made of is read here from docs/FORMATS.md alone, by a reader that has nothing of the crates.
"""
import sys

# a written form of each version, and forms with items that may be left out
FORMS = [
    ("version 0", "94 92cd012c00 920100 1e 3c"),
    ("version 1", "95 01 92cd012c00 920100 1e 3c"),
    ("version 2, with the fewest items", "96 02 92cd012c00 920100 920200 1e 3c"),
    ("version 2, as it is written without a provenance", "98 02 92cd012c00 920100 920200 1e 3c c0 920300"),
    ("version 2, with each item", "99 02 92cd012c00 920100 920200 1e 3c dc0010 07070707070707070707070707070707 920300 920405"),
    ("version 3, with each item", "9a 03 92cd012c00 920100 920200 1e 3c dc0010 07070707070707070707070707070707 920300 920405 cd0100"),
]
CHANGED = [0x00, 0x7F, 0x80, 0xC0, 0xCC, 0xDC, 0xFF]


class NoMeta(Exception):
    pass


class Plain:
    """The bytes that are left."""

    def __init__(self, data):
        self.data = data

    def take(self, count):
        if len(self.data) < count:
            raise NoMeta
        taken, self.data = self.data[:count], self.data[count:]
        return taken

    def wide(self, count):
        return int.from_bytes(self.take(count), "big")

    def number(self, below=2 ** 64):
        mark = self.take(1)[0]
        widths = {0xCC: 1, 0xCD: 2, 0xCE: 4, 0xCF: 8}
        if mark < 0x80:
            n = mark
        elif mark in widths:
            n = self.wide(widths[mark])
        else:
            raise NoMeta
        if n >= below:
            raise NoMeta
        return n

    def array(self):
        mark = self.take(1)[0]
        if 0x90 <= mark < 0xA0:
            return mark - 0x90
        if mark in (0xDC, 0xDD):
            return self.wide(2 if mark == 0xDC else 4)
        raise NoMeta

    def items(self, count):
        if self.array() != count:
            raise NoMeta

    def moment(self):
        self.items(2)
        return self.number(), self.number(10 ** 9)

    def variance(self):
        self.items(16)
        return bytes(self.number(256) for _ in range(16))

    def perhaps(self, item):
        if self.data[:1] == b"\xc0":
            self.take(1)
            return None
        return item()


def meta_of(data):
    """Fresh until, created, updated, both windows, variance, override, provenance and number of the meta that is spelled."""
    if len(data) < 10:
        raise NoMeta
    plain = Plain(data)
    count = plain.array()
    version = 0
    if count != 4:
        version = plain.take(1)[0]
    if version not in {4: {0}, 5: {1}, 6: {2}, 7: {2}, 8: {2}, 9: {2}, 10: {3}}.get(count, set()):
        raise NoMeta
    if count == 4 and version != 0:
        raise NoMeta
    fresh, created = plain.moment(), plain.moment()
    updated = plain.moment() if version > 1 else created
    windows = plain.number(2 ** 32), plain.number(2 ** 32)
    variance = plain.perhaps(plain.variance) if count > 6 else None
    override = plain.perhaps(plain.moment) if count > 7 else None
    provenance = plain.perhaps(plain.moment) if count > 8 else None
    number = plain.perhaps(plain.number) if count > 9 else None
    if plain.data:
        raise NoMeta
    return fresh, created, updated, windows, variance, override, provenance, number


def moment_told(moment):
    if moment is None:
        return "none"
    secs, nanos = moment
    return f"{secs}.{nanos}" if nanos else str(secs)


def told(data):
    try:
        fresh, created, updated, windows, variance, override, provenance, number = meta_of(data)
    except NoMeta:
        return "InternalError"
    words = ["3:", moment_told(fresh), moment_told(created), moment_told(updated), str(windows[0]), str(windows[1])]
    words += [variance.hex() if variance else "none", moment_told(override), moment_told(provenance)]
    return " ".join(words) + (f" #{number}" if number is not None else "")


def rows():
    for name, text in FORMS:
        form = bytes.fromhex(text)
        yield f"# {name}"
        yield f"form {form.hex()} -> {told(form)}"
        for length in range(len(form)):
            assert told(form[:length]) == "InternalError"
        yield "beginnings -> each is refused"
        for place in range(len(form)):
            outcomes = []
            for byte in CHANGED:
                outcomes.append((byte, told(form[:place] + bytes([byte]) + form[place + 1:])))
            read = [f"{byte:02x} {outcome}" for byte, outcome in outcomes if outcome != "InternalError"]
            yield f"byte {place} -> {'; '.join(read) if read else 'each is refused'}"


def main():
    lines = list(rows())
    if sys.argv[1:2] == ["--compare"]:
        with open(sys.argv[2], encoding="utf-8") as file:
            text = file.read()
        body = text[text.index('const ROWS: &str = "') + len('const ROWS: &str = "'):]
        found = [line.strip() for line in body[:body.index('"')].split("\n") if line.strip()]
        sys.exit(0 if found == lines else "the rows differ")
    print("\n".join(lines))


main()
