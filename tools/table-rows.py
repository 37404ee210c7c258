#!/usr/bin/env python3
"""Prints what follows from the one table of properties, `property_table` of specs/Properties.antt, so that no number of it is typed by hand.

    tools/table-rows.py code       the constants FIRST, SECOND and MIDDLE of src/table.rt
    tools/table-rows.py numbers    the numbers of specs/Property.antt
    tools/table-rows.py constants  the same for src/property.rt
    tools/table-rows.py check      says where one of them differs from the table, or that names do not rise; or `ok`
    tools/table-rows.py write      writes all three

All of them of crates/schema.
"""
import re
import sys
from pathlib import Path

CRATE = Path(__file__).resolve().parent.parent / "crates/schema"
ALARM = 8  # VALARM's bit among the components, and the first of its columns


def source(f):
    return (CRATE / f"specs/{f}.antt").read_text()


def lines(text, name):
    """the lines of a definition after `name =`"""
    return re.search(rf"^{re.escape(name)} =(.*?)(?=^\S|\Z)", text, re.M | re.S).group(1)


def body(text, name):
    """the same without comments"""
    return re.sub(r"--.*", "", lines(text, name))


TYPES = re.findall(r"[A-Z][A-Z-]+", body(source("Types"), "value_types"))
PARAMETERS = re.findall(r'ascii "([^"]+)"', body(source("Parameters"), "parameter_table"))


def table():
    """the rows: name, signs, default type, other types, whether listed, parameters"""
    text = source("Properties")
    group = {n: re.findall(r'"([\w-]+)"', body(text, n)) for n in re.findall(r"^abbrev (\w+) : List String$", text, re.M)}
    rows = []
    for line in lines(text, "property_table").splitlines():
        m = re.match(r'\s*row "([1?*+.]{11})" "([\w-]+)" (one|several) ([A-Z-]+) (\[\]|\([A-Z∷ \[\]-]+\)) (\[\]|\w+|\(.*?\[\]\)) ∷', line)
        if m:
            signs, n, kind, t, ts, ps = m.groups()
            ps = group[ps] if ps in group else re.findall(r'"([\w-]+)"', ps)
            rows.append((n, signs, t, re.findall(r"[A-Z][A-Z-]*", ts), kind == "several", ps))
        elif line.strip() not in ("", "[]"):
            sys.exit("not read: " + line)
    return rows


def mask(places):
    return sum(1 << i for i in places)


def packed(name):
    """the halves of a name's number: specs/Packing.antt of crate names"""
    x = 1
    for c in name:
        x = x * 128 + ord(c)
    return x >> 56, x & (1 << 56) - 1


def key(name):
    """the first nine bytes of a name, as digits of base 128 behind a 1: specs/Halving.antt"""
    return (1 << 63) + sum(ord(c) << 7 * (8 - i) for i, c in enumerate(name[:9]))


def entry(row):
    n, signs, t, ts, many, ps = row
    high, low = packed(n)
    standing = {min(i, ALARM) for i, s in enumerate(signs) if s != "."}
    at = lambda wanted: mask(i for i, s in enumerate(signs) if s in wanted)
    fields = {
        "key": hex(key(n)), "high": hex(high), "low": hex(low),
        "parameters": hex(mask(PARAMETERS.index(p) for p in ps)), "types": hex(mask(TYPES.index(u) for u in [t] + ts)), "components": hex(mask(standing)),
        "least": hex(at("1+")), "once": hex(at("1?")), "many": hex(at("*+")),
        "default": f"value_type::{t.replace('-', '_')} as u8", "listed": str(many).lower(),
    }
    return f"    // {n}\n    Entry {{\n" + "".join(f"        {f}: {v},\n" for f, v in fields.items()) + "    },\n"


def code(rows):
    half = len(rows) // 2
    first, second = ("".join(map(entry, part)) for part in (rows[:half], rows[half:]))
    middle = f"// The key from which on a name is in the second half.\nconst MIDDLE: u64 = {hex(key(rows[half][0]))};\n"
    return f"const FIRST: [Entry; {half}] = [\n{first}];\n\nconst SECOND: [Entry; {half}] = [\n{second}];\n\n{middle}"


def numbers(rows):
    named = [n for n, *_ in rows] + ["KNOWN"]
    return "\n".join(f"abbrev pub {n} : ℕ\n{n} = {i}\n" for i, n in enumerate(named))


def constants(rows):
    return "\n".join(f"pub const {n.replace('-', '_')}: usize = {i};\n" for i, (n, *_) in enumerate(rows))


PARTS = [
    ("src/table.rt", code, r"const FIRST: .*?^const MIDDLE: .*?\n"),
    ("specs/Property.antt", numbers, r"abbrev pub .*"),
    ("src/property.rt", constants, r"pub const .*?(?=\n// How many)"),
]


def check(rows):
    faults = [f"{a[0]} before {b[0]}" for a, b in zip(rows, rows[1:]) if a[0] >= b[0]]
    faults += [f"{f}: not what the table says" for f, part, _ in PARTS if part(rows) not in (CRATE / f).read_text()]
    print("\n".join(faults) if faults else f"ok: {len(rows)} rows")
    return bool(faults)


def write(rows):
    for f, part, old in PARTS:
        text = (CRATE / f).read_text()
        (CRATE / f).write_text(re.sub(old, lambda m: part(rows), text, count=1, flags=re.M | re.S))


if __name__ == "__main__":
    what = sys.argv[1] if len(sys.argv) == 2 else ""
    do = {"code": code, "numbers": numbers, "constants": constants}
    if what in do:
        print(do[what](table()), end="")
    elif what == "check":
        sys.exit(check(table()))
    elif what == "write":
        write(table())
    else:
        sys.exit(__doc__)
