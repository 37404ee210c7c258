#!/usr/bin/env python3
"""Packed names (crates/names/specs/Packing.antt), by which code finds them; for names in the order of their places, which a module has as constants:

    tools/packed-names.py parameter parameter_rows ALTREP CN ..      prints the lines of the code and of the specification, as in crates/schema/src/numbers.rt and
                                                                     crates/schema/specs/Packs.antt
    tools/packed-names.py --check                                    whether each line in crates/*/src has the halves of its name

The prover compares them with the names, so a wrong one is refused anyway.
"""
import pathlib
import re
import sys

ROOT = pathlib.Path(__file__).resolve().parent.parent
MOST = 8  # tests in a function


def halves(name):
    n = 1
    for b in name.encode():
        n = n * 128 + b
    return n >> 56, n & (1 << 56) - 1


def groups(names):
    """Rows (high, low, name, place) in the order of the low halves, in groups of like size."""
    rows = sorted((*reversed(halves(name)), name, place) for place, name in enumerate(names))
    rows = [(high, low, name, place) for low, high, name, place in rows]
    count = -(-len(rows) // MOST)
    cuts = [len(rows) * i // count for i in range(count + 1)]
    return [rows[a:b] for a, b in zip(cuts, cuts[1:])]


def constant(name):
    return name.replace("-", "_")


def code(module, table, names):
    parts = groups(names)
    for i, rows in enumerate(parts, 1):
        print(f"fn {module}_{i}(high: u64, low: u64) -> usize")
        print(f"    ensures {{ result ≡ lookup high low {table}{i} {len(names)} }}\n{{")
        for high, low, name, _ in rows:
            print(f"    if (low == {low:#x}) & (high == {high:#x}) {{\n        return {module}::{constant(name)};\n    }}")
        print(f"    {module}::KNOWN\n}}\n")
    for i, rows in enumerate(parts[1:], 2):
        print(f"    if w.low < {rows[0][1]:#x} {{\n        return {module}_{i - 1}(w.high, w.low);\n    }}")
    print(f"    {module}_{len(parts)}(w.high, w.low)\n")


def specification(table, names):
    parts = groups(names)
    for i, rows in enumerate(parts, 1):
        print(f"abbrev pub {table}{i} : List Row\n{table}{i} =")
        lines = [f"row {high:#x} {low:#x} {place}" for high, low, _, place in rows]
        print("    " + "\n    ∷ ".join(" ∷ ".join(lines[j : j + 4]) for j in range(0, len(lines), 4)) + " ∷ []\n")
    bounds = [f"group {rows[0][1]:#x} {table}{i}" for i, rows in enumerate(parts[1:], 1)]
    print(f"abbrev pub {table} : List Group\n{table} = " + " ∷ ".join([*bounds, "[]"]))


def check():
    found = wrong = 0
    for path in sorted(ROOT.glob("crates/*/src/*.rt")):
        text = path.read_text()
        for low, high, name in re.findall(r"\(low == (0x[0-9a-f]+)\) & \(high == (0x[0-9a-f]+)\) \{\s*return \w+::(\w+);", text):
            found += 1
            if (int(high, 16), int(low, 16)) != halves(name.replace("_", "-")):
                wrong += 1
                print(f"{path.relative_to(ROOT)}: {name} has other halves")
    print(f"{found} names, {wrong} wrong")
    sys.exit(1 if wrong or not found else 0)


if sys.argv[1:] == ["--check"]:
    check()
elif sys.argv[3:]:
    code(sys.argv[1], sys.argv[2], sys.argv[3:])
    specification(sys.argv[2], sys.argv[3:])
else:
    sys.exit(__doc__)
