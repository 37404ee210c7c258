#!/usr/bin/env python3
"""Compares the tables of crates/schema/specs with the RELAX NG schema of RFC 6321.

    tools/check-schema.py [SCHEMA]      SCHEMA: the schema's text, each line with its number in front or without; tools/schema/xcal.rnc if none is given

Says what differs, or `ok`. Known differences: PARTSTAT has the seven words everywhere (the rules); DTSTART of a VEVENT may be missing, and a VTODO
has DUE and no DTEND (RFC 5545, 3.6.1 and 3.6.2). The pairs of both are in Counts.antt, and not compared.
"""
import re
import sys
from pathlib import Path

HERE = Path(__file__).resolve().parent.parent / "crates/schema/specs"
faults = []


def compare(what, ours, theirs):
    if ours != theirs:
        faults.append(f"{what}:\n  tables {ours}\n  schema {theirs}")


# ---- the schema: name of a definition -> (line, text)

def schema_lines(path):
    text = Path(path).read_text()
    text = text[text.find("\n# RELAX NG Schema") + 1:]      # what we say above it is no part of it
    return [re.sub(rf"^{n}(?!\d)", "", line, count=1) for n, line in enumerate(text.splitlines(), 1)]


def read_schema(lines):
    defs, order, name = {}, [], None
    for n, line in enumerate(lines, 1):
        line = line.split("#")[0] if line.startswith("#") else line
        m = re.match(r"([a-z][\w-]*)\s*=\s*(.*)", line)
        if m and not line.startswith("default"):
            name = m.group(1)
            order.append(name)
            defs[name] = [n, m.group(2) + "\n"]
        elif name:
            defs[name][1] += line + "\n"
    return defs, order


schema = schema_lines(sys.argv[1] if len(sys.argv) > 1 else Path(__file__).resolve().parent / "schema/xcal.rnc")
defs, order = read_schema(schema)
element = lambda d: re.match(r"element ([\w-]+)", defs[d][1]).group(1).upper()
words = lambda t: re.findall(r'"([^"]+)"', t)

# ---- our files

def source(f):
    return (HERE / f"{f}.antt").read_text()


def body(text, name):
    """lines of a definition after `name =`"""
    m = re.search(rf"^{re.escape(name)} =(.*?)(?=^\S|\Z)", text, re.M | re.S)
    return m.group(1)


def strip(t):
    return re.sub(r"--.*", "", t)


names = lambda t: re.findall(r'ascii "([^"]+)"', t)

# ---- types

types = source("Types")
theirs = [(d[6:].upper(), defs[d][0]) for d in order if d.startswith("value-")]
ours = [(n, int(l)) for t, n, l in re.findall(r'^type_name (\S+) = ascii "(\S+)".*line (\d+)', types, re.M)]
compare("types", ours, theirs)
compare("value_types", re.findall(r"[A-Z][A-Z-]+", body(types, "value_types")), [n for n, _ in theirs if n != "UNKNOWN"])

# ---- parameters

params = source("Parameters")
ours = []
for line in body(params, "parameter_table").splitlines():
    m = re.match(r'\s*(\w+) \(ascii "([\w-]+)"\) (\w+ )?∷\s*-- (3\.2\.\d+),\s+line (\d+)\s+(\w+)', line)
    if m:
        kind, n, ws, sec, ln, d = m.groups()
        ours.append((n, kind, names(body(params, ws.strip())) if ws else None, int(ln), d))
kinds = {"value-uri": "takes_uri", "value-text": "takes_text", "value-cal-address": "takes_address", "value-cal-address+": "takes_addresses", "value-boolean": "takes_boolean"}
theirs = []
for d in order:
    if d.endswith("param"):
        ln, t = defs[d]
        if d == "partstatparam":
            ws = []
            for k in re.findall(r"type-partstat-\w+", t):
                ws += [w for w in words(defs[k][1]) if w not in ws]
        else:
            ws = words(t)
        inner = re.search(r"\{\s*(value-[\w-]+\+?)", t)
        theirs.append((element(d), kinds[inner.group(1)] if inner else "takes_word", ws or None, ln, d))
compare("parameters", ours, theirs)

# ---- properties

props = source("Properties")
alias = {a: words(body(props, a)) for a in ("altrep_language", "language", "tzid", "attendee_parameters", "organizer_parameters")}
ours, signs = {}, {}
our_order = []
for line in body(props, "property_table").splitlines():
    m = re.match(r'\s*row "([1?*+.]{11})" "([\w-]+)" (one|several) ([A-Z-]+) (\[\]|\([A-Z∷ \[\]-]+\)) (\[\]|\w+|\(.*?\[\]\)) ∷\s*-- (3\.[\d.]+), lines? ([\d, ]+)', line)
    if m:
        signs_of, n, kind, t, ts, ps, sec, lns = m.groups()
        ps = alias[ps] if ps in alias else words(ps)
        ours[n] = (kind, [t] + re.findall(r"[A-Z][A-Z-]*", ts), ps, [int(x) for x in lns.split(",")])
        signs[n] = signs_of
        our_order.append(n)
    elif "row" in line:
        faults.append("not read: " + line)
theirs, their_order = {}, []
words_by, status_by = {}, {}
DEFAULTS = {"ATTACH": "URI", "TRIGGER": "DURATION", "GEO": "FLOAT", "REQUEST-STATUS": "TEXT"}      # RFC 5545; elsewhere the schema's first is the default
for d in order:
    if not d.startswith("property-"):
        continue
    ln, t = defs[d]
    n = element(d)
    pm = []
    for p in re.findall(r"(\w+param)\?", t):
        pm.append(element(p))
    vals = re.findall(r"value-([\w-]+)(\+?)", t)
    ts = [v.upper() for v, _ in vals]
    if not ts:
        ts = ["TEXT"] if re.search(r"element text", t) else ["FLOAT"] if "xsd:float" in t else ["TEXT"]
    listed = any(p for _, p in vals)
    if n in DEFAULTS:
        assert DEFAULTS[n] == ts[0], n
    if words(t):
        (status_by if n == "STATUS" else words_by)[d if n == "STATUS" else n] = words(t)
    if n in theirs:
        theirs[n][3].append(ln)
    else:
        theirs[n] = ("several" if listed else "one", ts, pm, [ln])
        their_order.append(n)
compare("properties in order of name", our_order, sorted(their_order))
for n in their_order:
    compare(f"property {n}", ours.get(n), theirs[n])


def rows(t, key):
    return {m[0]: names(m[1]) for m in re.findall(r'name = ascii "([\w-]+)"; %s = ((?:ascii "[^"]+" ∷ )*\[\])' % key, strip(t))}


compare("closed sets", rows(body(props, "words_table"), "words"), words_by)
compare("STATUS", rows(body(props, "status_table"), "words"),
        {"VEVENT": status_by["property-status-event"], "VTODO": status_by["property-status-todo"], "VJOURNAL": status_by["property-status-jour"]})

# ---- components

comps = source("Components")
SIGNS = {"": "1", "?": "?", "*": "*", "+": "+"}


def occurrences(t):
    """in order; a property inside parentheses stands at most once, ?"""
    got, depth = [], 0
    for m in re.finditer(r"[()]|property-[\w-]+[?*+]?", t):
        s = m.group(0)
        if s in "()":
            depth += 1 if s == "(" else -1
            continue
        n = element(s.rstrip("?*+"))
        o = (n, "?" if depth else SIGNS[s[len(s.rstrip("?*+")):]])
        if o not in got:
            got.append(o)
    return got


# where RFC 5545 decides: what the schema's list has, and what stands in its place
BY_RFC_5545 = {"type-eventprop": (("DTSTART", "1"), ("DTSTART", "?")), "type-todoprop": (("DTEND", "?"), ("DUE", "?"))}


def mended(name, listed):
    """A list of the schema as RFC 6321 has it, or as our copy of it has it."""
    was, now = BY_RFC_5545.get(name, (None, None))
    return [now if o == was else o for o in listed]


# the columns of the table: the lists of the components, then VALARM's by ACTION
COLUMNS = ["type-calprops", "type-eventprop", "type-todoprop", "type-jourprop", "type-fbprop", "component-vtimezone", "type-tzprop", "type-tzprop", "type-audioprop", "type-dispprop", "type-emailprop"]
for i, d in enumerate(COLUMNS):
    mine = [(n, s[i]) for n, s in signs.items() if s[i] != "."]
    compare(f"column {i}, {d}", mine, sorted(mended(d, occurrences(defs[d][1]))))

table = re.findall(r'name = ascii "(\w+)"; subcomponents = ((?:ascii "\w+" ∷ )*\[\]); occurrences = (list_in \d+|\[\])', body(comps, "component_table"))
ours = [(n, names(s), o) for n, s, o in table]
theirs = []
for d in order:
    if d == "vcalendar" or d.startswith("component-"):
        t = defs[d][1]
        subs = []
        inner = t.split("{", 1)[1]
        for c in re.findall(r"component-\w+|type-component", inner):
            for k in ([c] if c != "type-component" else re.findall(r"component-\w+", defs["type-component"][1])):
                if element(k) not in subs:
                    subs.append(element(k))
        use = re.findall(r"type-\w+prop\w*", t)
        column = COLUMNS.index(use[0] if len(use) == 1 else "component-vtimezone") + (element(d) == "DAYLIGHT")
        occ = f"list_in {column}" if len(use) < 2 else "[]"
        theirs.append((element(d), subs, occ))
compare("components", ours, theirs)
used = re.findall(r"type-\w+prop", defs["component-valarm"][1])
alarm = [(a, body(comps, o).strip()) for a, o in re.findall(r'action = ascii "(\w+)"; occurrences = (\w+)', body(comps, "alarm_table"))]
compare("alarms", alarm, list(zip(words(defs["property-action"][1]), [f"list_in {COLUMNS.index(u)}" for u in used])))

# ---- quoted lines: `-- .. line N` beside an entry, in the lists of the schema's order too
listed = source("laws/Lists")
for n, l in re.findall(r'ascii "([\w-]+)"\) ∷\s+-- line (\d+)', listed):
    at = schema[int(l) - 1]
    near = at + schema[int(l)]
    if not any(element("property-" + p) == n for p in re.findall(r"property-([\w-]+)", near)):
        faults.append(f"line {l} has no {n}: {at}")
for d, l in re.findall(r"((?:type|component)-\w+), line (\d+)", comps + listed):
    if defs[d][0] != int(l) and not (d == "component-vtimezone" and int(l) == 570):
        faults.append(f"{d} stands in line {defs[d][0]}, not {l}")
for d, l in re.findall(r'name = ascii "(\w+)";.*-- line (\d+)', comps):
    if defs["component-" + d.lower()][0] != int(l):
        faults.append(f"{d} stands in line {defs['component-' + d.lower()][0]}, not {l}")
print("\n".join(faults) if faults else f"ok: {len(their_order)} properties, {len([d for d in order if d.endswith('param')])} parameters, {len(theirs)} components")
sys.exit(bool(faults))
