#!/usr/bin/env python3
"""Outside judges of the project's XML and jCal. tools/check-outside says which are missing, and calls this.

    tools/outside.py

Documents: those that the way to XML writes, from crates/cases/stdin and from samples/*.ics (if target/bin/to_xml is built); those that the way to
text accepts; and those that it refuses for what they say, and not as XML (refusals 5 to 9).

- All must be well-formed for xmllint (libxml2).
- Those that are written must read in Python's expat as the same tree as in a reading of a few lines, which knows canonical XML only.
- Those that are written or accepted must be valid by tools/schema/xcal.rnc, for jing and for xmllint (which reads it as trang rewrites it).
- Each judge must reject a document in which it must find a fault.

jCal: that which the way to jCal writes, from the same cases and samples. It must read in Python's json as the same value as in a reading of a few lines, which knows
canonical JSON only; and as the value that RFC 7265 gives the XML of the same text, as expat reads that (if target/bin/to_xml is built; of texts in edition 0). What the way from
jCal to text accepts, or refuses for what it says (5 to 9), must be JSON for Python.

The schema has no unrecognised components: documents with one are left out there, and counted.
A URI may hold nearly any visible ASCII (docs/FORMAT.md); the judges take less. Documents with a URI that a judge does not take are left out there, and counted.
"""
import json
import re
import shutil
import subprocess
import sys
import tempfile
from pathlib import Path
from xml.parsers import expat

HERE = Path(__file__).resolve().parent
TOP = HERE.parent
SCHEMA = HERE / "schema/xcal.rnc"
NAMESPACE = "urn:ietf:params:xml:ns:icalendar-2.0"
COMPONENTS = "vcalendar vevent vtodo vjournal vfreebusy vtimezone standard daylight valarm".split()
HEAD = f'<?xml version="1.0" encoding="utf-8"?>\n<icalendar xmlns="{NAMESPACE}">'
# URIs that a judge does not take
JING_URI = re.compile(r"%(?![0-9A-Fa-f]{2})|#.*#|^[^:]*:(#|$)|^[^:]*:/[^/].*[][]")
LIBXML_URI = re.compile(r"%(?![0-9A-Fa-f]{2})|#.*#|[\[\]]")
passed = failed = 0


def packed_cases(data):
    """Way, edition, number of the refusal or 0, input and result of each case; tools/pack-cases.py has the form."""
    at = 0

    def take(n):
        nonlocal at
        at += n
        return data[at - n:at]

    def number():
        return int.from_bytes(take(4), "big")

    def parts():
        front, middle, repeated, back = (number() for _ in range(4))
        front, middle = take(front), take(middle)
        return front + (middle * (repeated // len(middle)) if middle else b"") + take(back)

    while at < len(data):
        way, edition, refusal, _ = take(1)[0], number(), number(), number()
        yield way, edition, refusal, parts(), parts()


def all_cases():
    return enumerate(packed_cases((TOP / "crates/cases/stdin").read_bytes()))


def documents():
    written, accepted, refused = {}, {}, {}
    for i, (way, _, refusal, given, result) in all_cases():
        name = f"case-{i}.xml"
        if way == 1 and refusal == 0:
            written[name] = result
        elif way == 2 and refusal == 0:
            accepted[name] = given
        elif way == 2 and 5 <= refusal <= 9:
            refused[name] = given
    for sample in sorted((TOP / "samples").glob("*.xml")):
        accepted[sample.name] = sample.read_bytes()
    for sample in sorted((TOP / "samples").glob("*.ics")):
        if is_built("to_xml"):
            written[sample.name + ".xml"] = run("to_xml", sample.read_bytes())
        else:
            print(f"skipped: {sample.name}, since target/bin/to_xml is not built")
    return written, accepted, refused


def jcals():
    """The jCal of each case and sample, with its text and the edition."""
    found = {f"case-{i}.json": (given, edition, result) for i, (way, edition, refusal, given, result) in all_cases() if way == 3 and refusal == 0}
    for sample in sorted((TOP / "samples").glob("*.json")):
        found[sample.name] = sample.with_suffix(".ics").read_bytes(), 0, sample.read_bytes()
    return found


def is_built(program):
    return (TOP / "target/bin" / program).exists()


def run(program, data):
    """What a program of the project prints of an input that it accepts."""
    return subprocess.run([TOP / "target/bin" / program], input=data, capture_output=True, check=True).stdout


def report(judge, names, complaints, note=""):
    """Counts the documents without a complaint as passed, the others as failed, and lists the first of these."""
    global passed, failed
    bad = [n for n in names if complaints.get(n)]
    passed += len(names) - len(bad)
    failed += len(bad)
    for n in bad[:20]:
        print(f"FAILED {judge}: {n}: {complaints[n][0]}")
    print(f"{judge}: {len(names) - len(bad)} passed, {len(bad)} failed{note}")


# ---- trees, as lists of tags and texts in order

def tree_of_expat(data):
    items, parser = [], expat.ParserCreate(namespace_separator="|")

    def text(t):
        if items and items[-1][0] == "text":
            t = items.pop()[1] + t
        items.append(("text", t))

    parser.StartElementHandler = lambda name, attributes: items.append(("start", name, *attributes.items()))
    parser.EndElementHandler = lambda name: items.append(("end", name))
    parser.CharacterDataHandler = text
    parser.Parse(data, True)
    return items


def tree_of_canonical(data):
    text = data.decode("utf-8")
    if not text.startswith(HEAD) or not text.endswith("</icalendar>\n"):
        raise ValueError("not in canonical form")
    items, at = [("start", f"{NAMESPACE}|icalendar")], len(HEAD)
    for m in re.compile(r"<(/?)([a-z][a-z0-9-]*)>|([^<>]+)").finditer(text, at, len(text) - 1):
        if m.start() > at:
            raise ValueError(f"not in canonical form at {at}")
        at = m.end()
        slash, name, characters = m.groups()
        if name:
            items.append(("end" if slash else "start", f"{NAMESPACE}|{name}"))
        elif re.search(r"&(?!(amp|lt|gt);)|\r", characters):
            raise ValueError(f"not in canonical form at {m.start()}")
        else:
            items.append(("text", characters.replace("&lt;", "<").replace("&gt;", ">").replace("&amp;", "&")))
    return items


def tree_complaints(data):
    try:
        return [] if tree_of_expat(data) == tree_of_canonical(data) else ["another tree"]
    except (ValueError, expat.ExpatError) as e:
        return [str(e)]


# ---- values of jCal: an array is a list, an object a tuple of names and values in order, a number its digits as they stand, behind #

def value_of_json(data):
    def number(digits):
        return "#" + digits

    def no_constant(word):
        raise ValueError(f"{word} is no JSON")

    return json.loads(data.decode("utf-8"), parse_int=number, parse_float=number, parse_constant=no_constant, object_pairs_hook=tuple)


def value_of_canonical(data):
    token = re.compile(r'[][{},:]|"(?:[^"\\\x00-\x1f]|\\["\\nt])*"|true|false|-?(?:0|[1-9][0-9]*)(?:\.[0-9]*[1-9])?')
    text, at = data.decode("utf-8"), 0

    def take():
        nonlocal at
        m = token.match(text, at)
        if not m:
            raise ValueError(f"not in canonical form at {at}")
        at = m.end()
        return m[0]

    def items(end, item):
        found, t = [], take()
        while t != end:
            found.append(item(t))
            t = take()
            if t == ",":
                t = take()
            elif t != end:
                raise ValueError(f"not in canonical form before {at}")
        return found

    def member(t):
        name = value(t)
        if take() != ":":
            raise ValueError(f"not in canonical form before {at}")
        return name, value(take())

    def value(t):
        if t == "[":
            return items("]", value)
        if t == "{":
            return tuple(items("}", member))
        if t[0] == '"':
            return re.sub(r"\\(.)", lambda m: {"n": "\n", "t": "\t"}.get(m[1], m[1]), t[1:-1])
        if t in ("true", "false"):
            return t == "true"
        if t in "]},:":
            raise ValueError(f"not in canonical form before {at}")
        return "#" + t

    found = value(take())
    if at < len(text):
        raise ValueError(f"something behind the value, at {at}")
    return found


def elements_of(data):
    """The elements of a document, each its name and either its characters or its elements."""
    stack = [("", [], [])]
    for item in tree_of_expat(data):
        if item[0] == "start":
            stack.append((item[1].split("|")[-1], [], []))
        elif item[0] == "end":
            name, inner, characters = stack.pop()
            stack[-1][1].append((name, inner or "".join(characters)))
        else:
            stack[-1][2].append(item[1])
    return stack[0][1]


def value_by_xml(data):
    """The jCal of the calendars of a document (RFC 7265, beside RFC 6321)."""
    def one_or_all(values):
        return values[0] if len(values) == 1 else values

    def grouped(pairs):
        """Values of the same name together, in the order of their first."""
        return tuple((n, one_or_all([v for m, v in pairs if m == n])) for n in dict.fromkeys(n for n, _ in pairs))

    def typed(kind, content):
        if kind == "boolean":
            return content == "true"
        if kind in ("integer", "float"):
            return "#" + content
        if kind == "period":
            return [characters for _, characters in content]
        if kind == "recur":
            return grouped([(n, "#" + c if re.fullmatch("-?[0-9]+", c) else c) for n, c in content])
        return content or ""

    def parameter(name, values):
        return name, one_or_all([v.upper() if kind == "boolean" else v or "" for kind, v in values])

    def property_of(name, inner):
        parameters = tuple(parameter(*p) for p in inner[0][1]) if inner[0][0] == "parameters" else ()
        values = inner[1:] if inner[0][0] == "parameters" else inner
        if name == "geo":
            return [name, parameters, "float", ["#" + c for _, c in values]]
        if name == "request-status":
            return [name, parameters, "text", [c or "" for _, c in values]]
        return [name, parameters, values[0][0], *(typed(*v) for v in values)]

    def component(name, inner):
        parts = dict(inner or [])
        return [name, [property_of(*p) for p in parts.get("properties") or []], [component(*c) for c in parts.get("components") or []]]

    return one_or_all([component(*c) for c in elements_of(data)[0][1]])


def value_complaints(data, other):
    try:
        return [] if value_of_json(data) == other() else ["another value"]
    except (ValueError, KeyError, IndexError, subprocess.CalledProcessError) as e:
        return [repr(e)]


def odd_uris(data, odd):
    """How many values of the types that hold a URI are of the form that a judge does not take."""
    items = tree_of_expat(data)
    named = [f"{NAMESPACE}|uri", f"{NAMESPACE}|cal-address"]
    return sum(a[0] == "start" and a[1] in named and b[0] == "text" and bool(odd.search(b[1])) for a, b in zip(items, items[1:]))


def paths(data):
    """The names of the open elements at each start tag, its own last."""
    names = []
    for item in tree_of_expat(data):
        if item[0] == "start":
            names.append(item[1].split("|")[-1])
            yield names
        elif item[0] == "end":
            names.pop()


def has_unknown_component(data):
    """A component stands in it that the schema does not have."""
    return any(names[-2:-1] == ["components"] and names[-1] not in COMPONENTS for names in paths(data))


def has_todo_with_duration(data):
    """libxml does not always follow the schema's choice between DUE and DURATION in a VTODO."""
    return any(names[-3:] == ["vtodo", "properties", "duration"] for names in paths(data))


# ---- judges of files

def ask(folder, names, *command):
    """What a judge prints of each file, by its name. What it says of the schema stands with every file."""
    run = subprocess.run([*command, *names], cwd=folder, capture_output=True, text=True, errors="replace")
    said = {n: [] for n in names}
    for line in (run.stdout + run.stderr).splitlines():
        name = Path(re.split(r":| validates$", line)[0]).name
        for n in names if name.startswith("xcal.") else [name]:
            said.setdefault(n, []).append(line)
    if run.returncode and not any(said.values()):
        raise RuntimeError(f"{command[0]} ended with status {run.returncode}")
    return said


def judge_all(folder):
    written, accepted, refused = documents()
    print(f"documents: {len(written)} written, {len(accepted)} accepted, {len(refused)} refused for what they say")
    sample = (TOP / "samples/rota.xml").read_bytes()
    broken = {"no-end.xml": sample.replace(b"</uid>", b""), "no-uid.xml": re.sub(rb"<uid>.*</uid>", b"", sample)}
    everything = {**written, **accepted, **refused, **broken}
    for name, data in everything.items():
        (folder / name).write_bytes(data)
    valid = [n for n in [*written, *accepted] if not has_unknown_component(everything[n])]
    print(f"left out where the schema judges: {len(written) + len(accepted) - len(valid)} with a component that it does not have")

    def rejects(judge, complaints, name):
        report(f"{judge} finds the fault in a broken document", [name], {name: [] if complaints[name] else ["it does not"]})

    print(f"\nexpat ({expat.EXPAT_VERSION})")
    report("the same tree", list(written), {n: tree_complaints(d) for n, d in written.items()})
    rejects("expat", {"no-end.xml": tree_complaints(broken["no-end.xml"])}, "no-end.xml")
    report("another tree is found", ["one letter more"], {"one letter more": [] if tree_of_expat(sample.replace(b"r1", b"r12")) != tree_of_canonical(sample) else ["it is not"]})

    if shutil.which("xmllint"):
        print("\nxmllint")
        names = [*written, *accepted, *refused]
        said = ask(folder, [*names, "no-end.xml"], "xmllint", "--noout")
        report("well-formed", names, said)
        rejects("xmllint", said, "no-end.xml")
    else:
        print("\nskipped: xmllint (not installed)")

    if shutil.which("jing"):
        print("\njing")
        said = ask(folder, [*valid, *refused, "no-uid.xml"], "jing", "-c", SCHEMA)
        odd = {n: odd_uris(everything[n], JING_URI) for n in valid}
        left = [n for n in valid if odd[n]]
        report("valid", [n for n in valid if not odd[n]], said, f", {len(left)} left out: a URI with a % and no two hexadecimal digits, with two #, with nothing after the colon, or with a square bracket in its path")
        report("valid but for these URIs", left, {n: [] if len(said[n]) == odd[n] and all("must be a URI" in x for x in said[n]) else said[n] or ["no complaint"] for n in left})
        rejects("jing", said, "no-uid.xml")
        print(f"for comparison: it finds {sum(bool(said[n]) for n in refused)} of the {len(refused)} refused documents not valid")
    else:
        print("\nskipped: jing (not installed)")

    if shutil.which("trang") and shutil.which("xmllint"):
        print("\nxmllint by the schema")
        subprocess.run(["trang", SCHEMA, folder / "xcal.rng"], check=True)
        names = [*valid, "no-uid.xml"]
        said = ask(folder, names, "xmllint", "--noout", "--relaxng", "xcal.rng")
        said = {n: [] if said[n] == [n + " validates"] else said[n] or ["it does not validate"] for n in names}
        left = [n for n in valid if odd_uris(everything[n], LIBXML_URI) or has_todo_with_duration(everything[n])]
        report("valid", [n for n in valid if n not in left], said, f", {len(left)} left out: a URI with a % and no two hexadecimal digits, with two #, or with a square bracket, or a VTODO with DURATION")
        rejects("xmllint", said, "no-uid.xml")
    else:
        print("\nskipped: xmllint by the schema (trang or xmllint is not installed)")


def judge_jcal():
    found = jcals()
    print(f"\njCal: {len(found)} written\n\njson")
    report("the same value", list(found), {n: value_complaints(d, lambda d=d: value_of_canonical(d)) for n, (_, _, d) in found.items()})
    if is_built("to_xml"):
        plain = {n: (text, d) for n, (text, edition, d) in found.items() if edition == 0}
        report("the value of the XML", list(plain), {n: value_complaints(d, lambda t=text: value_by_xml(run("to_xml", t))) for n, (text, d) in plain.items()})
    else:
        print("skipped: the value of the XML, since target/bin/to_xml is not built")
    read = {f"case-{i}.json": given for i, (way, _, refusal, given, _) in all_cases() if way == 4 and (refusal == 0 or 5 <= refusal <= 9)}
    report("JSON that is read", list(read), {n: value_complaints(d, lambda d=d: value_of_json(d)) for n, d in read.items()})
    sample = (TOP / "samples/rota.json").read_bytes()
    no_end, longer = sample[:-1], sample.replace(b"r1", b"r12")
    report("json finds the fault in a broken text", ["no-end.json"], {"no-end.json": [] if value_complaints(no_end, lambda: value_of_canonical(no_end)) else ["it does not"]})
    report("another value is found", ["one letter more"], {"one letter more": [] if value_complaints(longer, lambda: value_of_canonical(sample)) else ["it is not"]})


with tempfile.TemporaryDirectory() as room:
    judge_all(Path(room))
judge_jcal()
print(f"\n{passed} passed, {failed} failed")
sys.exit(bool(failed))
