#!/usr/bin/env python3
"""Packs cases for crates/cases.

    tools/pack-cases.py FILE.. > crates/cases/stdin

A FILE has a case a line, or is a JSON list of cases: {"call": "to_xml", "to_xml_folded", "to_text", "to_jcal" or "jcal_to_text", "in": [INPUT], "answer": ["ok", {"b64": RESULT}] or ["refused", N, P]},
INPUT and RESULT in base64; or, as for the base, {"way": "to-xml" or "to-text", "in": INPUT, "answer": ["ok", RESULT] or ["refused", N, P]}; "edition" is 0 where it is not given. Added are, of each call, an empty input and inputs as long as the limit and one byte longer; and to text, documents
with 32 and with 33 open elements, and jCal with as many open arrays. The form of what is written stands in the program's main.rt.
"""
import base64
import json
import sys

LIMIT = 65535
CALLS = {"to_xml": 1, "to_xml_folded": 1, "to_text": 2, "to_jcal": 3, "jcal_to_text": 4}  # both ways to XML run every case to XML
ROOT = b'<icalendar xmlns="urn:ietf:params:xml:ns:icalendar-2.0">'
TEXT = (b"BEGIN:VCALENDAR\r\nPRODID:%s\r\nVERSION:2.0\r\n", b"END:VCALENDAR\r\n")
XML = (
    b'<?xml version="1.0" encoding="utf-8"?>\n' + ROOT + b"<vcalendar><properties><prodid><text>%s</text></prodid><version><text>2.0</text></version>",
    b"</properties><components></components></vcalendar></icalendar>\n",
)
JCAL = (b'["vcalendar",[["prodid",{},"text","%s"],["version",{},"text","2.0"]', b"],[]]")


def number(n):
    return n.to_bytes(4, "big")


def parts(front, middle=b"", times=0, back=b""):
    lengths = (len(front), len(middle), len(middle) * times, len(back))
    return b"".join(map(number, lengths)) + front + middle + back


def record(call, n, value, given, result=parts(b""), edition=0):
    return bytes([CALLS[call]]) + number(edition) + number(n) + number(value) + given + result


def packed(case):
    text, answer = case["in"], case["answer"]
    call = case.get("call") or case["way"].replace("-", "_")
    edition = case.get("edition", 0)
    given = parts(base64.b64decode(text[0] if isinstance(text, list) else text))
    if answer[0] == "ok":
        result = base64.b64decode(answer[1]["b64"] if isinstance(answer[1], dict) else answer[1])
        return record(call, 0, len(result), given, parts(result), edition)
    return record(call, answer[1], answer[2], given, edition=edition)


def long(call, form, unit, result_form, result_unit, length):
    """A calendar of `length` bytes: a property many times, and a PRODID that takes what is left."""
    bare = len(form[0] % b"") + len(form[1])
    times, left = divmod(length - bare, len(unit))
    given = parts(form[0] % (b"p" * left), unit, times, form[1])
    if length > LIMIT:
        return record(call, 1, 0, given)
    front, back = result_form[0] % (b"p" * left), result_form[1]
    return record(call, 0, len(front) + len(result_unit) * times + len(back), given, parts(front, result_unit, times, back))


def long_line(length):
    """A document of `length` bytes whose PRODID is all semicolons, which its text escapes: 34 in the first line, 37 in each that follows."""
    bare = len(XML[0] % b"") + len(XML[1])
    front, back = XML[0].split(b"%s")
    given = parts(front, b";", length - bare, back + XML[1])
    times, left = divmod(length - bare - 34, 37)
    front, back = TEXT[0].split(b"%s")
    front, middle, back = front + b"\\;" * 34, b"\r\n " + b"\\;" * 37, b"\r\n " + b"\\;" * left + back + TEXT[1]
    return record("to_text", 0, len(front) + len(middle) * times + len(back), given, parts(front, middle, times, back))


def nested(depth, last, end, n, place):
    """A document with `depth` open elements, the last of them given."""
    return record("to_text", n, place, parts(ROOT + b"<a>" * (depth - 2) + last + end + b"</a>" * (depth - 2) + b"</icalendar>"))


def cases(name):
    text = open(name, encoding="utf-8").read()
    return json.loads(text) if text.startswith("[") else list(map(json.loads, text.splitlines()))


def added():
    yield record("to_xml", 6, 0, parts(b""))
    yield record("to_jcal", 6, 0, parts(b""))
    yield record("to_text", 11, 0, parts(b""))
    yield record("jcal_to_text", 12, 0, parts(b""))
    for length in (LIMIT, LIMIT + 1):
        yield long("to_xml", TEXT, b"X-A:b\r\n", XML, b"<x-a><unknown>b</unknown></x-a>", length)
        yield long("to_xml", TEXT, b"X-A;C=d:b\r\n e&\r\n", XML, b"<x-a><parameters><c><unknown>d</unknown></c></parameters><unknown>be&amp;</unknown></x-a>", length)
        yield long("to_jcal", TEXT, b"X-A:b\r\n", JCAL, b',["x-a",{},"unknown","b"]', length)
        yield long("to_jcal", TEXT, b'X-A;C=d:b\r\n e"\r\n', JCAL, b',["x-a",{"c":"d"},"unknown","be\\""]', length)
        yield long("to_text", XML, b"<x-a><unknown>b</unknown></x-a>", TEXT, b"X-A:b\r\n", length)
        yield long("to_text", XML, b"<x-a>\n<date>2024-02-29</date>\r</x-a >", TEXT, b"X-A;VALUE=DATE:20240229\r\n", length)
        yield long("jcal_to_text", JCAL, b',["x-a",{},"unknown","b"]', TEXT, b"X-A:b\r\n", length)
        yield long("jcal_to_text", JCAL, b' ,[ "x-a",{} ,"date","2024\\u002d02-29"]', TEXT, b"X-A;VALUE=DATE:20240229\r\n", length)
    yield long_line(LIMIT)
    # an array that holds nothing else states no component, and one too many is no JSON that is read
    yield record("jcal_to_text", 6, 1, parts(b"[" * 32 + b"]" * 32))
    yield record("jcal_to_text", 12, 32, parts(b"[" * 33 + b"]" * 33))
    # what stands at the first <a> is 6, unless the document is no XML of the profile
    yield nested(32, b"<a>", b"</a>", 6, len(ROOT))
    for last, end in ((b"<a>", b"</a>"), (b"<a/>", b"")):
        yield nested(33, last, end, 11, len(ROOT) + 31 * len(b"<a>"))


out = sys.stdout.buffer
for name in sys.argv[1:]:
    for case in cases(name):
        out.write(packed(case))
for case in added():
    out.write(case)
