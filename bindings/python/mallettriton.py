"""iCalendar text (RFC 5545) to xCal (RFC 6321) or jCal (RFC 7265) and back, by the proved library: bytes in, bytes out.

    import mallettriton
    with open("rota.ics", "rb") as file:
        text = file.read()
    try:
        xml = mallettriton.to_xml(text)
    except mallettriton.Refused as refused:
        print(refused.number, refused.name, refused.place, refused.line, refused.column)

The library is libmallettriton.so: the one that the variable MALLETTRITON_LIBRARY names, else the one beside this file, else the one that the system's
loader finds. A release has it beside this file. From the archives that `tools/staticlib` writes, the system's linker makes it:

    cc -shared -o libmallettriton.so -Wl,--whole-archive libmallettriton.a libmallettriton_folded.a -Wl,--no-whole-archive

Proved are the calls as they stand in the archives. This module, that link and the step from Python to C are not.
A thread needs 1,200 kB of stack for to_text, 400 kB for jcal_to_text and 250 kB for the other calls, to_xml_folded 16 kB.
"""
import ctypes
import os

RFC_5545, RFC_6868 = 0, 1  # editions of iCalendar text: without and with the carets of RFC 6868 in values of parameters
LONGEST = 65535  # bytes of input; a longer one is refused (1, LENGTH)
NAMES = dict(enumerate("LENGTH WORK CHARACTER LINE NAME FRAME PARAMETER VALUE COUNT ROOM XML JSON EDITION".split(), 1))


class Refused(ValueError):
    """The input is not accepted: the refusal's number, its name, and its place, a byte of the input counted from 0; that byte's line and column, from 1."""

    def __init__(self, number, place, data=b""):
        self.number, self.name, self.place = number, NAMES.get(number, "UNKNOWN"), place
        self.line, self.column = data.count(b"\n", 0, place) + 1, place - data.rfind(b"\n", 0, place)
        super().__init__(f"refused {number} {self.name} at byte {place}")


def _library():
    beside = os.path.join(os.path.dirname(os.path.abspath(__file__)), "libmallettriton.so")
    named = os.environ.get("MALLETTRITON_LIBRARY") or (beside if os.path.exists(beside) else "libmallettriton.so")
    try:
        return ctypes.CDLL(named)
    except OSError as why:
        raise ImportError(f"{why}; the text at the start of {__file__} says how to make it") from why


_LIBRARY = _library()


def _convert(name, data, edition, each, more, work=False):
    """The call `name` on `data`, with an output of the length that is always enough."""
    if not isinstance(data, (bytes, bytearray, memoryview)):
        raise TypeError(f"bytes are needed, not {type(data).__name__}: open the file with 'rb'")
    data, call = bytes(data), getattr(_LIBRARY, "mallettriton_" + name)
    length = len(data) if len(data) <= LONGEST else 0  # too long an input is refused before another buffer is used
    out = ctypes.create_string_buffer(each * length + more + 1)
    rooms = [ctypes.create_string_buffer(length + 1), ctypes.c_size_t(length)] if work else []
    call.restype = ctypes.c_uint64
    named = ctypes.c_uint32(edition if edition in (RFC_5545, RFC_6868) else 2)  # none of more than 32 bits is taken for another; 2 is refused
    number, value = divmod(call(data, ctypes.c_size_t(len(data)), *rooms, out, ctypes.c_size_t(len(out)), named), 1 << 32)
    if number or value > len(out):
        raise Refused(number, value, data)
    return ctypes.string_at(out, value)


def to_xml(text, edition=RFC_5545):
    """Canonical xCal of an iCalendar text."""
    return _convert("to_xml", text, edition, 19, 109, work=True)


def to_xml_folded(text, edition=RFC_5545):
    """The same by the call that needs no work room, and little stack."""
    return _convert("to_xml_folded", text, edition, 19, 109)


def to_jcal(text, edition=RFC_5545):
    """Canonical jCal of an iCalendar text."""
    return _convert("to_jcal", text, edition, 19, 2, work=True)


def to_text(xml, edition=RFC_5545):
    """Canonical iCalendar text of an xCal document."""
    return _convert("to_text", xml, edition, 6, 0)


def jcal_to_text(jcal, edition=RFC_5545):
    """Canonical iCalendar text of a jCal text."""
    return _convert("jcal_to_text", jcal, edition, 6, 0)


def documents(log):
    """The documents of a log, the XML of many texts one after another, and what is left behind them."""
    log, call, found, at = bytes(log), _LIBRARY.mallettriton_document_end, [], 0
    room = ctypes.create_string_buffer(log, len(log))
    call.restype = ctypes.c_size_t
    while end := call(ctypes.byref(room, at), ctypes.c_size_t(len(log) - at)):
        found.append(log[at : at + end])
        at += end
    return found, log[at:]
