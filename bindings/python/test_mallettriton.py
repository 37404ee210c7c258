"""Tests of mallettriton.py: `python3 -m unittest discover bindings/python`, from the repository's root.

The library is the one that MALLETTRITON_LIBRARY names, or the one beside this file; else cc links one for the test, out of target/staticlib.
"""
import os
import subprocess
import sys
import tempfile
import threading
import unittest
from pathlib import Path

HERE = Path(__file__).resolve().parent
TOP = HERE.parent.parent
SAMPLES = [next(p for p in (TOP / "samples", HERE / "samples") if p.is_dir()) / name for name in ("rota", "jobs", "fleet")]
sys.path.insert(0, str(HERE))
mallettriton = None


def setUpModule():
    global mallettriton
    with tempfile.TemporaryDirectory() as room:
        if "MALLETTRITON_LIBRARY" not in os.environ and not (HERE / "libmallettriton.so").exists():
            made = os.environ["MALLETTRITON_LIBRARY"] = f"{room}/libmallettriton.so"
            archives = [str(TOP / f"target/staticlib/lib{name}.a") for name in ("mallettriton", "mallettriton_folded")]
            subprocess.run(["cc", "-shared", "-o", made, "-Wl,--whole-archive", *archives, "-Wl,--no-whole-archive"], check=True)
        import mallettriton


class Samples(unittest.TestCase):
    def test_each_way(self):
        for sample in SAMPLES:
            text, xml, jcal = (sample.with_suffix(suffix).read_bytes() for suffix in (".ics", ".xml", ".json"))
            with self.subTest(sample.name):
                self.assertEqual(mallettriton.to_xml(text), xml)
                self.assertEqual(mallettriton.to_xml_folded(text), xml)
                self.assertEqual(mallettriton.to_jcal(text), jcal)
                self.assertEqual(mallettriton.to_text(xml), text)
                self.assertEqual(mallettriton.jcal_to_text(jcal), text)

    def test_a_log(self):
        documents = [sample.with_suffix(".xml").read_bytes() for sample in SAMPLES]
        log = b"".join(documents)
        self.assertEqual(mallettriton.documents(log), (documents, b""))
        self.assertEqual(mallettriton.documents(log[:-1]), (documents[:-1], documents[-1][:-1]))
        self.assertEqual(mallettriton.documents(b""), ([], b""))

    def test_what_is_like_bytes(self):
        text = SAMPLES[0].with_suffix(".ics").read_bytes()
        self.assertEqual(mallettriton.to_xml(bytearray(text)), mallettriton.to_xml(text))
        self.assertEqual(mallettriton.to_xml(memoryview(text)), mallettriton.to_xml(text))
        for other in (text.decode(), 5, None, [66]):
            self.assertRaises(TypeError, mallettriton.to_xml, other)

    def test_a_long_result_and_many_threads(self):
        text = b"BEGIN:VCALENDAR\r\nPRODID:\r\nVERSION:2.0\r\n" + b"A:\r\n" * 5000 + b"END:VCALENDAR\r\n"
        xml = mallettriton.to_xml(text)
        self.assertGreater(len(xml), 6 * len(text))
        found = []
        threads = [threading.Thread(target=lambda: found.append(mallettriton.to_xml(text))) for _ in range(8)]
        for thread in threads:
            thread.start()
        for thread in threads:
            thread.join()
        self.assertEqual(found, [xml] * 8)


class Refusals(unittest.TestCase):
    def refused(self, number, name, place, line, column, call, *arguments):
        with self.assertRaises(mallettriton.Refused) as told:
            call(*arguments)
        why = told.exception
        self.assertEqual((why.number, why.name, why.place, why.line, why.column), (number, name, place, line, column))
        self.assertEqual(str(why), f"refused {number} {name} at byte {place}")
        self.assertIsInstance(why, ValueError)

    def test_places(self):
        m = mallettriton
        bad_day = SAMPLES[0].with_suffix(".ics").read_bytes().replace(b"20240504T", b"20240231T")
        for call in (m.to_xml, m.to_xml_folded, m.to_jcal):
            self.refused(8, "VALUE", 127, 7, 19, call, bad_day)
            self.refused(6, "FRAME", 0, 1, 1, call, b"")
            self.refused(6, "FRAME", 17, 2, 1, call, b"BEGIN:VCALENDAR\r\n")
            self.refused(3, "CHARACTER", 1, 1, 2, call, b"A\0B")
        self.refused(11, "XML", 0, 1, 1, m.to_text, b"")
        cut = SAMPLES[0].with_suffix(".xml").read_bytes()[:-len("</icalendar>\n")]
        self.refused(11, "XML", len(cut), 2, len(cut) - cut.index(b"\n"), m.to_text, cut)
        self.refused(12, "JSON", 0, 1, 1, m.jcal_to_text, b"")
        self.refused(12, "JSON", 3, 2, 2, m.jcal_to_text, b"[\n0x]")

    def test_lengths_and_editions(self):
        m = mallettriton
        for call in (m.to_xml, m.to_xml_folded, m.to_jcal, m.to_text, m.jcal_to_text):
            self.refused(1, "LENGTH", 0, 1, 1, call, b"A" * (m.LONGEST + 1))
            for edition in (2, -1, 1 << 32, -(1 << 32)):
                self.refused(13, "EDITION", 0, 1, 1, call, b"A", edition)

    def test_editions(self):
        m = mallettriton
        text = SAMPLES[0].with_suffix(".ics").read_bytes().replace(b"SUMMARY:", b"SUMMARY;X-A=^':")
        self.assertIn(b"<unknown>^'</unknown>", m.to_xml(text))
        xml = m.to_xml(text, m.RFC_6868)
        self.assertIn(b'<unknown>"</unknown>', xml)
        self.assertEqual(m.to_text(xml, m.RFC_6868), text)
        self.refused(7, "PARAMETER", xml.index(b"<x-a>"), 2, xml.index(b"<x-a>") - xml.index(b"\n"), m.to_text, xml)

    def test_a_number_that_is_not_known(self):
        why = mallettriton.Refused(99, 5)
        self.assertEqual((why.number, why.name, why.place), (99, "UNKNOWN", 5))


if __name__ == "__main__":
    unittest.main()
