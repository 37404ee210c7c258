#!/usr/bin/env python3
"""Gives `_lem` to the lemmas that respell.py left with the name of a definition in another file of their crate: LANDED told them apart by a dash.

usage: rename-lemmas.py      at the top of the repository, once, after move-laws.py

A name turns in the file that declares it, and in each file that imports it from there, with the comments that speak of it."""

import os
import sys

sys.path.insert(0, os.path.dirname(os.path.realpath(__file__)))
import respell  # noqa: E402

LEMMAS = {
    "examples.specs.Worked": ["time_zone"],
    "json_text.specs.laws.CheckBack": ["opens_array", "opens_object"],
    "read_jcal_value.specs.laws.Values": ["number_of"],
    "read_text_parameters.specs.laws.Named": ["type_for"],
    "read_text_parameters.specs.laws.Readable": ["read_by"],
    "recur.specs.Examples": ["in_order"],
    "schema.specs.Examples": ["parameter_types"],
    "schema.specs.laws.Columns": ["row_listed"],
    "schema.specs.laws.Rows": ["component_name", "parameter_name", "property_name"],
    "text.proofs.laws.TreeBack": ["begin_line", "end_line", "property_line"],
    "times.specs.laws.DateAlong": ["year_digits"],
    "write_xml_value.specs.laws.Rules": ["item_xml"],
    "xcal.proofs.laws.OwnAccepted": ["first_type"],
    "xcal.proofs.laws.TypedAccepted": ["nothing_come"],
}


def main():
    respell.BY_HAND = {module: {name: name + "_lem" for name in names} for module, names in LEMMAS.items()}
    respell.LISTED = {}
    turner = respell.Turner({}, {}, set(), set(), set())
    for path in respell.texts("crates", (".antt", ".rt")):
        if path.split("/")[2] not in ("specs", "proofs", "src"):
            continue
        with open(path, encoding="utf-8") as f:
            text = f.read()
        new = turner.antt_file(path, text) if path.endswith(".antt") else turner.rt_file(path, text)
        if new != text:
            print(path)
            with open(path, "w", encoding="utf-8") as f:
                f.write(new)


if __name__ == "__main__":
    main()
