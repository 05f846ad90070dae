"""The mask cases: from vectors/mask.txt, an address, the masked bits and whether Sv39 is in force, to the address as transformed.

A line of the data is `masked-bits sv39 address = transformed-address`.
"""
import re

import manifest
from manifest import LARGEST, Case, Wrong, hexadecimal, number, parts, said


def case(line, text):
    given, wanted, remark = parts(text, "0xABFFFFFF12345678, 7 bits, Sv39", "0xFFFFFFFF12345678")
    form = re.fullmatch(r"(\S+), (\d+) bits, (Sv39|Bare)", given)
    if not form:
        raise Wrong(f"'{given}': write an address, how many bits are masked, and Sv39 or Bare, as `0x1000, 7 bits, Sv39`")
    numbers = [number(form[2], 0, 16, "number of masked bits"), int(form[3] == "Sv39"), number(form[1], 0, LARGEST, "address")]
    right = number(wanted, 0, LARGEST, "address")
    return Case(line, hexadecimal(numbers), hexadecimal([right]), said(given, wanted, remark))


def items():
    """The headings and the cases, in order."""
    return manifest.read("mask", case)
