"""Values of tests/data/values.txt, as `dcmbox check --strict`, pydicom and dciodvfy judge them.

docs/CONFORMANCE.md says which is right if they differ.
"""
import re
import struct

import pytest
from peer import ROOT, element

TAGS = {
    "AE": (0x0008, 0x0054),
    "AS": (0x0010, 0x1010),
    "CS": (0x0008, 0x0060),
    "DA": (0x0008, 0x0020),
    "DS": (0x0010, 0x1030),
    "DT": (0x0008, 0x002A),
    "IS": (0x0020, 0x0013),
    "LO": (0x0008, 0x0070),
    "PN": (0x0010, 0x0010),
    "SH": (0x0008, 0x0050),
    "ST": (0x0008, 0x0081),
    "TM": (0x0008, 0x0030),
    "UI": (0x0020, 0x000D),
    "UR": (0x0008, 0x1190),
}
SECONDARY_CAPTURE = b"1.2.840.10008.5.1.4.1.1.7\0"
# VRs of one value, in which a backslash does not separate values.
SINGLE = ("ST", "UR")
ROWS = [
    line.split()
    for line in (ROOT / "tests/data/values.txt").read_text().splitlines()
    if not line.startswith("#")
]


def file_of(vr, value):
    """Returns a secondary capture in Explicit VR Little Endian with this value."""
    meta = b"".join(
        [
            element((2, 1), "OB", b"\0\1"),
            element((2, 2), "UI", SECONDARY_CAPTURE),
            element((2, 3), "UI", b"1.2.3\0"),
            element((2, 0x10), "UI", b"1.2.840.10008.1.2.1\0"),
            element((2, 0x12), "UI", b"1.2.3.4\0"),
        ]
    )
    elements = {
        (8, 0x16): element((8, 0x16), "UI", SECONDARY_CAPTURE),
        (8, 0x18): element((8, 0x18), "UI", b"1.2.3\0"),
        TAGS[vr]: element(TAGS[vr], vr, value),
    }
    data = b"".join(elements[tag] for tag in sorted(elements))
    length = element((2, 0), "UL", struct.pack("<I", len(meta)))
    return bytes(128) + b"DICM" + length + meta + data


def pydicom_verdict(vr, value):
    valuerep = pytest.importorskip("pydicom.valuerep", reason="make packages installs pydicom")
    text = value.decode("ascii").rstrip(" \0")
    try:
        for part in [text] if vr in SINGLE else text.split("\\"):
            valuerep.validate_value(vr, part, valuerep.config.RAISE)
    except ValueError:
        return "refuses"
    return "takes"


def dciodvfy_verdict(tool, vr):
    done = tool("dciodvfy", "-new", "value.dcm", check=False)
    tag = "(%04x,%04x)" % TAGS[vr]
    lines = (done.stderr + done.stdout).splitlines()
    refused = any(re.match(r"Error - <.*> - Value invalid", line) and tag in line for line in lines)
    return "refuses" if refused else "takes"


def test_there_are_values():
    assert len(ROWS) > 50


@pytest.mark.parametrize("vr, text, note, pydicom, dciodvfy", ROWS)
def test_value(run, tool, put, vr, text, note, pydicom, dciodvfy):
    value = text.encode().decode("unicode_escape").encode("latin-1")
    if len(value) % 2:
        value += b"\0" if vr == "UI" else b" "
    put({"value.dcm": file_of(vr, value)})
    done = run("check", "--strict", "value.dcm")
    # (each file lacks SOP or Study Instance UID, which has a note of its own)
    lines = [line.split() for line in done.stdout.splitlines() if line.startswith("note ")]
    notes = [columns[5] for columns in lines if columns[5] != "MissingUid"]
    assert done.returncode == int(bool(lines))
    results = " ".join(notes or ["-"]), pydicom_verdict(vr, value), dciodvfy_verdict(tool, vr)
    assert results == (note, pydicom, dciodvfy)
