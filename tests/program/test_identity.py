"""The instance and the study of a file in its header and in its data set, for `check --strict` and `index`."""
import json
import re
import struct

import pytest
from peer import element
from samples import DIRECTORY, HEADER, IMAGE, cases

# A file's header names the instance 1.2.3, and its data set is at byte 288.
INSTANCE = element((0x08, 0x18), "UI", b"1.2.3\0")
STUDY = element((0x20, 0x0D), "UI", b"1.2\0")
MODALITY = element((0x08, 0x60), "CS", b"CT")
# Request Attributes Sequence with an item that has another instance.
ITEM = b"\xfe\xff\0\xe0\x0e\0\0\0" + element((0x08, 0x18), "UI", b"1.2.4\0")
SEQUENCE = b"\x40\0\x75\x02SQ\0\0" + struct.pack("<L", len(ITEM)) + ITEM
NO_INSTANCE = "0008,0018 UI 21 MissingUid"
NO_STUDY = "0020,000d UI 21 MissingUid"
PALETTE = "1.2.840.10008.5.1.4.39.1"
# The offset of the image's data set; its header names the instance 1.2.3.1.1.
START = IMAGE.index(b"\x08\0\x20\0DA")


def of_class(uid, data):
    """Returns a file of a class."""
    classed = element((2, 2), "UI", uid.encode() + b"\0" * (len(uid) % 2))
    meta = HEADER[144:158] + classed + HEADER[192:288]
    length = struct.pack("<L", len(meta))
    return HEADER[:140] + length + meta + data


@pytest.mark.parametrize(
    "data, notes",
    cases(
        ("both", HEADER + INSTANCE + STUDY, []),
        (
            "another instance",
            HEADER + element((0x08, 0x18), "UI", b"1.2.4\0") + STUDY,
            ["0000000288 0008,0018 UI 20 OtherInstance 1.2.4 header 1.2.3"],
        ),
        (
            "another one of an item",
            HEADER + INSTANCE + STUDY + SEQUENCE,
            [],
        ),
        ("no instance", HEADER + MODALITY + STUDY, [f"0000000288 {NO_INSTANCE}"]),
        ("one without value", HEADER + element((0x08, 0x18), "UI", b"") + STUDY, [f"0000000296 {NO_INSTANCE}"]),
        ("no study", HEADER + INSTANCE, [f"0000000302 {NO_STUDY}"]),
        ("no study among others", HEADER + INSTANCE + MODALITY + element((0x28, 0x10), "US", b"\1\0"), [f"0000000312 {NO_STUDY}"]),
        ("neither", HEADER, [f"0000000288 {NO_INSTANCE}", f"0000000288 {NO_STUDY}"]),
        ("a palette, which is of no study", of_class(PALETTE, INSTANCE), []),
        ("a directory", DIRECTORY, []),
    ),
)
def test_notes(run, put, data, notes):
    put({"made.dcm": data})
    done = run("check", "--strict", "made.dcm")
    lines = done.stdout.splitlines()
    assert [line[5:] for line in lines if re.search(" 2[01] ", line)] == notes
    assert done.returncode == (1 if notes else 0) and lines[-1].startswith("good ")
    assert run("check", "made.dcm").stdout == lines[-1] + "\n"


def test_as_json(run, put):
    put({"made.dcm": HEADER + element((0x08, 0x18), "UI", b'1."45\0')})
    found = json.loads(run("check", "--strict", "--json", "made.dcm").stdout)
    first, second = [note for note in found["notes"] if note["number"] >= 20]
    assert (first["name"], first["value"], first["header"]) == ("OtherInstance", '1."45', "1.2.3")
    assert (second["name"], second["keyword"]) == ("MissingUid", "StudyInstanceUID")


@pytest.mark.parametrize("options", [[], ["--descriptions"]])
def test_index_reports_another_instance(run, put, options):
    """Two files have the same instance in their headers and two in their data sets: the second is a duplicate."""
    other = element((0x08, 0x18), "UI", b"1.2.3.1.2\0")
    put({"in/I0000001": IMAGE[:START] + other + IMAGE[START:], "in/I0000002": IMAGE})
    done = run("index", "in", "--uid", "2.25.1", *options)
    assert (done.returncode, done.stdout) == (0, "double I0000002\nrecords 4\n")
    assert done.stderr.splitlines()[0] == (
        "dcmbox: in/I0000001: its header names the instance 1.2.3.1.1, which its record has, "
        "and its data set 1.2.3.1.2"
    )
    assert done.stderr.count("its header names") == 1


def test_index_of_the_same_instance(run, put):
    same = element((0x08, 0x18), "UI", b"1.2.3.1.1\0")
    put({"in/I0000001": IMAGE[:START] + same + IMAGE[START:]})
    assert run("index", "in", "--uid", "2.25.1").stderr == "images 1 left out 0\n"
