"""Elements without a VR, whose VR `show` with options and `check --strict` know from PS3.6."""
import json
import struct
import warnings

import pytest
from peer import element
from samples import cases

UNDEFINED = 0xFFFFFFFF
IMPLICIT, EXPLICIT = "1.2.840.10008.1.2", "1.2.840.10008.1.2.1"
ITEM, ITEM_END, END = (0xFFFE, 0xE000), (0xFFFE, 0xE00D), (0xFFFE, 0xE0DD)
# Sequences that the crate `dictionary` lacks: Anatomic Region, View Code and its modifier.
REGION, VIEW, MODIFIER = (0x0008, 0x2218), (0x0054, 0x0220), (0x0054, 0x0222)


def implicit(tag, value=b"", length=None):
    """Returns an element, an item or a delimitation in Implicit VR."""
    return struct.pack("<HHL", *tag, len(value) if length is None else length) + value


def uid(text):
    return text.encode() + b"\0" * (len(text) % 2)


def file(data, syntax=IMPLICIT):
    """Returns a file of a CT image with this data set."""
    meta = (
        element((2, 1), "OB", b"\0\1")
        + element((2, 2), "UI", uid("1.2.840.10008.5.1.4.1.1.2"))
        + element((2, 3), "UI", uid("1.2.3"))
        + element((2, 0x10), "UI", uid(syntax))
        + element((2, 0x12), "UI", uid("1.2.3.4"))
    )
    return b"\0" * 128 + b"DICM" + element((2, 0), "UL", struct.pack("<L", len(meta))) + meta + data


def sequence(tag, *items, is_open=False):
    """Returns a sequence and its items, of defined or undefined length."""
    if not is_open:
        return implicit(tag, b"".join(implicit(ITEM, item) for item in items))
    inside = b"".join(implicit(ITEM, item, UNDEFINED) + implicit(ITEM_END) for item in items)
    return implicit(tag, inside + implicit(END), UNDEFINED)


def with_uids(data, syntax):
    """Returns a data set of these elements with SOP and Study Instance UID, all before the study's or all after it."""
    one = implicit if syntax == IMPLICIT else lambda tag, value: element(tag, "UI", value)
    instance, study = one((0x0008, 0x0018), uid("1.2.3")), one((0x0020, 0x000D), uid("1.2"))
    if data and struct.unpack("<HH", data[:4]) > (0x0020, 0x000D):
        return instance + study + data
    return instance + data + study


@pytest.fixture
def shown(run, put):
    """Returns the elements of a file with this data set: level, tag, VR and value."""

    def elements(data, *options):
        put({"made.dcm": file(data)})
        done = run("show", "--json", "--values", *options, "made.dcm")
        found = json.loads(done.stdout)
        assert (done.returncode, found["result"]) == (0, "good")
        return [
            (one["level"], one["tag"], one["vr"], one.get("value"))
            for one in found["elements"]
            if one["tag"] not in ("fffe,e000", "fffe,e00d", "fffe,e0dd")
        ]

    return elements


SIGNED = implicit((0x0028, 0x0103), b"\1\0")
PADDING = implicit((0x0028, 0x0120), b"\xff\xff")
LUT = implicit((0x0028, 0x3002), b"\1\0\0\0\x10\0")
DATA = implicit((0x0028, 0x3006), b"\1\2")


@pytest.mark.parametrize(
    "data, vr, value",
    cases(
        ("a text", implicit((0x0018, 0x0081), b"8 "), "DS", "8"),
        ("a number", implicit((0x0018, 0x9073), struct.pack("<d", 1.5)), "FD", "1.5"),
        ("the first element", implicit((0x0004, 0x1130), b"A "), "CS", "A"),
        ("the last element", implicit((0xFFFC, 0xFFFC), b"\1\2"), "OB", "01\\02"),
        ("an overlay", implicit((0x6002, 0x0010), b"\2\1"), "US", "258"),
        ("the last overlay", implicit((0x60FE, 0x3000), b"\2\1"), "OW", "0102"),
        ("a curve", implicit((0x5004, 0x0022), b"A "), "LO", "A"),
        ("image identifiers", implicit((0x0020, 0x3142), b"A "), "CS", "A"),
        ("a group length", implicit((0x0008, 0), b"\1\0\0\0"), "UL", "1"),
        ("a private creator", implicit((0x0009, 0x0010), b"ACME"), "LO", "ACME"),
        ("a private element", implicit((0x0009, 0x1010), b"AB"), None, "41\\42"),
        ("an unknown element", implicit((0x0008, 0x0009), b"AB"), None, "41\\42"),
        ("a number without sign", PADDING, "US", "65535"),
        ("a number with a sign", SIGNED + PADDING, "SS", "-1"),
        ("a table of words", DATA, "OW", "0201"),
        ("a table of one number", LUT + DATA, "US", "513"),
    ),
)
def test_vrs(shown, data, vr, value):
    assert shown(data)[-1][2:] == (vr, value)


def test_vrs_of_items(shown):
    """The element on which the VR of a number depends applies to items below, unless an item has its own."""
    unsigned = implicit((0x0028, 0x0103), b"\0\0")
    data = SIGNED + sequence(VIEW, PADDING, unsigned + PADDING, PADDING)
    found = [vr for _, tag, vr, _ in shown(data) if tag == "0028,0120"]
    assert found == ["SS", "US", "SS"]


@pytest.mark.parametrize("outer", [False, True])
@pytest.mark.parametrize("inner", [False, True])
def test_items(shown, outer, inner):
    name = implicit((0x0018, 0x0081), b"12")
    within = sequence(MODIFIER, name, b"", name, is_open=inner)
    data = sequence(VIEW, name + within, within, is_open=outer)
    assert shown(data) == [
        (0, "0054,0220", "SQ", None),
        (2, "0018,0081", "DS", "12"),
        (2, "0054,0222", "SQ", None),
        (4, "0018,0081", "DS", "12"),
        (4, "0018,0081", "DS", "12"),
        (2, "0054,0222", "SQ", None),
        (4, "0018,0081", "DS", "12"),
        (4, "0018,0081", "DS", "12"),
    ]


def test_an_element_of_items(shown):
    data = sequence(VIEW, implicit((0x0018, 0x0081), b"12"))
    assert shown(data, "--tag", "EchoTime") == [(2, "0018,0081", "DS", "12")]


def test_long_values_of_items(shown):
    """Values and headers that span several reads of a file."""
    long = implicit((0x0018, 0x1000), b"A" * 65528)
    data = sequence(VIEW, long, long, implicit((0x0018, 0x0081), b"12"))
    assert shown(data)[-1] == (2, "0018,0081", "DS", "12")


def test_without_options(expect, put):
    """Without options only the crate `dictionary` counts, by which the file is parsed."""
    data = sequence(VIEW, b"") + implicit((0x0054, 0x0400), b"A ")
    put({"made.dcm": file(data)})
    start = len(file(b""))
    lines = (
        f"{start:010} 0054,0220 -- 8 \\?\n{start + 16:010} 0054,0400 -- 2 \\?\nend {start + 26}"
    )
    expect(0, f"class .*\n{lines}", "", "show", "made.dcm")
    expect(0, f"good {start + 26}", "", "check", "made.dcm")


class TestStrict:
    """`check --strict` checks values with a known VR against its rules, and counts the rest."""

    @pytest.fixture
    def checked(self, run, put):
        def check(data, syntax=IMPLICIT):
            put({"made.dcm": file(with_uids(data, syntax), syntax)})
            done = run("check", "--strict", "made.dcm")
            notes = [line.split(" ", 2)[2] for line in done.stdout.splitlines() if "note" in line]
            assert done.returncode == (1 if notes else 0) and "\ngood" in f"\n{done.stdout}"
            return notes, done.stderr

        return check

    @pytest.mark.parametrize(
        "data, notes",
        cases(
            ("a number", implicit((0x0018, 0x0081), b"x "), ["0018,0081 DS 1 BadCharacter"]),
            (
                "a number in an item",
                sequence(VIEW, implicit((0x0018, 0x0081), b"x ")),
                ["0018,0081 DS 1 BadCharacter"],
            ),
            ("good items", sequence(VIEW, b"", sequence(MODIFIER, b"")), []),
            ("items without end", implicit(VIEW, b"AB"), ["0054,0220 SQ 19 WrongItems"]),
            ("no items", implicit(VIEW, b"ABCDEFGH"), ["0054,0220 SQ 19 WrongItems"]),
            (
                "an item that is too long",
                implicit(VIEW, implicit(ITEM, b"", 2)),
                ["0054,0220 SQ 19 WrongItems"],
            ),
            (
                "an item that is not closed",
                implicit(VIEW, implicit(ITEM, b"", UNDEFINED)),
                ["0054,0220 SQ 19 WrongItems"],
            ),
            (
                "an element that is too long",
                sequence(VIEW, implicit((0x0018, 0x0081), b"", 2)),
                ["0054,0220 SQ 19 WrongItems"],
            ),
            (
                "tags that don't rise, which are read on",
                sequence(VIEW, implicit((0x0018, 0x0081), b"x ") * 2),
                ["0018,0081 DS 1 BadCharacter", "0054,0220 SQ 19 WrongItems"]
                + ["0018,0081 DS 1 BadCharacter"],
            ),
        ),
    )
    def test_notes(self, checked, data, notes):
        assert checked(data) == (notes, "")

    def test_depth(self, checked):
        """The maximum number of levels of a data set: 32 sequences, each with an item."""
        data = b""
        for _ in range(32):
            data = sequence(MODIFIER, data)
        assert checked(data) == ([], "")
        assert checked(sequence(MODIFIER, data)) == (["0054,0222 SQ 19 WrongItems"], "")

    @pytest.mark.parametrize(
        "data, syntax, count",
        cases(
            ("a private element", implicit((0x0009, 0x1010), b"AB"), IMPLICIT, 1),
            ("one without value", implicit((0x0009, 0x1010)), IMPLICIT, 0),
            ("a private sequence", sequence((0x0009, 0x1010), b""), IMPLICIT, 1),
            (
                "one of undefined length",
                sequence((0x0009, 0x1010), implicit((0x0011, 0x1010), b"AB"), is_open=True),
                IMPLICIT,
                1,
            ),
            ("UN", element((0x0009, 0x1010), "UN", b"AB"), EXPLICIT, 1),
            ("LT", element((0x0009, 0x1010), "LT", b"AB"), EXPLICIT, 0),
        ),
    )
    def test_not_judged(self, checked, data, syntax, count):
        assert checked(data, syntax) == ([], f"dcmbox: not judged {count}\n" if count else "")

    def test_of_several_files(self, run, put):
        private = implicit((0x0009, 0x1010), b"AB")
        for name, data in {"1": private, "2": b"", "3": private + implicit((0x0009, 0x1011), b"AB")}.items():
            put({f"a/{name}": file(with_uids(data, IMPLICIT))})
        done = run("check", "--strict", "--recursive", "a")
        assert (done.returncode, done.stderr) == (0, "dcmbox: not judged 3\n")
        assert run("check", "--recursive", "a").stderr == ""


def test_pydicom(run):
    """Each element of pydicom's own files in Implicit VR has the VR that pydicom finds."""
    pydicom = pytest.importorskip("pydicom")
    from pydicom.data import get_testdata_file

    def vrs(dataset):
        for one in dataset:
            yield f"{one.tag.group:04x},{one.tag.elem:04x}", one.VR[:2]
            if one.VR == "SQ":
                for item in one.value:
                    yield from vrs(item)

    for name in ["rtplan.dcm", "rtdose.dcm", "MR_small_implicit.dcm"]:
        path = get_testdata_file(name)
        with warnings.catch_warnings():
            warnings.simplefilter("ignore")
            expected = list(vrs(pydicom.dcmread(path)))
        found = json.loads(run("show", "--json", path).stdout)
        assert found["result"] == "good" and len(expected) > 20
        ours = [(e["tag"], e["vr"] or "UN") for e in found["elements"] if e["tag"][:4] != "fffe"]
        assert ours == expected
