"""The texts of data sets in JSON: those of pydicom's files of character sets, and of generated files."""
import json
import pathlib
import re

import pytest
from samples import HEADER, cases
from peer import element
from studies import image

# pydicom's files, and whether `show` decodes their character set.
READ = [
    *("chrArab.dcm", "chrFren.dcm", "chrFrenMulti.dcm", "chrGerm.dcm", "chrGreek.dcm"),
    *("chrHbrw.dcm", "chrRuss.dcm", "chrX1.dcm"),
]
UNREAD = [
    *("chrH31.dcm", "chrH32.dcm", "chrI2.dcm", "chrJapMulti.dcm", "chrJapMultiExplicitIR6.dcm"),
    *("chrKoreanMulti.dcm", "chrX2.dcm", "chrSQEncoding1.dcm"),
    # Of UTF-8, with an item in another set.
    "chrSQEncoding.dcm",
]
TEXTS = ("SH", "LO", "ST", "LT", "PN", "UC", "UT")
# Values of Specific Character Set, and Python's names of the sets.
PARTS = {
    **{"ISO_IR 100": "latin-1", "ISO_IR 101": "iso8859-2", "ISO_IR 109": "iso8859-3"},
    **{"ISO_IR 110": "iso8859-4", "ISO_IR 144": "iso8859-5", "ISO_IR 127": "iso8859-6"},
    **{"ISO_IR 126": "iso8859-7", "ISO_IR 138": "iso8859-8", "ISO_IR 148": "iso8859-9"},
    **{"ISO_IR 166": "iso8859-11", "ISO_IR 203": "iso8859-15"},
}


@pytest.fixture
def shown(run):
    """Returns a function that returns the elements that `show` finds in a file."""

    def elements(path):
        done = run("show", "--json", "--values", str(path))
        assert done.returncode == 0 and done.stderr == ""
        return json.loads(done.stdout)["elements"]

    return elements


def texts_of(path):
    """Yields the texts of 1 to 64 bytes of a file, as pydicom decodes them."""
    pydicom = pytest.importorskip("pydicom")
    raw = pydicom.dcmread(path)
    for element in raw.iterall():
        if element.VR in TEXTS and element.value:
            several = isinstance(element.value, pydicom.multival.MultiValue)
            values = element.value if several else [element.value]
            text = "\\".join(str(value) for value in values)
            yield f"{element.tag.group:04x},{element.tag.element:04x}", text


def path_of(name):
    pytest.importorskip("pydicom")
    import pydicom.data

    return pathlib.Path(pydicom.data.__file__).parent / "charset_files" / name


@pytest.mark.parametrize("name", READ)
def test_sets_that_are_read(shown, name):
    path = path_of(name)
    found = [
        # (pydicom omits empty component groups)
        (one["tag"], one["value"].rstrip(" ="))
        for one in shown(path)
        if one["vr"] in TEXTS and "value" in one
    ]
    expected = [(tag, text.rstrip(" =")) for tag, text in texts_of(path) if len(text) <= 20]
    assert expected and set(expected) <= set(found)
    assert not any("%" in value for _, value in found)


@pytest.mark.parametrize("name", UNREAD)
def test_sets_that_are_not_read(shown, name):
    values = [one["value"] for one in shown(path_of(name)) if "value" in one]
    assert any("%" in value for value in values)
    assert all(value.isascii() for value in values)


def of_set(term, text, tag=(0x10, 0x10), vr="PN"):
    """Returns a file with a text in this character set, by default a patient's name."""
    padded = term.encode() + b" " * (len(term) % 2)
    value = text + b" " * (len(text) % 2)
    return HEADER + element((0x08, 0x05), "CS", padded) + element(tag, vr, value)


@pytest.mark.parametrize(
    "rows",
    cases(
        (
            # The examples of PS3.5 annexes H, I and J that fit in a JSON string.
            "texts in json",
            [
                ("", b"Doe^J\xe9", "Doe^J%e9"),
                ("ISO_IR 100", b"Buc^J\xe9r\xf4me", "Buc^J\u00e9r\u00f4me"),
                ("ISO_IR 101 ", b"W\xb1\xbf", "W\u0105\u017c"),
                ("ISO_IR 144", b"\xbb\xee\xda", "\u041b\u044e\u043a"),
                ("ISO_IR 126", b"\xc4\xe9\xef", "\u0394\u03b9\u03bf"),
                ("ISO_IR 127", b"\xe2\xc7", "\u0642\u0627"),
                ("ISO_IR 138", b"\xf9\xf8", "\u05e9\u05e8"),
                ("ISO_IR 166", b"\xa1\xdb", "\u0e01%db"),
                ("ISO_IR 203", b"\xa4", "\u20ac"),
                ("ISO_IR 192", b"\xe7\x8e\x8b^\xf0\x9f\x98\x80", "\u738b^\U0001f600"),
            ],
        ),
        (
            "bytes that are no text",
            [
                # A byte alone, an overlong form, a surrogate, and a character that is cut.
                ("ISO_IR 192", b"a\x80b\xc0\xaf\xed\xa0\x80\xe7\x8e", "a%80b%c0%af%ed%a0%80%e7%8e"),
                # Code extensions, GB 18030, and sets that are not known.
                ("ISO 2022 IR 100", b"\xe9\x1b-", "%e9%1b-"),
                ("\\ISO 2022 IR 87", b"\xe9", "%e9"),
                ("GB18030", b"\xcd\xf5", "%cd%f5"),
                ("ISO_IR 13", b"\xd4", "%d4"),
                ("ISO_IR 1000", b"\xe9", "%e9"),
            ],
        ),
        (
            "characters that json escapes",
            [
                ("ISO_IR 192", rb'a"b\c', r"a\"b\\c"),
                ("ISO_IR 192", b"1\r\n2\t3\x0c4", r"1\r\n2\t3\f4"),
                ("ISO_IR 192", b"\x01\x1b\x7f\x0b%", "%01%1b%7f%0b%25"),
                # Control characters from 80H on, in UTF-8 and in ISO 8859.
                ("ISO_IR 192", b"\xc2\x85", "%c2%85"),
                ("ISO_IR 100", b"\x85\xa0", "%85\u00a0"),
            ],
        ),
    ),
)
def test_strings(run, put, rows):
    """The strings of JSON are these, character by character."""
    put({f"in/{at:02}": of_set(term, text, (0x10, 0x20), "LO") for at, (term, text, _) in enumerate(rows)})
    done = run("show", "--json", "--values", "--tag", "PatientID", "-r", "in")
    assert (done.returncode, done.stderr) == (0, "")
    assert re.findall('"value":"(.*)"}],"result":"good"', done.stdout) == [wanted for *_, wanted in rows]


@pytest.mark.parametrize("term, codec", PARTS.items())
def test_each_byte_of_a_part(shown, put, term, codec):
    """Each byte from 80H is decoded as by Python, or is in hexadecimal if it is a control character."""
    for first in range(0x80, 0x100, 0x20):
        data = bytes(range(first, first + 0x20)) + b"."
        path = put({"part.dcm": of_set(term, data)})
        expected = ""
        for byte in data:
            letter = bytes([byte]).decode(codec, "ignore")
            is_control = not letter or ord(letter) < 0xA0 and ord(letter) > 0x7E
            expected += f"%{byte:02x}" if is_control else letter
        assert shown(path)[-1]["value"] == expected


@pytest.mark.parametrize(
    "text", [b"\xff", b"a\xc3", b"\xc3\xa9\xa9b", b"\xed\xa0\x80", b"\xf4\x90\x80\x80", b"\xc0\x80"]
)
def test_invalid_utf_8(shown, put, text):
    """Bytes that Python can't decode are in hexadecimal, and each byte of the text can be restored."""
    path = put({"utf8.dcm": of_set("ISO_IR 192", text)})
    value = shown(path)[-1]["value"]
    back = b""
    rest = value.encode()
    while rest:
        is_byte = rest[:1] == b"%"
        back += bytes([int(rest[1:3], 16)]) if is_byte else rest[:1]
        rest = rest[3 if is_byte else 1 :]
    assert back == text and "%" in value


def test_a_list_as_json(run, put):
    term = "ISO_IR 144"
    name = "\u041b\u044e\u043a".encode("iso8859-5")
    data = image(name=name, description=name)
    data = HEADER + element((0x08, 0x05), "CS", term.encode()) + data[len(HEADER) :]
    put({"in/I0000001": data, "in/I0000002": image(study="1.2.4", name=b"J\xe9")})
    found = json.loads(run("list", "in", "--json", "--series").stdout)["studies"]
    assert found[0]["patient_name"] == "\u041b\u044e\u043a"
    assert found[0]["series"][0]["description"] == "\u041b\u044e\u043a"
    assert found[1]["patient_name"] == "J%e9"
    assert run("list", "in").stdout.startswith("20260101\tP1\t%bb%ee%da\t")
